#!/usr/bin/env python3
"""Refuses each allocation of a command in turn, and looks at what it prints and leaves.

    python3 tools/refused_memory.py PROGRAM

Each command is called on a copy of an image once for each allocation that it makes, by the library of `refuse_memory.c`. Either it
prints and leaves what it does without a refusal; or it says `no memory`, ends with status 5, and left the image as it was. Before
that it may say that it recovered the image, and then the image is as `recover` leaves it; that it made one in memory; or that it
stopped a script.

A line tells of each command how many allocations were refused, and how many of these refusals changed nothing; one tells of each of
them behind which something else is there, and the last one how many there were. The status is 1 where there is such a line. `cc` has
to be there.
"""

from __future__ import annotations

import argparse
import itertools
import os
import struct
import subprocess
import sys
import tempfile
from dataclasses import dataclass
from pathlib import Path

from preloaded import compiled

NUMBER = struct.Struct("@l")
ENDLESS = 1 << 40
NO_MEMORY = "no memory\n"
IMAGE_BLOCKS = "154"
SCRIPT = "0 write 1 4096*61\n0 flush\n0 write 2 4096*61\n0 flush\n0 write 1 4096*62\n0 read 2\n"
FRESH, UNCLEAN = "fresh", "unclean"


@dataclass(frozen=True)
class Case:
    """A command, its words and its input, on an image by its name; without one on a device in memory."""

    image: str | None
    words: tuple[str, ...]
    script: str = ""

    def __str__(self) -> str:
        return f"{' '.join(self.words)} on {self.image or 'memory'}"


CASES = (
    Case(FRESH, ("format",)),
    Case(FRESH, ("run",), SCRIPT),
    Case(UNCLEAN, ("run",), SCRIPT),
    Case(None, ("run",), SCRIPT),
    Case(FRESH, ("workload", "--requests", "30", "--streams", "2")),
    Case(UNCLEAN, ("crash", "--after", "20", "--image", "7"), SCRIPT),
    Case(UNCLEAN, ("recover",)),
    Case(UNCLEAN, ("force-rebuild",)),
    Case(FRESH, ("grow", "--logical", "1100", "--slabs", "1")),
    Case(UNCLEAN, ("audit",)),
    Case(UNCLEAN, ("status",)),
)


@dataclass(frozen=True)
class Ended:
    """What a command printed, its status, and what it left of its image."""

    printed: str
    status: int
    image: bytes


@dataclass(frozen=True)
class Tries:
    """A program, a folder with the library, and the images by their names."""

    program: str
    folder: Path
    library: Path
    images: dict[str, bytes]

    def call(self, case: Case, number: int) -> tuple[Ended, int]:
        """How a command ends of which the allocation with this number is refused, and how many more would have to be made."""
        image, left = self.folder / "image", self.folder / "left"
        left.write_bytes(NUMBER.pack(number))
        if case.image is not None:
            image.write_bytes(self.images[case.image])
        command = [self.program, "-" if case.image is None else str(image), IMAGE_BLOCKS, *case.words]
        preload = {"LD_PRELOAD": str(self.library), "REFUSED_MEMORY": str(left)}
        ran = subprocess.run(command, input=case.script, stdout=subprocess.PIPE, text=True, env=os.environ | preload)
        kept = b"" if case.image is None else image.read_bytes()
        return Ended(ran.stdout, ran.returncode, kept), NUMBER.unpack(left.read_bytes())[0]

    def made(self, before: bytes, *words: str, script: str = "") -> bytes:
        """What a command makes of an image."""
        image = self.folder / "image"
        image.write_bytes(before)
        subprocess.run([self.program, str(image), IMAGE_BLOCKS, *words], input=script, stdout=subprocess.PIPE, text=True, check=True)
        return image.read_bytes()


def refusals(tries: Tries, case: Case, whole: Ended) -> list[Ended]:
    """How a command may end for want of memory."""
    before = b"" if case.image is None else tries.images[case.image]
    first, *_ = whole.printed.splitlines(keepends=True)
    ends = [Ended(NO_MEMORY, 5, before)]
    if case.words[0] == "crash" or case.image is None:
        ends.append(Ended(first + NO_MEMORY, 5, before))
    elif first.startswith("recovered "):
        ends.append(Ended(first + NO_MEMORY, 5, tries.made(before, "recover")))
    return ends


def try_case(tries: Tries, case: Case) -> tuple[int, list[str]]:
    """Refuses each allocation of a command: how many these are, and behind which of them something else is there."""
    whole, left = tries.call(case, ENDLESS)
    count = ENDLESS - left
    refused = refusals(tries, case, whole)
    ends = [tries.call(case, number)[0] for number in range(1, count + 1)]
    print(f"{case}: {count} refusals, {ends.count(whole)} changed nothing")
    wrong = [(number, end) for number, end in enumerate(ends, 1) if end != whole and end not in refused]
    return count, [f"{case}, allocation {number}: status {end.status}, {end.printed!r}" for number, end in wrong]


def tries_in(program: Path, folder: Path) -> Tries:
    """The images that are empty, and that a script left."""
    tries = Tries(str(program.absolute()), folder, compiled("refuse_memory", folder), {})
    tries.images[FRESH] = tries.made(b"", "format")
    tries.images[UNCLEAN] = tries.made(tries.images[FRESH], "run", script=SCRIPT)
    return tries


def main() -> int:
    parser = argparse.ArgumentParser(description=__doc__, formatter_class=argparse.RawDescriptionHelpFormatter)
    parser.add_argument("program", type=Path)
    given = parser.parse_args()
    with tempfile.TemporaryDirectory(prefix="vdo-memory-") as folder:
        tries = tries_in(given.program, Path(folder))
        counts, faults = zip(*(try_case(tries, case) for case in CASES))
    wrong = list(itertools.chain.from_iterable(faults))
    for fault in wrong:
        print(fault)
    print(f"refused memory: {sum(counts)} refusals, {len(wrong)} went wrong")
    return 1 if wrong else 0


if __name__ == "__main__":
    sys.exit(main())
