#!/usr/bin/env python3
"""Tries `run`, `workload` and `crash` where nothing is served: on images with each fault, and with scripts that are refused.

    python3 tools/refused_runs.py PROGRAM

The images are those of the cases whose recovery, audit or counts have a fault, and those whose superblock has one in a field:
each of the three commands tells that fault, with status 4, and leaves the file as it is; of counts that differ `crash` tells the
value of the script's address, and then all of them, as an audit does. The scripts have one fault each: `run` and `crash` tell it,
with status 2, and a workload reads none. And a script is cut behind each of its first bytes: it is served where its last line is
whole, and refused where it isn't.

A line tells of each try that went wrong, and the last one how many there were. The status is 1 where there is such a line.
"""

from __future__ import annotations

import argparse
import re
import shutil
import subprocess
import sys
import tempfile
from collections.abc import Iterator
from dataclasses import dataclass, field
from pathlib import Path

import whole_image
from case_images import INSPECTED, UNRECOVERED, Patch, Patches, empty, patched
from layout import DEFAULT
from plain_image import SIZES, Image

IMAGE_BLOCKS = DEFAULT.needed()
WRITE = "0 write 5 4096*61\n"
# What stands at that address on the images where it is mapped.
DATA: Patch = (86, 0, b"abbb")
CRASH = ("crash", "--after", "100", "--image", "1")
LINE = re.compile(r"\d+ (?:read \d+|write \d+ 4096\*[0-9a-f]{2}|discard \d+ \d+|flush)|")
NO_NUMBER = re.compile(r"\d+ (?:read|discard \d+) ")
CUT = "0 write 5 4096*61\n1 flush\n2 read 50\n3 discard 5 1\n"
# A script with each fault, and what is told of it.
FAULTS = (
    ("0 write 5 " + "1*61+" * 8000 + "1*61\n", "line 1: too long"),
    (WRITE + "0 erase 5\n", "line 2: word"),
    (WRITE + "\n0 read x\n", "line 3: number"),
    ("16 flush\n", "line 1: stream"),
    ("0 read 4294967296\n", "line 1: range"),
    ("0 discard 5 0\n", "line 1: range"),
    (WRITE + "0 write 6 4095*61\n", "line 2: block length"),
    ("0 flush\n" * 65537, "line 65537: too many"),
)


@dataclass
class Tries:
    """A program, a folder for its images, and what went wrong."""

    program: str
    folder: Path
    count: int = 0
    wrong: list[str] = field(default_factory=list)

    def told(self, image: bytes, words: tuple[str, ...], script: str) -> tuple[str, int, bool]:
        """What the program prints with these words on an image, its status, and whether the file is left as it is."""
        file = self.folder / "image"
        file.write_bytes(image)
        command = [self.program, str(file), str(IMAGE_BLOCKS), *words]
        ran = subprocess.run(command, input=script, stdout=subprocess.PIPE, text=True)
        return ran.stdout, ran.returncode, file.read_bytes() == image

    def look(self, name: str, found: object, expected: object) -> None:
        self.count += 1
        if found != expected:
            self.wrong.append(f"{name}: {found}, not {expected}")


def faults_of(image: Image) -> tuple[tuple[str, int], tuple[str, int]] | None:
    """What a run and a crash tell of a closed image that no session begins on, or of one that can't be recovered."""
    text, status = whole_image.recover(image)
    if status == 0:
        text, status = whole_image.audit(image)
    if status == 4:
        return (text, 4), whole_image.crash(image, (5,))
    if status == 6:
        return (f"bad image: {text.splitlines()[0]}\n", 4), whole_image.crash(image, (5,))
    return None


def faulty_images() -> Iterator[tuple[str, Patches]]:
    """The images of the cases, and superblocks with a fault in each field, with names for them. Where an update is counted twice,
    the recovery is written before that is found."""
    for name, patches in {**INSPECTED, **UNRECOVERED}.items():
        if name != "stopped-later":
            yield name, patches
    for field, start, length, _, _ in SIZES:
        yield f"a superblock with the greatest {field}", ((0, start, b"\xff" * length),)
    for place, byte in ((28, 2), (48, 2), (52, 1), (63, 64), (64, 1), (511, 1)):
        yield f"a superblock with {byte} at {place}", ((0, place, bytes([byte])),)


def try_images(tries: Tries) -> None:
    """Each command on each image with a fault."""
    for name, patches in faulty_images():
        image = patched((DATA, *patches))
        faults = faults_of(image)
        if faults is None:
            continue
        run, crash = faults
        for words, expected in ((("run",), run), (("workload",), run), (CRASH, crash)):
            tries.look(f"{words[0]} on {name}", tries.told(image.data, words, WRITE), (*expected, True))


def try_scripts(tries: Tries) -> None:
    """Each fault of a script."""
    image = bytes(empty())
    for script, text in FAULTS:
        for words in (("run",), CRASH):
            tries.look(f"{words[0]} with {text}", tries.told(image, words, script), (f"script {text}\n", 2, True))
    text, status, _ = tries.told(image, ("workload", "--requests", "1"), FAULTS[0][0])
    tries.look("a workload behind a script", (text.splitlines()[0], status), ("requests 1", 0))


def try_cuts(tries: Tries) -> None:
    """A script that is cut behind each of its first bytes."""
    image = bytes(empty())
    for length in range(len(CUT) + 1):
        script = CUT[:length]
        lines = script.split("\n")
        is_whole = LINE.fullmatch(lines[-1]) is not None
        fault = "number" if NO_NUMBER.fullmatch(lines[-1]) else "word"
        for words in (("run",), CRASH):
            text, status, is_kept = tries.told(image, words, script)
            name = f"{words[0]} behind {length} bytes"
            if not is_whole:
                tries.look(name, (text, status, is_kept), (f"script line {len(lines)}: {fault}\n", 2, True))
            elif words == CRASH:
                tries.look(name, (text.splitlines()[0], status, is_kept), ("ended", 0, True))
            else:
                tries.look(name, (len(text.splitlines()) - 1, status), (sum(map(bool, lines)), 0))


def main() -> int:
    parser = argparse.ArgumentParser(description=__doc__, formatter_class=argparse.RawDescriptionHelpFormatter)
    parser.add_argument("program", type=Path)
    folder = Path(tempfile.mkdtemp(prefix="vdo-refused-"))
    tries = Tries(str(parser.parse_args().program.absolute()), folder)
    try:
        try_images(tries)
        try_scripts(tries)
        try_cuts(tries)
    finally:
        shutil.rmtree(folder)
    for line in tries.wrong:
        print(line)
    print(f"refused runs: {tries.count} tries, {len(tries.wrong)} went wrong")
    return 1 if tries.wrong else 0


if __name__ == "__main__":
    sys.exit(main())
