#!/usr/bin/env python3
"""Puts a file of 1 MiB onto an image, and kills the program before each of its first system calls that write.

    python3 tools/killed_runs.py PROGRAM CALLS

The image has 4,096 data blocks and a journal of 1,024 blocks. The file is put by runs of 16 blocks: once onto an empty image by
one stream, and once over another file by four. After each kill the image is recovered and audited, and the file is read back. A
block of a run that ended is as that run wrote it. One of the run that was killed is old or new, and new where a flush came
between it and a new one of its stream. Each other one is old. After every twentieth kill the file is put again, whole.

A line tells of each kill behind which that isn't so, and the last one how many there were. The status is 1 where there is such a
line, and where CALLS are more than the file takes. `cc` has to be there.
"""

from __future__ import annotations

import argparse
import itertools
import shutil
import struct
import subprocess
import sys
import tempfile
from dataclasses import dataclass, field
from pathlib import Path

from file_scripts import ZEROS, Put, Stopped, get, put
from preloaded import compiled
from vector import BLOCK_BYTES

FILE_BLOCKS = 256
SIZES = ("--slabs", "1", "--slab-blocks", "4096", "--journal", "1024", "--logical", "1000")
IMAGE_BLOCKS = "5203"
PUT_AGAIN = 20
LEFT = struct.Struct("@l")


def file_of(version: int) -> dict[int, bytes]:
    """A file of which each block says its number and this version."""
    return {block: struct.pack(">HB", block, version).ljust(BLOCK_BYTES, bytes([version])) for block in range(FILE_BLOCKS)}


@dataclass(frozen=True)
class Case:
    """What an image holds before, and how the file is put over it."""

    name: str
    before: dict[int, bytes]
    how: Put


CASES = (
    Case("one stream", {}, Put(streams=1, flush_every=5, run_blocks=16)),
    Case("four streams", file_of(1), Put(streams=4, flush_every=2, run_blocks=16)),
)


@dataclass
class Tries:
    """A program, a folder for its images, and what went wrong."""

    program: str
    folder: Path
    kills: int = 0
    wrong: list[str] = field(default_factory=list)

    def command(self, image: Path, word: str) -> list[str]:
        return [self.program, str(image), IMAGE_BLOCKS, word]

    def said(self, image: Path, word: str, *options: str) -> str:
        ran = subprocess.run([*self.command(image, word), *options], stdin=subprocess.DEVNULL, stdout=subprocess.PIPE, text=True)
        return f"{ran.returncode} {ran.stdout.strip()}"

    def stopping(self, image: Path, call: int) -> list[str]:
        """The command of runs of which this call is the last."""
        (self.folder / "left").write_bytes(LEFT.pack(call))
        preload = (f"LD_PRELOAD={self.folder}/stop_writes.so", f"STOP_WRITES={self.folder}/left")
        return ["env", *preload, *self.command(image, "run")]

    def calls_left(self) -> int:
        return LEFT.unpack((self.folder / "left").read_bytes())[0]


def may_hold(new: dict[int, bytes], held: dict[int, bytes], case: Case, left: dict[int, bytes]) -> str | None:
    """What of these blocks is wrong where a put was stopped with so many left, of which the first were under way."""
    under_way = list(left)[: case.how.run_blocks]
    for address in new:
        old = case.before.get(address, ZEROS)
        allowed = {new[address]} if address not in left else {old, new[address]} if address in under_way else {old}
        if held[address] not in allowed:
            return f"block {address} holds {held[address][:4].hex()}"
    for stream in range(case.how.streams):
        mine = under_way[stream :: case.how.streams]
        flushed = [mine[at : at + case.how.flush_every] for at in range(0, len(mine), case.how.flush_every)]
        are_new = [[held[address] == new[address] for address in part] for part in flushed]
        for before, behind in itertools.pairwise(are_new):
            if any(behind) and not all(before):
                return f"a block of stream {stream} behind a flush is new, and one before it is old"
    return None


def fault_behind(tries: Tries, case: Case, image: Path, left: dict[int, bytes]) -> str | None:
    """What is wrong with an image on which a put was stopped."""
    new = file_of(2)
    recovered = tries.said(image, "recover")
    if not recovered.startswith(("0 recovered ", "0 clean")):
        return f"recover: {recovered}"
    audited = tries.said(image, "audit")
    if not audited.startswith("0 audit clean, "):
        return f"audit: {audited}"
    held = get(range(FILE_BLOCKS), tries.command(image, "run"))
    if fault := may_hold(new, held, case, left):
        return fault
    if tries.kills % PUT_AGAIN == 0:
        list(put(dict(new), tries.command(image, "run"), Put()))
        if get(range(FILE_BLOCKS), tries.command(image, "run")) != new:
            return "the file that was put again isn't there"
    return None


def kill_before(tries: Tries, case: Case, made: Path, call: int) -> str | None:
    """Puts the file onto a copy of an image, with a kill before this call, and tells what is wrong then."""
    image = tries.folder / "killed"
    subprocess.run(["cp", "--sparse=always", made, image], check=True)
    left = file_of(2)
    try:
        list(put(left, tries.stopping(image, call), case.how))
    except Stopped:
        pass
    if tries.calls_left() != 0:
        return "the program isn't stopped there"
    tries.kills += 1
    try:
        return fault_behind(tries, case, image, left)
    except Stopped as why:
        return str(why)


def try_case(tries: Tries, case: Case, calls: int) -> None:
    made = tries.folder / "made"
    made.unlink(missing_ok=True)
    if not tries.said(made, "format", *SIZES).startswith("0 formatted "):
        raise Stopped("no image was made")
    list(put(dict(case.before), tries.command(made, "run"), Put()))
    for call in range(1, calls + 1):
        if fault := kill_before(tries, case, made, call):
            tries.wrong.append(f"{case.name}, call {call}: {fault}")


def main() -> int:
    parser = argparse.ArgumentParser(description=__doc__, formatter_class=argparse.RawDescriptionHelpFormatter)
    parser.add_argument("program", type=Path)
    parser.add_argument("calls", type=int)
    given = parser.parse_args()
    folder = Path(tempfile.mkdtemp(prefix="vdo-killed-"))
    tries = Tries(str(given.program.absolute()), folder)
    try:
        compiled("stop_writes", folder)
        for case in CASES:
            try_case(tries, case, given.calls)
    finally:
        shutil.rmtree(folder)
    for fault in tries.wrong:
        print(fault)
    print(f"killed runs: {tries.kills} kills, {len(tries.wrong)} went wrong")
    return 1 if tries.wrong else 0


if __name__ == "__main__":
    sys.exit(main())
