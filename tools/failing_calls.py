#!/usr/bin/env python3
"""Fails each call of a run on its image, its input and its output in turn, and looks at what it prints and leaves.

    python3 tools/failing_calls.py PROGRAM

The script has six requests of one stream, on an empty image. Each read, write and sync of the image fails once, without and with its
effect; each read of the input, of one byte a call and of all; and each write of the output, of one byte a call, of seven and of all.

Where a call on the image fails, the status is 3. Before the session that is `device fault` alone, and nothing was written. In the
session each request has its line: behind a read that fails, one request has `read fault`, and every other one goes on; behind a
write or a sync that fails, nothing is written or synced any more, and from the request under way on each write and flush is
`stopped`. A read gives the newest block that was answered before it. What is left is recovered and audited clean, and each address
has the newest block that was answered, or a later one of a write that was stopped.

Where the input fails, that is `read fault`, 7, and nothing was written. Where the output fails, the status is 7, what came out is a
first part of the text, and the image is that of the whole run.

A line tells of each call behind which that isn't so, and the last one how many there were. The status is 1 where there is such a
line. `cc` has to be there.
"""

from __future__ import annotations

import argparse
import os
import re
import struct
import subprocess
import sys
import tempfile
from collections.abc import Iterator
from dataclasses import dataclass
from pathlib import Path

from preloaded import compiled

PLAN = struct.Struct("@5l")
READ, WRITE, SYNC = 1, 2, 3
ENDLESS = 1 << 40
IMAGE_BLOCKS = "154"


@dataclass(frozen=True)
class Request:
    """A request, with its address, and the byte of which a write's block is."""

    asked: str
    address: int = 0
    byte: str = ""

    def line(self) -> str:
        words = {"write": f"write {self.address} 4096*{self.byte}", "read": f"read {self.address}", "flush": "flush"}
        return f"0 {words[self.asked]}\n"

    def name(self) -> str:
        return "flush" if self.asked == "flush" else f"{self.asked} {self.address}"


SCRIPT = (
    Request("write", 1, "61"),
    Request("flush"),
    Request("write", 2, "61"),
    Request("flush"),
    Request("write", 1, "62"),
    Request("read", 2),
)
ADDRESSES = (1, 2)
# On which file calls fail, how many bytes one of them takes at most, and whether they have their effect.
WAYS = (
    ("image", 0, False),
    ("image", 0, True),
    ("input", 1, False),
    ("input", 0, False),
    ("output", 1, False),
    ("output", 7, False),
    ("output", 0, False),
)


@dataclass(frozen=True)
class Failure:
    """Which call on which file fails, with its effect or without, of calls for so many bytes."""

    file: str
    number: int
    effect: bool = False
    most: int = 0

    def __str__(self) -> str:
        return f"{self.file}, call {self.number}, {'with' if self.effect else 'without'} effect, {self.most or 'all'} bytes a call"


@dataclass(frozen=True)
class Ended:
    """How a run ended: its status and output, what it left, how many calls were left to fail, the kind of the failed one, and how many
    calls behind it wrote or synced."""

    status: int
    printed: str
    image: bytes
    left: int
    failed: int
    later: int


class Wrong(Exception):
    """What may not be."""


def hold(is_so: bool, why: str) -> None:
    if not is_so:
        raise Wrong(why)


@dataclass(frozen=True)
class Tries:
    """A program, and a folder with an empty image, the script and the library."""

    program: str
    folder: Path
    library: Path

    def said(self, command: str, script: str = "") -> str:
        """The status and the output of a command on what a run left."""
        words = [self.program, str(self.folder / "image"), IMAGE_BLOCKS, command]
        ran = subprocess.run(words, input=script, stdout=subprocess.PIPE, text=True)
        return f"{ran.returncode} {ran.stdout}"

    def run(self, failure: Failure) -> Ended:
        """How a run of the script on a copy of the empty image ends."""
        plan, image, output = (self.folder / name for name in ("plan", "image", "output"))
        plan.write_bytes(PLAN.pack(failure.number, failure.effect, failure.most, 0, 0))
        image.write_bytes((self.folder / "empty").read_bytes())
        output.write_bytes(b"")
        preload = {"LD_PRELOAD": str(self.library), "FAILED_CALL": str(plan), "FAILED_FILE": str(self.folder / failure.file)}
        with (self.folder / "input").open("rb") as lines, output.open("r+b") as text:
            words = [self.program, str(image), IMAGE_BLOCKS, "run"]
            ran = subprocess.run(words, stdin=lines, stdout=text, env=os.environ | preload)
        left, _, _, failed, later = PLAN.unpack(plan.read_bytes())
        return Ended(ran.returncode, output.read_text(), image.read_bytes(), left, failed, later)

    def whole(self, file: str, most: int = 0) -> tuple[Ended, int]:
        """How a run ends of which no call fails, and how many calls on a file it makes."""
        ended = self.run(Failure(file, ENDLESS, most=most))
        return ended, ENDLESS - ended.left


ANSWERED = re.compile(r"0 (\d) (flush|write \d|read \d) (ok|stopped|read fault|4096\*[0-9a-f]{2})(?: z0:(\d))?")


def answers_of(printed: str) -> list[str]:
    """The answers of all requests, in lines that name them in turn, and places that rise by one."""
    *lines, last = printed.splitlines()
    found = [ANSWERED.fullmatch(line) for line in lines]
    hold(len(lines) == len(SCRIPT) and all(found), "a line is no answer")
    hold(re.fullmatch(r"used \d of 64", last) is not None, "the last line tells no blocks that are used")
    named = [(int(line[1]), line[2]) for line in found]
    hold(named == [(number, request.name()) for number, request in enumerate(SCRIPT)], "a line names another request")
    places = [int(line[4]) for line in found if line[4] is not None]
    hold(places == list(range(len(places))), "the places don't rise by one")
    return [line[3] for line in found]


def newest(answers: list[str], address: int, end: int) -> tuple[str, set[str]]:
    """Of the writes to an address before a request: the byte of the newest that was answered, and those of the stopped ones since."""
    byte, stopped = "00", set()
    for request, answer in zip(SCRIPT[:end], answers):
        if request.asked == "write" and request.address == address and answer == "ok":
            byte, stopped = request.byte, set()
        elif request.asked == "write" and request.address == address and answer == "stopped":
            stopped.add(request.byte)
    return byte, stopped


def judge_answers(answers: list[str], failed: int) -> None:
    """Holds the answers to what may be said behind a failed call of this kind."""
    hold(answers.count("read fault") == (failed == READ), "read fault isn't said once for a read that failed")
    changes = [answer for request, answer in zip(SCRIPT, answers) if request.asked != "read"]
    behind = changes.index("stopped") if "stopped" in changes else len(changes)
    hold(set(changes[behind:]) <= {"stopped"}, "a change is answered behind one that was stopped")
    hold(failed != READ or "stopped" not in answers, "a request is stopped behind a failed read")
    for place, (request, answer) in enumerate(zip(SCRIPT, answers)):
        if request.asked == "read" and answer.startswith("4096*"):
            hold(answer[5:] == newest(answers, request.address, place)[0], "a read gives another block")


def judge_left(tries: Tries, answers: list[str]) -> None:
    """Holds what a run left to what was answered."""
    recovered = tries.said("recover")
    hold(re.fullmatch(r"0 (clean|recovered \d entries)\n", recovered) is not None, f"recover: {recovered}")
    audited = tries.said("audit")
    hold(audited.startswith("0 audit clean, "), f"audit: {audited}")
    read = tries.said("run", "".join(f"0 read {address}\n" for address in ADDRESSES))
    held = re.findall(r"read (\d) 4096\*(..) z", read)
    hold([int(address) for address, _ in held] == list(ADDRESSES), f"read: {read}")
    for address, byte in held:
        answered, stopped = newest(answers, int(address), len(SCRIPT))
        hold(byte in {answered} | stopped, f"address {address} holds {byte}")


def judge_image_call(tries: Tries, empty: bytes, ended: Ended) -> None:
    """Holds a run of which a call on the image failed to what may be."""
    hold(ended.status == 3, f"status {ended.status}")
    hold(ended.failed == READ or ended.later == 0, f"{ended.later} calls behind the failed one write or sync")
    if ended.printed == "device fault\n":
        hold(ended.image == empty, "the image is written before the session")
        return
    answers = answers_of(ended.printed)
    judge_answers(answers, ended.failed)
    judge_left(tries, answers)


def judge(tries: Tries, failure: Failure, ended: Ended, whole: Ended) -> None:
    """Holds a run of which this call failed to what may be."""
    empty = (tries.folder / "empty").read_bytes()
    if failure.file == "image":
        judge_image_call(tries, empty, ended)
    elif failure.file == "input":
        hold((ended.status, ended.printed, ended.image) == (7, "read fault\n", empty), f"status {ended.status}: {ended.printed}")
    else:
        hold(ended.status == 7, f"status {ended.status}")
        hold(whole.printed.startswith(ended.printed), "the output is no first part")
        hold(ended.image == whole.image, "the image isn't that of the whole run")


def failures_of(tries: Tries) -> Iterator[tuple[Failure, Ended]]:
    """Each call that fails, and how the run ends of which none does."""
    for file, most, effect in WAYS:
        whole, count = tries.whole(file, most)
        yield from ((Failure(file, number, effect, most), whole) for number in range(1, count + 1))


def faults_of(tries: Tries) -> Iterator[str | None]:
    """What is wrong behind each call that fails, if anything is."""
    for failure, whole in failures_of(tries):
        try:
            judge(tries, failure, tries.run(failure), whole)
            yield None
        except Wrong as why:
            yield f"{failure}: {why}"


def tries_in(program: Path, folder: Path) -> Tries:
    tries = Tries(str(program.absolute()), folder, compiled("fail_calls", folder))
    (folder / "input").write_text("".join(request.line() for request in SCRIPT))
    tries.said("format")
    (folder / "image").rename(folder / "empty")
    return tries


def main() -> int:
    parser = argparse.ArgumentParser(description=__doc__, formatter_class=argparse.RawDescriptionHelpFormatter)
    parser.add_argument("program", type=Path)
    given = parser.parse_args()
    with tempfile.TemporaryDirectory(prefix="vdo-failing-") as folder:
        found = list(faults_of(tries_in(given.program, Path(folder))))
    wrong = [fault for fault in found if fault is not None]
    for fault in wrong:
        print(fault)
    print(f"failing calls: {len(found)} calls, {len(wrong)} went wrong")
    return 1 if wrong else 0


if __name__ == "__main__":
    sys.exit(main())
