#!/usr/bin/env python3
"""Stops scripts of 100 requests behind each number of calls, by `crash`, and looks at four images of each stop.

    python3 tools/crash_stops.py PROGRAM

The first script has one stream and begins on an empty image; the second one has four, and begins on an image that another script
left unclosed. Of each stop there is the image of all that was flushed, that of all that was written, and two that are mixed. The
audit of each is clean, and each address holds what the script may have left there: not what was never written, nothing older than
what the stream wrote before its last flush that was answered by then, and nothing older than the image of all that was flushed
has, behind this stop or an earlier one.

A line tells of each image of which that isn't so, and the last one how many there were. The status is 1 where there is such a
line.
"""

from __future__ import annotations

import argparse
import itertools
import os
import random
import re
import shutil
import subprocess
import sys
import tempfile
from collections.abc import Sequence
from concurrent.futures import ThreadPoolExecutor
from dataclasses import dataclass
from pathlib import Path

REQUESTS = 100
# All that was flushed, all that was written, and two that draw for each sector what it has.
DURABLE, *OTHERS = IMAGES = (0, 1, 7, 12345)
SIZES = ("--journal", "256")
IMAGE_BLOCKS = "402"
# On both sides of the end of a leaf, and at the end of the device.
ADDRESSES = (0, 1, 5, 500, 810, 811, 812, 999)
MOST_CALLS = 1 << 14
TOLD = re.compile(r"(stopped|ended)\n(?:clean|recovered \d+ entries)\n((?:\d+ 4096\*[0-9a-f]{2}\n)*)audit clean, used \d+ of 64\n")


class Wrong(Exception):
    """What a crash told that may not be."""


@dataclass(frozen=True)
class Request:
    """A request of a script. A write and a discard leave blocks of this byte."""

    line: str
    address: int | None = None
    byte: int = 0

    @property
    def is_flush(self) -> bool:
        return self.line.endswith("flush")


@dataclass(frozen=True)
class Told:
    """What a crash tells: whether the script ran to its end, and the byte of the block at each address."""

    ended: bool
    bytes_at: dict[int, int]


@dataclass(frozen=True)
class Case:
    """A script, and the image that it begins on."""

    name: str
    program: str
    image: Path
    script: tuple[Request, ...]
    streams: int
    schedule: int

    def crash(self, after: int, image: int, length: int = REQUESTS) -> Told:
        """What a stop of the first requests of the script behind so many calls leaves."""
        words = ("crash", "--after", str(after), "--image", str(image), "--schedule", str(self.schedule))
        script = "".join(f"{request.line}\n" for request in self.script[:length])
        ran = subprocess.run([self.program, str(self.image), IMAGE_BLOCKS, *words], input=script, stdout=subprocess.PIPE, text=True)
        found = TOLD.fullmatch(ran.stdout)
        if found is None or ran.returncode != 0:
            raise Wrong(f"status {ran.returncode}: {ran.stdout.strip()}")
        pairs = (line.split(" 4096*") for line in found[2].splitlines())
        return Told(found[1] == "ended", {int(address): int(byte, 16) for address, byte in pairs})

    def calls(self, length: int = REQUESTS) -> int:
        """How many calls the first requests take."""
        few, enough = -1, MOST_CALLS
        while enough - few > 1:
            middle = (few + enough) // 2
            few, enough = (few, middle) if self.crash(middle, DURABLE, length).ended else (middle, enough)
        return enough

    def flushes(self) -> list[tuple[int, int]]:
        """By how many calls the flush at which place is answered, where one stream waits for each answer."""
        places = [place for place, request in enumerate(self.script) if request.is_flush and self.streams == 1]
        return [(self.calls(place + 1), place) for place in places]

    def ages(self, before: dict[int, int]) -> dict[int, list[tuple[int, int]]]:
        """The place of each request that leaves a block at an address, with its byte, behind what was there before."""
        ages = {address: [(-1, byte)] for address, byte in before.items()}
        for place, request in enumerate(self.script):
            if request.address is not None:
                ages[request.address].append((place, request.byte))
        return ages


def drawn(streams: int, seed: int) -> tuple[Request, ...]:
    """Requests of streams of which each has addresses of its own. All that they write differs, and each ends with a flush."""
    draw = random.Random(seed)
    requests = []
    for place in range(REQUESTS - streams):
        stream = draw.randrange(streams)
        address = draw.choice(ADDRESSES[stream::streams])
        word = draw.choice(("write",) * 6 + ("discard", "read") + ("flush",) * 2)
        byte = seed * REQUESTS + place + 1
        requests.append(
            {
                "write": Request(f"{stream} write {address} 4096*{byte:02x}", address, byte),
                "discard": Request(f"{stream} discard {address} 1", address),
                "read": Request(f"{stream} read {address}"),
                "flush": Request(f"{stream} flush"),
            }[word]
        )
    return (*requests, *(Request(f"{stream} flush") for stream in range(streams)))


def ages_of(told: Told, least: dict[int, int], ages: dict[int, list[tuple[int, int]]]) -> dict[int, int]:
    """The age of what is told at each address, where none is below these."""
    found = {}
    for address, byte in told.bytes_at.items():
        allowed = [age for age, (_, written) in enumerate(ages[address]) if written == byte]
        if not allowed:
            raise Wrong(f"address {address} holds {byte:02x}, which was never written")
        if allowed[-1] < least[address]:
            raise Wrong(f"address {address} holds {byte:02x}, which is older than what lasts")
        found[address] = min(age for age in allowed if age >= least[address])
    return found


def try_case(case: Case, before: dict[int, int], pool: ThreadPoolExecutor) -> list[str]:
    """A line for each image that may not be."""
    ages = case.ages(before)
    calls = case.calls()
    flushes = case.flushes()
    tries = list(itertools.product(range(calls + 1), IMAGES))
    told = dict(zip(tries, pool.map(lambda it: caught(case, *it), tries)))
    least = dict.fromkeys(before, 0)
    wrong = []
    for after, image in tries:
        for enough, place in flushes:
            if enough <= after:
                for address, writes in ages.items():
                    least[address] = max(least[address], sum(at < place for at, _ in writes) - 1)
        try:
            it = told[after, image]
            if isinstance(it, Wrong):
                raise it
            if it.ended != (after == calls):
                raise Wrong("it ends elsewhere")
            found = ages_of(it, least, ages)
            if image == DURABLE:
                least |= found
        except Wrong as why:
            wrong.append(f"{case.name}, behind {after} calls, image {image}: {why}")
    if any(ages[address][age][1] != ages[address][-1][1] for address, age in least.items()):
        wrong.append(f"{case.name}: not all of it lasts behind its last flushes")
    print(f"{case.name}: {len(tries)} images of {calls + 1} stops")
    return wrong


def caught(case: Case, after: int, image: int) -> Told | Wrong:
    """What a stop leaves, or what is wrong with what is told."""
    try:
        return case.crash(after, image)
    except Wrong as why:
        return why


def made(program: str, image: Path, script: Sequence[Request]) -> None:
    """Makes an image, and leaves it as this script leaves it."""
    for words, text in ((("format", *SIZES), ""), (("run",), "".join(f"{request.line}\n" for request in script))):
        ran = subprocess.run([program, str(image), IMAGE_BLOCKS, *words], input=text, stdout=subprocess.PIPE, text=True)
        if ran.returncode != 0:
            raise Wrong(f"{words[0]}: status {ran.returncode}: {ran.stdout.strip()}")


def main() -> int:
    parser = argparse.ArgumentParser(description=__doc__, formatter_class=argparse.RawDescriptionHelpFormatter)
    parser.add_argument("program", type=Path)
    program = str(parser.parse_args().program.absolute())
    folder = Path(tempfile.mkdtemp(prefix="vdo-stops-"))
    old = [Request(f"0 write {address} 4096*{byte:02x}", address, byte) for byte, address in enumerate(ADDRESSES, 0xF0)]
    try:
        made(program, folder / "empty", ())
        made(program, folder / "unclosed", old)
        one = Case("one stream", program, folder / "empty", drawn(1, 0), streams=1, schedule=0)
        four = Case("four streams", program, folder / "unclosed", drawn(4, 1), streams=4, schedule=5)
        with ThreadPoolExecutor(os.cpu_count()) as pool:
            wrong = try_case(one, dict.fromkeys(ADDRESSES, 0), pool)
            wrong += try_case(four, {request.address: request.byte for request in old}, pool)
    finally:
        shutil.rmtree(folder)
    for line in wrong:
        print(line)
    print(f"stopped scripts: {len(wrong)} images went wrong")
    return 1 if wrong else 0


if __name__ == "__main__":
    sys.exit(main())
