#!/usr/bin/env python3
"""Runs scripts with each number of zones and several depths, stops them by `crash`, and judges what is told.

    python3 tools/zoned_runs.py PROGRAM [--schedules N] [--stops N]

By each schedule below N, with 1 to 4 logical and 1 to 4 physical zones, depths of 1, 3 and 16, and block maps of height 2 and 3, a
script of four streams that have their addresses in common is run on a new image, and another script, with another setup, on what the
first one left. Of both there is a line for each request, stream after stream, and

- its place is in zone (address / 812 mod 60) mod zones, the numbers of a zone are 0, 1, 2 and so on, each once, and those of the
  requests of a stream rise;
- a read shows what the last write or discard before its place left that was answered `ok`, or what the image had;
- a write is answered `no space` only where the other writes, and pages, may have had all data blocks at once;
- the audit behind it, and behind a recovery, is clean, and counts as many used blocks as the run told.

The first script is stopped with the same setup behind some of its calls too, or with `--stops 0` behind each: the audit is clean,
and each address holds what was there, or what a request of the script left, and nothing older than what lasted behind an earlier
stop. Behind all calls, what was written is what the last requests left, and at depth 1 all before the last flush of a stream lasts.

On an image with one free block of 64, 32 writes of 16 streams to what has no block yet are served: exactly one of them is answered
`ok`, and the others `no space`. On one with eight free blocks eight such writes are all answered `ok`.

A line tells of each run that went wrong, and the last one how many there were. The status is 1 where one did.
"""

from __future__ import annotations

import argparse
import itertools
import os
import random
import re
import shutil
import subprocess
import sys
import tempfile
from collections import Counter
from collections.abc import Iterator, Sequence
from concurrent.futures import ThreadPoolExecutor
from dataclasses import dataclass
from pathlib import Path

from crash_stops import Request, Told, Wrong, ages_of
from file_scripts import number_from
from layout import SLOTS_PER_PAGE, TREES, Geometry

STREAMS = 4
REQUESTS = 24
DEPTHS = (1, 3, 16)
HEIGHTS = (2, 3)
MOST_ZONES = 4
# In four trees, and on both sides of the end of a leaf.
ADDRESSES = (0, 811, 812, 1624, 2436, 3247)
SIZES = Geometry(logical=3248, slabs=2, journal=64)
# With four slabs each of four physical zones has one.
FULL = Geometry(logical=3248, slabs=4, slab_blocks=16, journal=128)
ANSWERS = r"ok|no space|full|4096\*[0-9a-f]{2}"
ANSWER = re.compile(rf"(\d+) (\d+) (read|write|discard|flush)(?: (\d+))? ({ANSWERS})(?: z(\d+):(\d+))?")
USED = re.compile(r"used (\d+) of (\d+)")
TOLD = re.compile(r"(stopped|ended)\n(?:clean|recovered \d+ entries)\n((?:\d+ 4096\*[0-9a-f]{2}\n)*)audit clean, used \d+ of \d+\n")
CLEAN = re.compile(r"audit clean, used (\d+) of (\d+)\n")
DURABLE, WRITTEN = IMAGES = (0, 1)
MOST_CALLS = 1 << 9


@dataclass(frozen=True)
class Setup:
    """How a core is set up, and its schedule."""

    logical: int
    physical: int
    depth: int
    schedule: int

    def words(self) -> tuple[str, ...]:
        zones = ("--logical-zones", str(self.logical), "--physical-zones", str(self.physical))
        return (*zones, "--depth", str(self.depth), "--schedule", str(self.schedule))

    def other(self) -> Setup:
        """One of which each number is another."""
        depth = DEPTHS[(DEPTHS.index(self.depth) + 1) % len(DEPTHS)]
        return Setup(self.logical % MOST_ZONES + 1, self.physical % MOST_ZONES + 1, depth, self.schedule + 1)

    def zone_of(self, address: int) -> int:
        return address // SLOTS_PER_PAGE % TREES % self.logical


@dataclass(frozen=True)
class Line:
    """A request, its answer and its place."""

    request: Request
    answer: str
    place: tuple[int, int] | None

    @property
    def stream(self) -> str:
        return self.request.line.split(" ")[0]

    @property
    def word(self) -> str:
        return self.request.line.split(" ")[1]


@dataclass(frozen=True)
class Ran:
    """What a run told, and how many data blocks are used, of how many."""

    lines: tuple[Line, ...]
    used: int
    total: int

    def count(self, answer: str) -> int:
        return sum(line.word == "write" and line.answer == answer for line in self.lines)


@dataclass(frozen=True)
class Image:
    """A program, and a file with an image."""

    program: str
    file: Path
    sizes: Geometry

    def run(self, words: Sequence[str], requests: Sequence[Request] = ()) -> tuple[int, str]:
        script = "".join(f"{request.line}\n" for request in requests)
        command = [self.program, str(self.file), str(self.sizes.needed()), *words]
        ran = subprocess.run(command, input=script, stdout=subprocess.PIPE, text=True)
        return ran.returncode, ran.stdout

    def make(self) -> None:
        words = ("logical", "slabs", "slab_blocks", "journal", "height")
        options = (f"--{word.replace('_', '-')}={getattr(self.sizes, word)}" for word in words)
        status, told = self.run(("format", *options))
        if status != 0:
            raise Wrong(f"format: status {status}: {told.strip()}")

    def used(self) -> int:
        """How many blocks a clean audit counts."""
        status, told = self.run(("audit",))
        found = CLEAN.fullmatch(told)
        if found is None or status != 0:
            raise Wrong(f"audit: status {status}: {told.strip()}")
        return int(found[1])

    def serve(self, setup: Setup, requests: Sequence[Request], before: dict[int, int]) -> Ran:
        """Runs a script on what the image has at its addresses, and judges what is told. Then `before` is what it has."""
        free = self.sizes.slabs * self.sizes.slab_blocks - self.used()
        ran = ran_of(*self.run(("run", *setup.words()), requests), requests)
        judge_places(setup, ran.lines)
        judge_values(ran.lines, before)
        judge_space(ran, free, self.sizes.height)
        if self.used() != ran.used:
            raise Wrong(f"used {ran.used}, and the audit counts {self.used()}")
        return ran

    def crash(self, setup: Setup, requests: Sequence[Request], after: int, number: int) -> Told:
        status, told = self.run(("crash", "--after", str(after), "--image", str(number), *setup.words()), requests)
        found = TOLD.fullmatch(told)
        if found is None or status != 0:
            raise Wrong(f"behind {after} calls, image {number}: status {status}: {told.strip()}")
        pairs = (line.split(" 4096*") for line in found[2].splitlines())
        return Told(found[1] == "ended", {int(address): int(byte, 16) for address, byte in pairs})


def ran_of(status: int, told: str, requests: Sequence[Request]) -> Ran:
    """What a run told of these requests, each with a line, stream after stream."""
    requests = sorted(requests, key=lambda request: int(request.line.split(" ")[0]))
    lines = [line for line in told.splitlines() if not line.startswith("recovered ")]
    used = USED.fullmatch(lines[-1]) if lines else None
    if used is None or len(lines) != len(requests) + 1:
        raise Wrong(f"run: status {status}: {told.strip()}")
    numbers: Counter[str] = Counter()
    found = []
    for request, line in zip(requests, lines):
        stream, word, *rest = request.line.split(" ")
        it = ANSWER.fullmatch(line)
        if it is None:
            raise Wrong(f"no answer: {line}")
        address = rest[0] if rest else None
        if (it[1], it[2], it[3], it[4]) != (stream, str(numbers[stream]), word, address):
            raise Wrong(f"{request.line}: {line}")
        numbers[stream] += 1
        found.append(Line(request, it[5], (int(it[6]), int(it[7])) if it[6] else None))
    refused = any(line.answer in ("full", "no space") for line in found)
    if status != refused:
        raise Wrong(f"run: status {status}")
    return Ran(tuple(found), int(used[1]), int(used[2]))


def address_of(line: Line) -> int:
    """The address that a request names; a read is no write of it."""
    return int(line.request.line.split(" ")[2])


def judge_places(setup: Setup, lines: Sequence[Line]) -> None:
    """Each request for a block has one place, in the zone of its address."""
    numbers: dict[int, list[int]] = {zone: [] for zone in range(setup.logical)}
    last: dict[tuple[str, int], int] = {}
    for line in lines:
        if (line.place is None) != (line.word == "flush"):
            raise Wrong(f"{line.request.line}: its place is {line.place}")
        if line.place is None:
            continue
        zone, number = line.place
        if zone != setup.zone_of(address_of(line)):
            raise Wrong(f"{line.request.line}: it is in zone {zone}")
        numbers[zone].append(number)
        key = (line.stream, zone)
        if number <= last.get(key, -1):
            raise Wrong(f"{line.request.line}: a later request of its stream has a lower number")
        last[key] = number
    for zone, found in numbers.items():
        if sorted(found) != list(range(len(found))):
            raise Wrong(f"the numbers of zone {zone} are {sorted(found)}")


def placed(lines: Sequence[Line]) -> list[Line]:
    """The requests for blocks in the order of their places."""
    return sorted((line for line in lines if line.place is not None), key=lambda line: line.place)


def judge_values(lines: Sequence[Line], values: dict[int, int]) -> None:
    """Each read shows the last value before its place, and `values` are then the last ones."""
    for line in placed(lines):
        address = address_of(line)
        if line.word == "read":
            if line.answer != f"4096*{values.get(address, 0):02x}":
                raise Wrong(f"{line.request.line} at {line.place}: {line.answer}, not {values.get(address, 0):02x}")
        elif line.answer == "ok":
            values[address] = line.request.byte


def judge_space(ran: Ran, free: int, height: int) -> None:
    """No write is without space where the others, and the pages above their leaves, can't have had all blocks that were free."""
    writes = [line for line in ran.lines if line.word == "write"]
    leaves = len({address_of(line) // SLOTS_PER_PAGE for line in writes})
    most = len(writes) - 1 + leaves * (height - 1)
    if most < free and ran.count("no space"):
        raise Wrong(f"no space, and of {free} free blocks at most {most} were taken")


def drawn(seed: int, first: int) -> tuple[Request, ...]:
    """Requests of four streams for the same addresses. The bytes that they write differ, and begin with this one."""
    draw = random.Random(seed)
    requests = []
    for place in range(REQUESTS):
        stream, address = draw.randrange(STREAMS), draw.choice(ADDRESSES)
        word = draw.choice(("write",) * 6 + ("read",) * 4 + ("discard", "flush"))
        byte = first + place
        requests.append(
            {
                "write": Request(f"{stream} write {address} 4096*{byte:02x}", address, byte),
                "read": Request(f"{stream} read {address}"),
                "discard": Request(f"{stream} discard {address} 1", address),
                "flush": Request(f"{stream} flush"),
            }[word]
        )
    return tuple(requests)


def stops_of(image: Image, setup: Setup, requests: Sequence[Request], most: int, draw: random.Random) -> list[int]:
    """Behind how many calls the script is stopped: some of them, or each, and behind all."""
    few, enough = -1, MOST_CALLS
    while enough - few > 1:
        middle = (few + enough) // 2
        few, enough = (few, middle) if image.crash(setup, requests, middle, DURABLE).ended else (middle, enough)
    behind = range(enough)
    return [*(behind if most == 0 else sorted(draw.sample(behind, min(most, enough)))), enough]


def flushed(setup: Setup, lines: Sequence[Line]) -> list[Line]:
    """At depth 1, the requests that stand before the last flush of their stream: they are answered before it begins."""
    found = []
    for stream in {line.stream for line in lines}:
        own = [line for line in lines if line.stream == stream]
        ends = [place for place, line in enumerate(own) if line.word == "flush"]
        found += own[: ends[-1]] if ends and setup.depth == 1 else []
    return found


def judge_stops(image: Image, setup: Setup, requests: Sequence[Request], lines: Sequence[Line], most: int) -> int:
    """Stops a script that a run served from an empty image, and gives how many images were judged."""
    ages = {address: [(-1, 0)] for address in ADDRESSES}
    least = dict.fromkeys(ADDRESSES, 0)
    lasting = dict(least)
    covered = {(line.stream, line.place) for line in flushed(setup, lines)}
    for place, line in enumerate(placed(lines)):
        if line.word != "read" and line.answer == "ok":
            address = address_of(line)
            if (line.stream, line.place) in covered:
                lasting[address] = len(ages[address])
            ages[address].append((place, line.request.byte))
    stops = stops_of(image, setup, requests, most, random.Random(setup.schedule))
    for after, number in itertools.product(stops, IMAGES):
        told = image.crash(setup, requests, after, number)
        if told.ended != (after == stops[-1]):
            raise Wrong(f"behind {after} calls: it ends elsewhere")
        if told.ended:
            least = {address: max(age, lasting[address]) for address, age in least.items()}
        found = ages_of(told, least, ages)
        if number == DURABLE:
            least |= found
        elif told.ended and any(told.bytes_at[address] != ages[address][-1][1] for address in told.bytes_at):
            raise Wrong(f"behind all calls there is {told.bytes_at}")
    return len(stops) * len(IMAGES)


def try_setup(program: str, folder: Path, setup: Setup, height: int, most: int) -> int:
    """A run, one with another setup on what it left, and stops of the first. Gives how many images were judged."""
    empty = Image(program, folder / "empty", Geometry(**{**vars(SIZES), "height": height}))
    empty.make()
    image = Image(program, folder / "image", empty.sizes)
    shutil.copyfile(empty.file, image.file)
    values: dict[int, int] = {}
    first, second = drawn(2 * setup.schedule, 0x11), drawn(2 * setup.schedule + 1, 0x61)
    ran = image.serve(setup, first, values)
    image.serve(setup.other(), second, values)
    reads = tuple(Request(f"{address % STREAMS} read {address}") for address in ADDRESSES)
    image.serve(setup, reads, values)
    used = image.used()
    if image.run(("recover",))[0] != 0 or image.used() != used:
        raise Wrong("the recovery")
    return 3 + judge_stops(empty, setup, first, ran.lines, most)


def filled(image: Image, free: int, physical: int) -> dict[int, int]:
    """Makes an image of which so many data blocks are free, with the leaves of two trees."""
    image.make()
    values: dict[int, int] = {}
    blocks = image.sizes.slabs * image.sizes.slab_blocks - 2 - free
    addresses = [(k % 2) * SLOTS_PER_PAGE + k // 2 for k in range(blocks)]
    requests = [Request(f"0 write {address} 4096*{k + 1:02x}", address, k + 1) for k, address in enumerate(addresses)]
    if image.serve(Setup(2, physical, 1, 0), requests, values).count("ok") != blocks:
        raise Wrong("the image isn't filled")
    return values


def fresh(writes: int, streams: int) -> tuple[Request, ...]:
    """Writes of addresses that have no block yet, of the leaves that are there, and a read of each."""
    addresses = [(k % 2) * SLOTS_PER_PAGE + 400 + k // 2 for k in range(writes)]
    written = (Request(f"{k % streams} write {at} 4096*{k + 0x80:02x}", at, k + 0x80) for k, at in enumerate(addresses))
    return (*written, *(Request(f"{k % streams} read {at}") for k, at in enumerate(addresses)))


def try_space(program: str, folder: Path, setup: Setup) -> int:
    """Writes where one block is free, and where one is free for each."""
    image = Image(program, folder / "full", FULL)
    for free, writes in ((1, 32), (8, 8)):
        values = filled(image, free, setup.physical)
        ran = image.serve(setup, fresh(writes, 16), values)
        if (ran.count("ok"), ran.count("no space"), ran.used) != (free, writes - free, ran.total):
            raise Wrong(f"of {writes} writes {ran.count('ok')} had one of {free} blocks, and {ran.used} are used")
    return 2


def setups(schedules: int) -> Iterator[Setup]:
    zones = range(1, MOST_ZONES + 1)
    for schedule, logical, physical, depth in itertools.product(range(schedules), zones, zones, DEPTHS):
        yield Setup(logical, physical, depth, schedule)


def tried(program: str, kind: str, setup: Setup, height: int, most: int) -> tuple[int, str | None]:
    """How many images were judged, and what is wrong."""
    with tempfile.TemporaryDirectory(prefix="vdo-zones-") as name:
        try:
            if kind == "space":
                return try_space(program, Path(name), setup), None
            return try_setup(program, Path(name), setup, height, most), None
        except Wrong as why:
            return 0, f"{kind}, height {height}, {' '.join(setup.words())}: {why}"


def main() -> int:
    parser = argparse.ArgumentParser(description=__doc__, formatter_class=argparse.RawDescriptionHelpFormatter)
    parser.add_argument("program", type=Path)
    schedules, stops = number_from(1, 1000), number_from(0, 1000)
    parser.add_argument("--schedules", type=schedules, default=20, metavar="N", help="schedules 0 to N - 1")
    parser.add_argument("--stops", type=stops, default=2, metavar="N", help="stops of each script; 0: behind each call")
    given = parser.parse_args()
    program = str(given.program.absolute())
    each = list(setups(given.schedules))
    tries = [("zones", setup, height) for setup in each for height in HEIGHTS]
    tries += [("space", setup, FULL.height) for setup in each]
    with ThreadPoolExecutor(os.cpu_count()) as pool:
        told = list(pool.map(lambda it: tried(program, *it, given.stops), tries))
    wrong = [why for _, why in told if why is not None]
    for why in wrong:
        print(why)
    print(f"zoned runs: {len(tries)} setups, {sum(count for count, _ in told)} images, {len(wrong)} went wrong")
    return 1 if wrong else 0


if __name__ == "__main__":
    sys.exit(main())
