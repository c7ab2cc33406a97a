#!/usr/bin/env python3
"""Replays two commands one behind the other: the first is killed before each of its calls, and the power is cut before each call
of the second.

    python3 tools/two_calls.py PROGRAM [--every N] [--at-once N]

A call is a write of a block of the image file, or a sync of it; `note_calls.c`, which is compiled with `cc`, notes them. What a
program that is killed wrote is in the system's memory, and there the second command finds it, whether it lasts or not. The power
cut loses or keeps each write since the last sync, of both commands. So of each cut there are images of what was synced, and some
of the writes behind that: with up to 6 writes each choice of them; with more none, all, all but each one, each one alone, and 16
that are drawn. Both commands may also run to their ends, so that the power is cut behind all calls.

Each of these images is recovered, or rebuilt where one of the two commands is `force-rebuild`, which leaves counts for a second
rebuild alone to mend. Then its audit is clean, and each address has one byte in all its places: that of what was there before both
commands, or of a write or a discard of theirs that was answered `ok`; of a workload, which tells no answers, of any. In the order
of the requests that is none older (a byte that was left more than once may be that of each of these requests)

- than what the image has of which each pending write is lost, for this cut and each earlier one of the same two commands;
- than the last one of a stream before a flush of this stream that is answered: in a script that ends each flush, and in a first
  script of one stream each one from the call on by which the script up to this flush has ended.

The first check is one such cut, with which a block had a wrong count. A line tells of each image of which all that isn't so, by the
calls that were made and the blocks that are lost, and one of each two commands how many cuts and images they have. The last one
says how many there were. The status is 1 where an image went wrong. With `--every` only every so many-th cut is looked at.
"""

from __future__ import annotations

import argparse
import itertools
import os
import random
import re
import shutil
import struct
import subprocess
import sys
import tempfile
from collections.abc import Iterable, Iterator, Sequence
from concurrent.futures import ThreadPoolExecutor
from dataclasses import dataclass, field
from pathlib import Path

from crash_stops import Request, Told, Wrong, ages_of
from file_scripts import Stopped, get, number_from
from layout import Geometry
from preloaded import compiled
from vector import BLOCK_BYTES

# With more pending writes not each choice of them is tried, but this many that are drawn.
MOST_PENDING = 6
DRAWN = 16
NOTE = struct.Struct("@ll")
SYNC = -1
MOST_EVERY = 1_000_000
MOST_AT_ONCE = 64
ANSWER = re.compile(r"(\d+) (\d+) (?:read|write|discard|flush)(?: \d+)? (.+?)(?: z\d+:\d+)?")
TRIED = re.compile(r"(\d+):(?:(\d+)(?:=([0-9a-f]{2}))?)?")

Blocks = dict[int, bytes]
Ages = dict[int, list[tuple[int, int]]]


def script(text: str) -> tuple[Request, ...]:
    """Requests that are spelled STREAM:ADDRESS=BYTE, a write, STREAM:ADDRESS, a discard, or STREAM:, a flush."""
    requests = []
    for word in text.split():
        stream, address, byte = TRIED.fullmatch(word).groups()
        if address is None:
            requests.append(Request(f"{stream} flush"))
        elif byte is None:
            requests.append(Request(f"{stream} discard {address} 1", int(address)))
        else:
            requests.append(Request(f"{stream} write {address} 4096*{byte}", int(address), int(byte, 16)))
    return tuple(requests)


def drawn(seed: int, requests: int, logical: int) -> tuple[Request, ...]:
    """The writes and discards of a workload of one stream."""
    words = (sys.executable, Path(__file__).with_name("workload.py"), *map(str, (seed, requests, 1, logical)))
    ran = subprocess.run(words, stdout=subprocess.PIPE, text=True, check=True)
    lines = (line.split() for line in ran.stdout.splitlines())
    return tuple(Request("", int(address), int(byte)) for _, kind, address, byte in lines if kind in "wd")


def stream_of(request: Request) -> str:
    return request.line.split(" ")[0]


@dataclass(frozen=True)
class Command:
    """The words of a command, and its requests: its script, or what it draws. In a script an address is of one stream alone."""

    words: tuple[str, ...]
    requests: tuple[Request, ...] = ()

    @property
    def is_run(self) -> bool:
        return self.words[0] == "run"

    @property
    def has_one_stream(self) -> bool:
        return self.is_run and len({stream_of(request) for request in self.requests}) == 1

    def script(self, length: int | None = None) -> str:
        return "".join(f"{request.line}\n" for request in self.requests[:length]) if self.is_run else ""


def run(text: str) -> Command:
    return Command(("run",), script(text))


def workload(seed: int, requests: int) -> Command:
    words = ("workload", "--streams", "1", "--seed", str(seed), "--requests", str(requests))
    return Command(words, drawn(seed, requests, FEW.logical))


RECOVER = Command(("recover",))
REBUILD = Command(("force-rebuild",))
# Addresses of two leaves, and few.
WIDE = Geometry()
FEW = Geometry(logical=12)
SLABS = Geometry(logical=12, slabs=2, slab_blocks=16)
GROW = Command(("grow", "--logical", "20", "--slabs", "2"))


@dataclass(frozen=True)
class Base:
    """An image, and the commands that make it of an empty one."""

    sizes: Geometry
    made_by: tuple[Command, ...] = ()
    # More than it needs, where it is to grow.
    blocks: int = WIDE.needed()


@dataclass(frozen=True)
class Case:
    """Two commands on an image."""

    name: str
    base: Base
    first: Command
    second: Command

    @property
    def closing(self) -> str:
        """The command that closes what a cut leaves."""
        return "force-rebuild" if REBUILD in (self.first, self.second) else "recover"


@dataclass(frozen=True)
class Call:
    """A write of a block, or a sync."""

    block: int
    content: bytes = b""

    @property
    def is_sync(self) -> bool:
        return self.block == SYNC


@dataclass(frozen=True)
class Flush:
    """A flush that was answered: by how many calls, and its place in the script."""

    calls: int
    place: int


@dataclass(frozen=True)
class Noted:
    """The calls of a command, the places of the requests that it didn't refuse, and its flushes."""

    calls: tuple[Call, ...]
    served: frozenset[int]
    flushes: tuple[Flush, ...]


@dataclass(frozen=True)
class Judged:
    """What is wrong with an image, or else the byte at each address."""

    fault: str | None
    bytes_at: dict[int, int] = field(default_factory=dict)


def behind(calls: Iterable[Call]) -> tuple[Blocks, list[Call]]:
    """The blocks that last behind these calls, and the writes since the last sync."""
    lasting: Blocks = {}
    pending: list[Call] = []
    for call in calls:
        if call.is_sync:
            lasting = written(lasting, pending)
            pending = []
        else:
            pending.append(call)
    return lasting, pending


def written(blocks: Blocks, writes: Iterable[Call]) -> Blocks:
    return blocks | {call.block: call.content for call in writes}


def choices(count: int) -> Iterator[tuple[bool, ...]]:
    """Which of so many writes are kept. In the first choice none is."""
    if count <= MOST_PENDING:
        yield from itertools.product((False, True), repeat=count)
        return
    for most in (False, True):
        yield (most,) * count
        for one in range(count):
            yield tuple(most != (place == one) for place in range(count))
    draw = random.Random(count)
    for _ in range(DRAWN):
        yield tuple(draw.random() < 0.5 for _ in range(count))


@dataclass(frozen=True)
class Cut:
    """A power cut behind so many calls of the first command, and so many of the second."""

    first: int
    second: int
    lasting: Blocks
    pending: list[Call]

    def images(self) -> Iterator[tuple[list[int], Blocks]]:
        """The blocks of the writes that are lost, and the blocks that are there. In the first image each is lost."""
        for kept in choices(len(self.pending)):
            lost = [call.block for call in itertools.compress(self.pending, (not it for it in kept))]
            yield lost, written(self.lasting, itertools.compress(self.pending, kept))

    def told(self, lost: Sequence[int]) -> str:
        blocks = f"lost {' '.join(map(str, lost))}" if lost else "all kept"
        return f"{self.first} and {self.second} calls, {blocks}"


@dataclass
class Tries:
    """A program, a folder for its images, and what went wrong."""

    program: str
    folder: Path
    every: int
    pool: ThreadPoolExecutor
    cuts: int = 0
    images: int = 0
    wrong: int = 0

    def said(self, image: Path, blocks: int, words: Sequence[str], text: str = "", env: Sequence[str] = ()) -> tuple[int, str]:
        """The status of a command, and what it prints."""
        preload = ["env", *env] if env else []
        command = [*preload, self.program, str(image), str(blocks), *words]
        ran = subprocess.run(command, input=text, stdout=subprocess.PIPE, text=True)
        return ran.returncode, ran.stdout

    def made(self, base: Base) -> bytes:
        """The bytes of an image."""
        image = self.folder / "made"
        image.unlink(missing_ok=True)
        sizes = {"logical": base.sizes.logical, "slabs": base.sizes.slabs, "slab-blocks": base.sizes.slab_blocks}
        options = [f"--{name}={value}" for name, value in sizes.items()]
        for words, text in ((("format", *options), ""), *((it.words, it.script()) for it in base.made_by)):
            status, told = self.said(image, base.blocks, words, text)
            if status not in (0, 1):
                raise Stopped(f"{words[0]}: {told.strip()}")
        return image.read_bytes().ljust(base.blocks * BLOCK_BYTES, b"\0")

    def put(self, image: Path, base: bytes, blocks: Blocks) -> None:
        """Makes a file of an image over which these blocks are put."""
        data = bytearray(base)
        for block, content in blocks.items():
            data[block * BLOCK_BYTES : (block + 1) * BLOCK_BYTES] = content
        image.write_bytes(data)

    def notes(self, base: bytes, before: Blocks, command: Command, length: int | None = None) -> tuple[tuple[Call, ...], str]:
        """The calls of a command with so many of its requests, and what it prints."""
        image, notes = self.folder / "noted", self.folder / "notes"
        self.put(image, base, before)
        notes.unlink(missing_ok=True)
        env = (f"LD_PRELOAD={self.folder}/note_calls.so", f"NOTE_CALLS={notes}", f"NOTE_FILE={image}")
        blocks = len(base) // BLOCK_BYTES
        _, told = self.said(image, blocks, command.words, command.script(length), env)
        calls = tuple(calls_of(notes.read_bytes() if notes.exists() else b""))
        left = image.read_bytes()
        self.put(image, base, written(before, (call for call in calls if not call.is_sync)))
        if image.read_bytes() != left:
            raise Stopped(f"{command.words[0]}: its calls don't leave what it left")
        return calls, told

    def noted(self, base: bytes, before: Blocks, command: Command) -> Noted:
        """The calls of a command that runs to its end. Each flush is answered by then."""
        calls, told = self.notes(base, before, command)
        if not command.is_run:
            return Noted(calls, frozenset(range(len(command.requests))), ())
        served = served_of(command.requests, told)
        flushes = (Flush(len(calls), place) for place in served if command.requests[place].is_flush)
        return Noted(calls, served, tuple(flushes))

    def noted_first(self, base: bytes, command: Command) -> Noted:
        """The calls of the first command. Of a script of one stream it finds by which call a flush is answered."""
        whole = self.noted(base, {}, command)
        if not command.has_one_stream:
            return whole
        lengths = (len(self.notes(base, {}, command, flush.place + 1)[0]) for flush in whole.flushes)
        flushes = (Flush(min(length, len(whole.calls)), it.place) for length, it in zip(lengths, whole.flushes, strict=True))
        return Noted(whole.calls, whole.served, tuple(flushes))

    def judged(self, closing: str, addresses: Sequence[int], base: bytes, blocks: Blocks) -> Judged:
        """What an image shows once it is closed."""
        count = len(base) // BLOCK_BYTES
        with tempfile.TemporaryDirectory(dir=self.folder) as folder:
            image = Path(folder) / "judged"
            self.put(image, base, blocks)
            for words in ((closing,), ("audit",)):
                status, told = self.said(image, count, words)
                if status != 0:
                    return Judged(f"{words[0]}: {'; '.join(told.splitlines())}")
            try:
                held = get(addresses, [self.program, str(image), str(count), "run"])
            except Stopped as why:
                return Judged(f"reads: {why}")
        for address, block in held.items():
            if block != block[:1] * BLOCK_BYTES:
                return Judged(f"address {address} holds several bytes")
        return Judged(None, {address: block[0] for address, block in held.items()})


def calls_of(notes: bytes) -> Iterator[Call]:
    """The calls that were noted, of which each write is one of a block."""
    at = 0
    while at < len(notes):
        offset, length = NOTE.unpack_from(notes, at)
        at += NOTE.size
        if offset == SYNC:
            yield Call(SYNC)
        elif offset % BLOCK_BYTES == 0 and length == BLOCK_BYTES:
            yield Call(offset // BLOCK_BYTES, notes[at : at + length])
        else:
            raise Stopped(f"a write of {length} bytes at {offset} is none of a block")
        at += length


def served_of(requests: Sequence[Request], told: str) -> frozenset[int]:
    """The places of the requests that were answered `ok`."""
    places: dict[tuple[str, str], int] = {}
    numbers: dict[str, Iterator[int]] = {}
    for place, request in enumerate(requests):
        stream = stream_of(request)
        places[stream, str(next(numbers.setdefault(stream, itertools.count())))] = place
    found = filter(None, map(ANSWER.fullmatch, told.splitlines()))
    return frozenset(places[it[1], it[2]] for it in found if it[3] == "ok")


def add_ages(ages: Ages, command: Command, served: frozenset[int]) -> Ages:
    """The ages of an address with the requests of one more command."""
    added = {address: list(before) for address, before in ages.items()}
    for place in sorted(served):
        request = command.requests[place]
        if request.address is not None:
            added[request.address].append((place, request.byte))
    return added


def ages_flushed(ages: Ages, command: Command, noted: Noted, calls: int) -> dict[int, int]:
    """The least age at each address behind so many calls of one more command, by its flushes alone."""
    least: dict[int, int] = {}
    for flush in noted.flushes:
        if flush.calls > calls:
            continue
        stream = stream_of(command.requests[flush.place])
        mine = (command.requests[place] for place in noted.served if place < flush.place)
        counts = [it.address for it in mine if it.address is not None and stream_of(it) == stream]
        for address in set(counts):
            least[address] = max(least.get(address, 0), len(ages[address]) - 1 + counts.count(address))
    return least


def raised(least: dict[int, int], other: dict[int, int]) -> dict[int, int]:
    """The greater age at each address."""
    return {address: max(age, other.get(address, 0)) for address, age in least.items()}


@dataclass(frozen=True)
class Replay:
    """A case whose image is made, and whose first command is noted."""

    tries: Tries
    case: Case
    base: bytes
    first: Noted
    addresses: tuple[int, ...]

    def second_behind(self, calls: int, known: dict[frozenset, Noted]) -> Noted:
        """The second command on what the system's memory has behind so many calls of the first."""
        lasting, pending = behind(self.first.calls[:calls])
        before = written(lasting, pending)
        key = frozenset(before.items())
        if key not in known:
            known[key] = self.tries.noted(self.base, before, self.case.second)
        return known[key]

    def cut(self, first: int, second: int, noted: Noted) -> Cut:
        return Cut(first, second, *behind((*self.first.calls[:first], *noted.calls[:second])))

    def judged(self, blocks: Blocks) -> Judged:
        return self.tries.judged(self.case.closing, self.addresses, self.base, blocks)


def replay_of(tries: Tries, case: Case) -> Replay:
    base = tries.made(case.base)
    commands = (*case.base.made_by, case.first, case.second)
    named = {request.address for command in commands for request in command.requests}
    addresses = tuple(sorted(named - {None}))
    return Replay(tries, case, base, tries.noted_first(base, case.first), addresses)


def faults_of(replay: Replay, cuts: Sequence[tuple[Cut, Noted]], judged: dict[frozenset, Judged]) -> Iterator[str]:
    """A line for each image that went wrong. The cuts stand in their order."""
    case = replay.case
    told: set[frozenset] = set()
    before = replay.judged({})
    if before.fault:
        raise Stopped(f"{case.name}: {before.fault}")
    ages = {address: [(-1, byte)] for address, byte in before.bytes_at.items()}
    ages_first = add_ages(ages, case.first, replay.first.served)
    least_first = dict.fromkeys(ages, 0)
    for first, group in itertools.groupby(cuts, lambda it: it[0].first):
        least_first = least = raised(least_first, ages_flushed(ages, case.first, replay.first, first))
        for cut, second in group:
            ages_both = add_ages(ages_first, case.second, second.served)
            least = raised(least, ages_flushed(ages_first, case.second, second, cut.second))
            for number, (lost, blocks) in enumerate(cut.images()):
                key = frozenset(blocks.items())
                it = judged[key]
                try:
                    if it.fault:
                        raise Wrong(it.fault)
                    found = ages_of(Told(False, it.bytes_at), least, ages_both)
                    if number == 0:
                        least = raised(least, found)
                except Wrong as why:
                    if key not in told:
                        yield f"{case.name}, {cut.told(lost)}: {why}"
                    told.add(key)
            if cut.second == 0:
                least_first = least


def try_case(tries: Tries, case: Case) -> None:
    """Looks at each image of each cut of two commands."""
    replay = replay_of(tries, case)
    known: dict[frozenset, Noted] = {}
    cuts = []
    number = itertools.count()
    for first in range(len(replay.first.calls) + 1):
        noted = replay.second_behind(first, known)
        picked = [second for second in range(len(noted.calls) + 1) if next(number) % tries.every == 0]
        cuts += ((replay.cut(first, second, noted), noted) for second in picked)
    images = {frozenset(blocks.items()): blocks for cut, _ in cuts for _, blocks in cut.images()}
    judged = dict(zip(images, tries.pool.map(replay.judged, images.values()), strict=True))
    for line in faults_of(replay, cuts, judged):
        tries.wrong += 1
        print(line)
    tries.cuts += len(cuts)
    tries.images += len(images)
    print(f"{case.name}: {len(cuts)} cuts, {len(images)} images", flush=True)


# One block is written, and written again by a run that is killed; a recovery of that is killed too.
ONE_BLOCK = Base(WIDE, (run("0:1=01 0:"), RECOVER))
KILLED_RECOVERY = Case("a write, recover", ONE_BLOCK, run("0:1=02"), RECOVER)
KILLED_BEFORE_SYNC = 3
LOST = (5, 149)


def try_killed_recovery(tries: Tries) -> None:
    """The run is killed before its third sync behind a write, the recovery before its first one, and what is pending of the
    journal's block and of the counts is lost."""
    replay = replay_of(tries, KILLED_RECOVERY)
    first = syncs_behind_writes(replay.first.calls)[KILLED_BEFORE_SYNC - 1]
    noted = replay.second_behind(first, {})
    cut = replay.cut(first, syncs_behind_writes(noted.calls)[0], noted)
    lost = [call.block for call in cut.pending if call.block in LOST]
    blocks = written(cut.lasting, (call for call in cut.pending if call.block not in LOST))
    image = tries.folder / "lost"
    tries.put(image, replay.base, blocks)
    said = {word: tries.said(image, KILLED_RECOVERY.base.blocks, (word,)) for word in ("audit", "run")}
    if any(status != 0 for status, _ in said.values()):
        tries.wrong += 1
        told = "; ".join(f"{word}: {'; '.join(text.splitlines())}" for word, (_, text) in said.items())
        print(f"killed recovery, {cut.told(lost)}: {told}")


def syncs_behind_writes(calls: Sequence[Call]) -> list[int]:
    """How many calls there are before each sync that isn't the first call."""
    return [place for place, call in enumerate(calls) if call.is_sync and place > 0]


BEFORE = run("0:1=a1 0:2=a2 0:3=a2 0: 0:4=a4 0:5=a5 0:2 0:")
ONE = run("0:1=11 0: 0:2=a4 0:1=12 0:3 0: 0:6=13 0:2 0: 0:3=14")
# Each stream has an address of its own, and two leave the same.
FOUR = run("0:1=21 1:2=21 2:3=23 3:4=24 0: 1:2=25 2:3 3:4=26 2: 0:1=27 1: 3: 0:1 1:2=28 0:")
# The journal is used up before the last writes are served.
FULL = run("0:1=31 0: 0:2=32 0:1=32 0: 0:3 0: 0:4=33 0: 0:1=34 0: 0:5=35 0: 0:2=36 0: 0:6=37 0: 0:1=38 0:2=39 0:3=3a")
OTHER = run("0:1=51 0: 0:5=52")
OTHER_FOUR = run("0:1=61 1:2=62 0: 2:3=61 3:6=63 3:")
LEAVES = run("0:1=71 1:812=71 0: 1:812=72 0:999=73 1: 0:1")

CLOSED = (BEFORE, RECOVER)
UNCLOSED = (BEFORE,)

CASES = (
    KILLED_RECOVERY,
    Case("one stream, recover", Base(FEW), ONE, RECOVER),
    Case("one stream unclosed, run", Base(FEW, UNCLOSED), ONE, OTHER),
    Case("four streams closed, recover", Base(FEW, CLOSED), FOUR, RECOVER),
    Case("four streams on two slabs, run", Base(SLABS, UNCLOSED), FOUR, OTHER_FOUR),
    Case("two leaves, recover", Base(WIDE), LEAVES, RECOVER),
    Case("full, recover", Base(FEW), FULL, RECOVER),
    Case("full closed, run", Base(FEW, CLOSED), FULL, OTHER),
    Case("one stream on two slabs, force-rebuild", Base(SLABS, UNCLOSED), OTHER, REBUILD),
    Case("one stream closed, workload", Base(FEW, CLOSED), ONE, workload(1, 8)),
    Case("workload, workload", Base(FEW), workload(2, 12), workload(3, 8)),
    Case("recover, run", Base(FEW, UNCLOSED), RECOVER, OTHER_FOUR),
    Case("recover, recover", Base(SLABS, (FOUR,)), RECOVER, RECOVER),
    Case("force-rebuild, run", Base(FEW, UNCLOSED), REBUILD, ONE),
    Case("force-rebuild, force-rebuild", Base(FEW, (FULL,)), REBUILD, REBUILD),
    Case("recover, grow", Base(FEW, UNCLOSED, 300), RECOVER, GROW),
)


def main() -> int:
    parser = argparse.ArgumentParser(description=__doc__, formatter_class=argparse.RawDescriptionHelpFormatter)
    parser.add_argument("program", type=Path)
    every, at_once = number_from(1, MOST_EVERY), number_from(1, MOST_AT_ONCE)
    parser.add_argument("--every", type=every, default=1, metavar="N", help="look at every N-th cut alone")
    parser.add_argument("--at-once", type=at_once, default=os.cpu_count(), metavar="N", help="look at N images at once")
    given = parser.parse_args()
    folder = Path(tempfile.mkdtemp(prefix="vdo-two-calls-"))
    try:
        compiled("note_calls", folder)
        with ThreadPoolExecutor(given.at_once) as pool:
            tries = Tries(str(given.program.absolute()), folder, given.every, pool)
            try_killed_recovery(tries)
            for case in CASES:
                try_case(tries, case)
    finally:
        shutil.rmtree(folder)
    print(f"two calls: {tries.cuts} cuts, {tries.images} images, {tries.wrong} went wrong")
    return 1 if tries.wrong else 0


if __name__ == "__main__":
    sys.exit(main())
