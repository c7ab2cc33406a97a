"""The looks of a sparse index: which chapters are asked for a name, in which order, in the plainest way."""

from __future__ import annotations

from collections.abc import Iterator
from dataclasses import dataclass, field
from itertools import islice

from vector import Vector

FILE = "part_tests/src/sparse.rt"
FIRST = 69
ROOM = 680
STEPS = 10_000
INDEXES = (4, 8, 64, 1_024)
CACHES = (1, 2, 16)

Name = tuple[int, int, int]


class Draws:
    def __init__(self, state: int) -> None:
        self.state = state

    def next(self, end: int) -> int:
        self.state = (self.state * 1_664_525 + 1_013_904_223) % 2**32
        return (self.state >> 8) % end

    def name(self) -> Name:
        number = self.next(768)
        return number % 64, number, number // 64 % 4 * 8


def is_hook(name: Name) -> bool:
    return name[2] % 32 == 0


@dataclass
class Chapter:
    number: int
    records: dict[Name, int]

    def has_tag(self, tag: int, hooks: bool) -> bool:
        return any(name[0] == tag and (is_hook(name) or not hooks) for name in self.records)


@dataclass
class Index:
    """The chapters, the newest first, and the numbers of those that are cached, the one that was used last first."""

    blocks: int
    cache: int
    chapters: list[Chapter] = field(default_factory=list)
    cached: list[int] = field(default_factory=list)
    records: dict[Name, int] = field(default_factory=dict)

    def close(self) -> None:
        if not self.records:
            return
        number = self.chapters[0].number + 1 if self.chapters else 0
        places = self.blocks // 4
        self.chapters = [one for one in self.chapters if (number - one.number) % places]
        self.cached = [one for one in self.cached if (number - one) % places]
        self.chapters.insert(0, Chapter(number, self.records))
        self.records = {}

    def learn(self, name: Name, location: int) -> None:
        if name not in self.records and len(self.records) == ROOM:
            self.close()
        self.records[name] = location

    def use(self, chapter: Chapter) -> None:
        others = [one for one in self.cached if one != chapter.number]
        self.cached = [chapter.number, *others][: self.cache]

    def dense_and_sparse(self) -> tuple[list[Chapter], list[Chapter]]:
        dense = -(-self.blocks // 8)
        return self.chapters[:dense], self.chapters[dense:]

    def look(self, name: Name, fails: Draws) -> Iterator[int | None]:
        """The blocks that are asked for, and then the location, or none."""
        dense, sparse = self.dense_and_sparse()
        tagged = (one for one in dense if one.has_tag(name[0], hooks=False))
        for records in [self.records, *(one.records for one in islice(tagged, 2))]:
            if name in records:
                yield records[name]
                return
        for chapter in sparse:
            if chapter.number in self.cached and name in chapter.records:
                self.use(chapter)
                yield chapter.records[name]
                return
        others = (one for one in sparse if one.number not in self.cached and one.has_tag(name[0], hooks=True))
        chapter = next(others, None) if is_hook(name) else None
        if chapter is None:
            yield None
            return
        for page in range(4):
            yield FIRST + chapter.number % (self.blocks // 4) * 4 + page
            if fails.next(16) == 0:
                yield None
                return
        self.use(chapter)
        yield chapter.records.get(name)


@dataclass
class Tally:
    known: int = 0
    reads: int = 0
    sum: int = 0

    def add(self, number: int) -> None:
        self.sum = (self.sum * 16_777_619) % 2**32 ^ number

    def add_look(self, answers: list[int | None]) -> None:
        *reads, location = answers
        for block in reads:
            self.add(block)
        self.reads += len(reads)
        self.known += location is not None
        self.add(1 if location is None else location)


def run(blocks: int, cache: int) -> tuple[int, int, int, int, int, int]:
    """The sizes, how many looks found a location, the blocks that were asked for, those outside, and the sum of all."""
    index = Index(blocks, cache)
    draws = Draws(blocks)
    tally = Tally()
    for step in range(STEPS):
        act = draws.next(16)
        if act == 0:
            index.close()
        elif act <= 7:
            index.learn(draws.name(), step + 100)
        else:
            tally.add_look(list(index.look(draws.name(), draws)))
    return blocks, cache, tally.known, tally.reads, 0, tally.sum


def vectors() -> Iterator[Vector]:
    runs = [run(blocks, cache) for blocks in INDEXES for cache in CACHES]
    yield Vector(FILE, "RUNS", tuple(number for one in runs for number in one))
