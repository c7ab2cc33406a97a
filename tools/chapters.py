"""Pages of the index: a chapter of as many names as it has room for, and what is found there."""

from __future__ import annotations

from collections import Counter
from collections.abc import Iterator

from vector import BLOCK_BYTES, Vector, chunks, filled, spelling, u16, u32, u64

FILE = "part_tests/src/chapters.rt"

NONCE = 0x1122334455667788
NUMBER = 9
PAGES = 4
PER_PAGE = 170
ROOM = PAGES * PER_PAGE
SPREAD = 2654435761

Record = tuple[bytes, int]


def name(number: int) -> bytes:
    """Names that are far apart, and don't come in their order."""
    return u32(number * SPREAD % 2**32) + u32(number) + bytes(8)


def record(name: bytes, location: int) -> bytes:
    return name + u64(location)


def page(nonce: int, number: int, place: int, records: list[Record]) -> bytes:
    front = u64(nonce) + u32(number) + bytes([place, len(records)]) + u16(0)
    return filled(front + b"".join(record(*one) for one in records), BLOCK_BYTES)


def chapter() -> list[list[Record]]:
    """The records of the pages: 680 names, of which the one that was stored first was stored again."""
    locations = {name(number): 85 + number for number in range(ROOM)}
    locations[name(0)] = 4_294_967_295
    return list(chunks(sorted(locations.items()), PER_PAGE, PAGES))


def found(records: list[Record], wanted: bytes) -> str:
    names = [name for name, _ in records]
    if not names or wanted < names[0]:
        return "before"
    if wanted > names[-1]:
        return "after"
    return "at" if wanted in names else "absent"


def tally(first: int, count: int) -> tuple[int, ...]:
    """How often each answer comes, for so many names on each of the pages."""
    answers = Counter(
        found(records, name(number))
        for records in chapter()
        for number in range(first, first + count)
    )
    return tuple(answers[answer] for answer in ("at", "before", "after", "absent"))


def vectors() -> Iterator[Vector]:
    for place, records in enumerate(chapter()):
        yield spelling(
            FILE,
            "PAGES",
            page(NONCE, NUMBER, place, records),
            [(0, 16), (16, 24), (4072, 24)],
        )
    yield Vector(FILE, "THERE", tally(0, ROOM))
    yield Vector(FILE, "NOT_THERE", tally(ROOM, 320))
