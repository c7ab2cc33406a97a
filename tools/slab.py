"""Reference blocks and slab journal blocks."""

from __future__ import annotations

from collections.abc import Iterator

from vector import SECTOR_BYTES, SECTORS, Vector, chunks, filled, spelling, u16, u32, u64

FILE = "base_tests/src/slabs.rt"

MAGIC = b"VSS1"
ENTRIES_PER_SECTOR = 40
COUNTERS_PER_SECTOR = 504

NONCE = 0x1122334455667788
GREATEST_U16 = 2**16 - 1
GREATEST_U64 = 2**64 - 1


def reference_sector(commit: int, counters: bytes) -> bytes:
    return filled(u64(commit) + counters, SECTOR_BYTES)


def counter_place(offset: int) -> tuple[int, int, int]:
    """The reference block, the sector and the place in it where the counter of a data block stands."""
    sector, counter = divmod(offset, COUNTERS_PER_SECTOR)
    block, number = divmod(sector, SECTORS)
    return block, number, counter


def entry(point: int, offset: int) -> bytes:
    return u64(point) + u16(offset) + bytes([point % 2, 0])


def sector(nonce: int, sequence: int, slab: int, number: int, entries: list[bytes]) -> bytes:
    front = u64(nonce) + u64(sequence) + u32(slab) + u16(number) + u16(len(entries))
    return filled(front + MAGIC + bytes(4) + b"".join(entries), SECTOR_BYTES)


def journal_block(nonce: int, sequence: int, slab: int, entries: list[bytes]) -> bytes:
    parts = chunks(entries, ENTRIES_PER_SECTOR, SECTORS)
    return b"".join(
        sector(nonce, sequence, slab, number, part) for number, part in enumerate(parts)
    )


def counted(sector_number: int) -> bytes:
    """A sector of the block of counters."""
    counters = bytes((sector_number * 7 + k * 3) % 251 for k in range(COUNTERS_PER_SECTOR))
    return reference_sector(0x0102030405060700 + sector_number, counters)


def vectors() -> Iterator[Vector]:
    yield spelling(
        FILE,
        "COUNTER_BYTES",
        b"".join(counted(number) for number in range(SECTORS)),
        [(0, 12), (504, 12), (3584, 12)],
    )
    for offset in (0, 503, 504, 4031, 4032, 32767):
        yield Vector(FILE, "PLACE_ROWS", (offset, *counter_place(offset)))
    yield spelling(
        FILE,
        "FORTY_TWO_ENTRIES",
        journal_block(NONCE, 5, 7, [entry(792_064 + 3 * k, 20 + k) for k in range(42)]),
        [(0, 32), (32, 24), (500, 14), (532, 17), (1044, 17)],
    )
    greatest = [entry(GREATEST_U64, GREATEST_U16), entry(0, 0)]
    yield spelling(
        FILE,
        "GREATEST_NUMBERS",
        journal_block(NONCE, GREATEST_U64, 1023, greatest),
        [],
    )
