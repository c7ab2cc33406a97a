"""Blocks of the recovery journal."""

from __future__ import annotations

from collections.abc import Iterator

import mapping
from vector import SECTOR_BYTES, SECTORS, Vector, chunks, filled, spelling, u16, u32, u64

FILE = "base_tests/src/journals.rt"

MAGIC = b"VJS1"
ENTRIES_PER_SECTOR = 24
REMAP = 0
NEW_PAGE = 1

NONCE = 0x1122334455667788
GREATEST_U32 = 2**32 - 1


def entry(kind: int, tree: int, level: int, number: int, old: bytes, new: bytes) -> bytes:
    return bytes([kind, tree, level, 0]) + u32(number) + old + new + bytes(2)


def remap(address: int, old: bytes, new: bytes) -> bytes:
    """An address is mapped anew."""
    return entry(REMAP, 0, 0, address, old, new)


def new_page(tree: int, level: int, index: int, block: int) -> bytes:
    """A new page of the block map stands at a block."""
    return entry(NEW_PAGE, tree, level, index, mapping.unmapped(), mapping.at(block))


def sector(nonce: int, sequence: int, head: int, number: int, entries: list[bytes]) -> bytes:
    front = u64(nonce) + u64(sequence) + u64(head) + u16(number) + u16(len(entries)) + MAGIC
    return filled(front + b"".join(entries), SECTOR_BYTES)


def block(nonce: int, sequence: int, head: int, entries: list[bytes]) -> bytes:
    """The entries fill sector after sector, and all eight sectors are written."""
    parts = chunks(entries, ENTRIES_PER_SECTOR, SECTORS)
    return b"".join(
        sector(nonce, sequence, head, number, part) for number, part in enumerate(parts)
    )


def numbered(number: int) -> bytes:
    """An entry of the block of 30."""
    old = mapping.at(number + 85) if number % 2 == 0 else mapping.zeros()
    new = mapping.unmapped() if number % 3 == 0 else mapping.at(number + 300)
    return remap(number + 1000, old, new)


def spelled_blocks() -> Iterator[Vector]:
    one = remap(5, mapping.unmapped(), mapping.at(86))
    greatest = [
        new_page(59, 2, 0x0A0B0C0D, 0x01020304),
        remap(GREATEST_U32, mapping.at(GREATEST_U32), mapping.zeros()),
    ]
    yield spelling(
        FILE,
        "ONE_ENTRY",
        block(NONCE, 1547, 1540, [one]),
        [(0, 32), (32, 24), (3584, 36)],
    )
    yield spelling(
        FILE,
        "THIRTY_ENTRIES",
        block(NONCE, 1547, 1547, [numbered(number) for number in range(30)]),
        [(24, 26), (492, 26), (536, 26), (644, 26), (1048, 26)],
    )
    yield spelling(
        FILE,
        "GREATEST_NUMBERS",
        block(1, 2**55 - 1, 1, greatest),
        [(0, 32), (32, 20), (52, 20)],
    )


def vectors() -> Iterator[Vector]:
    yield from spelled_blocks()
