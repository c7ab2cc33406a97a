"""A page of the block map."""

from __future__ import annotations

from collections.abc import Iterator

import mapping
from layout import SLOTS_PER_PAGE
from vector import Vector, spelling, u32, u64

FILE = "base_tests/src/pages.rt"

MAGIC = b"VMP1"
NONCE = 0x1122334455667788


def page(nonce: int, at: int, tree: int, level: int, index: int, slots: list[bytes]) -> bytes:
    head = MAGIC + u64(nonce) + u64(at) + bytes([tree, level]) + bytes(2) + u32(index) + bytes(8)
    return head + b"".join(slots)


def numbered(slot: int) -> bytes:
    """What a slot of the leaf says."""
    match slot % 5:
        case 0:
            return mapping.at(slot % 62 + 86)
        case 1:
            return mapping.zeros()
        case _:
            return mapping.unmapped()


def vectors() -> Iterator[Vector]:
    slots = [numbered(slot) for slot in range(SLOTS_PER_PAGE)]
    leaf = page(NONCE, 0x01020304, 59, 0, 0x0A0B0C0D, slots)
    yield spelling(
        FILE,
        "LEAF_BYTES",
        leaf,
        [(0, 36), (36, 5), (41, 5), (46, 5), (511, 5), (4091, 5)],
    )
