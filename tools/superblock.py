"""The superblock: its first 64 bytes; the others are zeros."""

from __future__ import annotations

from collections.abc import Iterator

from layout import DEFAULT, Geometry
from vector import Vector, u32, u64

FILE = "base_tests/src/images.rt"

MAGIC = b"RVDOSB01"
VERSION = 1

GREATEST = Geometry(
    logical=0x01020304,
    slabs=2,
    slab_blocks=32768,
    journal=1024,
    index=12,
    slab_journal=64,
    height=3,
    nonce=0x1122334455667788,
)


def head(sizes: Geometry, clean: bool, start: int) -> bytes:
    """The bytes before the reserved ones that end the sector."""
    sizes_and_mark = (
        sizes.logical,
        sizes.slabs,
        sizes.slab_blocks,
        sizes.journal,
        sizes.index,
        sizes.slab_journal,
        int(clean),
        0,
    )
    front = MAGIC + u32(VERSION) + u32(sizes.height) + u64(sizes.nonce)
    return front + b"".join(map(u32, sizes_and_mark)) + u64(start)


def vectors() -> Iterator[Vector]:
    yield Vector(FILE, "DEFAULT_BYTES", (head(DEFAULT, False, 1),))
    yield Vector(FILE, "OTHER_BYTES", (head(GREATEST, True, 2**54 - 1),))
