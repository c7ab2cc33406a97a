"""A mapping as five bytes, as the recovery journal and the pages of the block map have it."""

from __future__ import annotations

from vector import u32

UNMAPPED = 0
MAPPED = 1


def entry(state: int, block: int) -> bytes:
    """The state and the bits 32 to 35 of the block in one byte, then the other bits of the block."""
    return bytes([state | block >> 32 << 4]) + u32(block & 0xFFFF_FFFF)


def unmapped() -> bytes:
    return entry(UNMAPPED, 0)


def zeros() -> bytes:
    return entry(MAPPED, 0)


def at(block: int) -> bytes:
    return entry(MAPPED, block)
