"""What a test compares with, and the blocks that it is computed from."""

from __future__ import annotations

from collections.abc import Iterable, Iterator
from dataclasses import dataclass

BLOCK_BYTES = 4096
SECTOR_BYTES = 512
SECTORS = 8

Literal = int | bytes


@dataclass(frozen=True)
class Vector:
    """The literals that stand one after the other in an item of a test file."""

    file: str
    item: str
    literals: tuple[Literal, ...]

    def __str__(self) -> str:
        return f"{self.file} {self.item}: {' '.join(map(shown, self.literals))}"


@dataclass(frozen=True)
class Steps:
    """Commands that stand one after the other in a section of a file of cases, each with what it prints and its status."""

    file: str
    commands: tuple[tuple[str, str, int], ...]

    def __str__(self) -> str:
        return f"{self.file}: " + "; ".join(f"{command}: {text!r} {status}" for command, text, status in self.commands)


def numbers(literals: Iterable[Literal]) -> list[int]:
    """The numbers, and those of the bytes: a test has bytes as a string or as an array."""
    flat: list[int] = []
    for literal in literals:
        flat += literal if isinstance(literal, bytes) else [literal]
    return flat


def shown(literal: Literal) -> str:
    """A number in decimal, bytes in hexadecimal."""
    return literal.hex() if isinstance(literal, bytes) else str(literal)


def u16(number: int) -> bytes:
    return number.to_bytes(2, "little")


def u32(number: int) -> bytes:
    return number.to_bytes(4, "little")


def u64(number: int) -> bytes:
    return number.to_bytes(8, "little")


def filled(content: bytes, size: int) -> bytes:
    """The content with zeros behind it."""
    if len(content) > size:
        raise ValueError(f"{len(content)} bytes in a place of {size}")
    return content.ljust(size, b"\0")


def chunks(items: list[bytes], size: int, count: int) -> Iterator[list[bytes]]:
    """So many lists of at most so many items, in order; the later ones may be empty."""
    if len(items) > size * count:
        raise ValueError(f"{len(items)} items in a place of {size * count}")
    for number in range(count):
        yield items[number * size : (number + 1) * size]


def weight(block: bytes) -> int:
    """The sum of the bytes, each times its place from 1 on."""
    return sum(place * byte for place, byte in enumerate(block, start=1))


def spelling(file: str, item: str, block: bytes, parts: Iterable[tuple[int, int]]) -> Vector:
    """The weight of a block, and those of its parts whose place and length are given."""
    if len(block) != BLOCK_BYTES:
        raise ValueError(f"{item} has {len(block)} bytes")
    literals: list[Literal] = [weight(block)]
    for start, length in parts:
        literals += [start, block[start : start + length]]
    return Vector(file, item, tuple(literals))
