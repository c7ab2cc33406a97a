"""The images that numbers pick of a device that was cut off: for each sector of a block its byte."""

from __future__ import annotations

from collections.abc import Iterator

from vector import Vector

FILE = "image_tests/src/picks.rt"

SECTORS = 8
BLOCKS = 4

# Of each block what the successful writes before the last successful flush gave, and the writes since, failed or not. The
# write of 9 failed before the flush, and that of 6 came when the fuse was spent for good.
DURABLE = [1, 0, 0, 0]
SINCE = [[2, 3], [5], [], [4]]


def numbers_from(state: int) -> Iterator[int]:
    while True:
        state = (state * 6364136223846793005 + 1442695040888963407) % 2**64
        yield state >> 33


def picked(number: int) -> list[int]:
    """The byte of each sector of each block."""
    row = numbers_from(number)
    image = []
    for block in range(BLOCKS):
        choices = [DURABLE[block], *SINCE[block]]
        for _ in range(SECTORS):
            if number == 0 or len(choices) == 1:
                choice = 0
            elif number == 1:
                choice = len(choices) - 1
            else:
                choice = next(row) % len(choices)
            image.append(choices[choice])
    return image


def vectors() -> Iterator[Vector]:
    for number in (0, 1, 2, 7, 2**64 - 1):
        yield Vector(FILE, "PICKED", (number, *picked(number)))
