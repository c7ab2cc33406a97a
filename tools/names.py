"""The name of a block: MurmurHash3 x64 128 with a seed of its own, and the tag and the route that a name gives."""

from __future__ import annotations

from collections.abc import Iterator

from vector import BLOCK_BYTES, Vector

FILE = "part_tests/src/names.rt"

SEED = 0x62EA60BE
C1 = 0x87C37B91114253D5
C2 = 0x4CF5AD432745937F
WORD = 2**64 - 1


def rotated(word: int, count: int) -> int:
    return (word << count | word >> (64 - count)) & WORD


def mixed(word: int) -> int:
    for factor in (0xFF51AFD7ED558CCD, 0xC4CEB9FE1A85EC53):
        word ^= word >> 33
        word = word * factor & WORD
    return word ^ word >> 33


def scrambled(word: int, first: int, count: int, second: int) -> int:
    return rotated(word * first & WORD, count) * second & WORD


def with_piece(h1: int, h2: int, piece: bytes) -> tuple[int, int]:
    """The state after 16 more bytes."""
    h1 ^= scrambled(int.from_bytes(piece[:8], "little"), C1, 31, C2)
    h1 = ((rotated(h1, 27) + h2) * 5 + 0x52DCE729) & WORD
    h2 ^= scrambled(int.from_bytes(piece[8:], "little"), C2, 33, C1)
    h2 = ((rotated(h2, 31) + h1) * 5 + 0x38495AB5) & WORD
    return h1, h2


def finished(h1: int, h2: int, length: int) -> tuple[int, int]:
    h1 ^= length
    h2 ^= length
    h1 = (h1 + h2) & WORD
    h2 = (h2 + h1) & WORD
    h1 = mixed(h1)
    h2 = mixed(h2)
    h1 = (h1 + h2) & WORD
    return h1, (h2 + h1) & WORD


def murmur(content: bytes, seed: int) -> bytes:
    """The hash of some bytes whose number is a multiple of 16."""
    h1 = h2 = seed
    for start in range(0, len(content), 16):
        h1, h2 = with_piece(h1, h2, content[start : start + 16])
    h1, h2 = finished(h1, h2, len(content))
    return h1.to_bytes(8, "little") + h2.to_bytes(8, "little")


def name(block: bytes) -> bytes:
    return murmur(block, SEED)


def tag(of: bytes) -> int:
    return int.from_bytes(of[:4], "little")


def route(of: bytes, zones: int) -> int:
    return int.from_bytes(of[4:8], "little") % zones


def blocks() -> Iterator[bytes]:
    """Zeros, 0x61, a count modulo 251, and that with the lowest bit of its last byte turned."""
    counting = bytes(place % 251 for place in range(BLOCK_BYTES))
    yield bytes(BLOCK_BYTES)
    yield b"\x61" * BLOCK_BYTES
    yield counting
    yield counting[:-1] + bytes([counting[-1] ^ 1])


def vectors() -> Iterator[Vector]:
    known = [name(block) for block in blocks()]
    yield Vector(FILE, "NAMES", tuple(known))
    of_zeros = known[0]
    routes = (route(of_zeros, zones) for zones in (1, 2, 3, 4))
    yield Vector(FILE, "tag_and_route", (tag(of_zeros), *routes))
