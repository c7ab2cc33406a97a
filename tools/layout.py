"""Where the parts of an image stand, points of the journal, and the path of an address in the block map."""

from __future__ import annotations

from collections.abc import Iterator
from dataclasses import dataclass, replace

from vector import Vector

TREES = 60
COUNTERS_PER_BLOCK = 4032
SLOTS_PER_PAGE = 812
POINTS_PER_BLOCK = 512

BLOCKS = "base_tests/src/blocks.rt"
PATHS = "part_tests/src/trees.rt"


@dataclass(frozen=True)
class Geometry:
    """The sizes of an image; all but the last two and `slabs` are in blocks."""

    logical: int = 1000
    slabs: int = 1
    slab_blocks: int = 64
    journal: int = 8
    index: int = 16
    slab_journal: int = 4
    height: int = 2
    nonce: int = 1

    def journal_slot(self, sequence: int) -> int:
        return 1 + sequence % self.journal

    def root(self, tree: int) -> int:
        return 1 + self.journal + tree

    def index_block(self, number: int) -> int:
        return 1 + self.journal + TREES + number

    def slab_start(self, slab: int) -> int:
        return self.index_block(self.index) + slab * self.slab_stride()

    def slab_stride(self) -> int:
        return self.slab_blocks + self.references() + self.slab_journal

    def references(self) -> int:
        return -(-self.slab_blocks // COUNTERS_PER_BLOCK)

    def data_block(self, slab: int, offset: int) -> int:
        return self.slab_start(slab) + offset

    def reference_block(self, slab: int, number: int) -> int:
        return self.slab_start(slab) + self.slab_blocks + number

    def slab_journal_slot(self, slab: int, sequence: int) -> int:
        return self.reference_block(slab, self.references()) + sequence % self.slab_journal

    def needed(self) -> int:
        return self.slab_start(self.slabs)


DEFAULT = Geometry()


def point(sequence: int, entry: int, half: int) -> int:
    """The number of a half of an entry: 0 adds a count, 1 takes one away."""
    return sequence * POINTS_PER_BLOCK + entry * 2 + half


def path(address: int, height: int) -> tuple[int, list[int]]:
    """The tree of an address, and the slots from the root down."""
    page, last = divmod(address, SLOTS_PER_PAGE)
    number, tree = divmod(page, TREES)
    slots = [last]
    for _ in range(height - 1):
        number, slot = divmod(number, SLOTS_PER_PAGE)
        slots.insert(0, slot)
    return tree, slots


def default_blocks() -> Iterator[Vector]:
    sizes = DEFAULT
    blocks_of_items = {
        "DEFAULT_JOURNAL": [sizes.journal_slot(sequence) for sequence in (0, 1, 7, 8, 15)],
        "DEFAULT_ROOTS": [sizes.root(tree) for tree in (0, 59)],
        "DEFAULT_INDEX": [sizes.index_block(number) for number in (0, 15)],
        "DEFAULT_DATA": [sizes.data_block(0, offset) for offset in (0, 63)],
        "DEFAULT_REFERENCES": [sizes.reference_block(0, 0)],
        "DEFAULT_SLAB_JOURNAL": [sizes.slab_journal_slot(0, sequence) for sequence in (0, 3, 4)],
        "DEFAULT_NEEDED": [sizes.needed()],
    }
    for item, blocks in blocks_of_items.items():
        yield Vector(BLOCKS, item, tuple(blocks))


def vectors() -> Iterator[Vector]:
    yield from default_blocks()
    two = replace(DEFAULT, slabs=2)
    yield Vector(BLOCKS, "TWO_SLABS", (two.needed(), two.data_block(1, 0), two.data_block(1, 63)))
    yield Vector(BLOCKS, "POINT", (point(3, 5, 1),))
    for address, height in ((1000, 2), (48_720, 2), (39_560_639, 2), (39_560_640, 3)):
        tree, slots = path(address, height)
        yield Vector(PATHS, "paths_of_some_addresses", (address, height, tree, *slots))
