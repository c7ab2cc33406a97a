#!/usr/bin/env python3
"""Makes an image file whose last session wasn't closed, as a stop may leave it: 1,022 addresses were written and flushed, and
two leaves of the block map were made for them. All 1,024 data blocks of its one slab are taken, and what they are taken for
stands in the recovery journal alone.

    python3 tools/example_image.py FILE
"""

from __future__ import annotations

import argparse
from pathlib import Path

import journal
import map_page
import mapping
import superblock
from layout import SLOTS_PER_PAGE, TREES, Geometry, path
from vector import BLOCK_BYTES, SECTORS

SIZES = Geometry(logical=2000, slab_blocks=1024)
FIRST_SEQUENCE = 1
ENTRIES_PER_BLOCK = journal.ENTRIES_PER_SECTOR * SECTORS


class Example:
    """The blocks of the image, and the entries of its journal."""

    def __init__(self) -> None:
        self.blocks: dict[int, bytes] = {}
        self.entries: list[bytes] = []
        self.taken = 0

    def take(self) -> int:
        """The lowest data block that isn't taken."""
        block = SIZES.data_block(0, self.taken)
        self.taken += 1
        return block

    def add_page(self, at: int, tree: int, level: int) -> None:
        """An empty page of the block map."""
        slots = [mapping.unmapped()] * SLOTS_PER_PAGE
        self.blocks[at] = map_page.page(SIZES.nonce, at, tree, level, 0, slots)

    def add_leaf(self, tree: int) -> None:
        at = self.take()
        self.add_page(at, tree, 0)
        self.entries.append(journal.new_page(tree, 0, 0, at))

    def write(self, address: int) -> None:
        """The address gets a block of one byte. The first address of a leaf makes that leaf."""
        tree, slots = path(address, SIZES.height)
        if slots[-1] == 0:
            self.add_leaf(tree)
        at = self.take()
        self.blocks[at] = bytes([address % 255 + 1]) * BLOCK_BYTES
        self.entries.append(journal.remap(address, mapping.unmapped(), mapping.at(at)))

    def add_journal(self) -> None:
        for start in range(0, len(self.entries), ENTRIES_PER_BLOCK):
            sequence = FIRST_SEQUENCE + start // ENTRIES_PER_BLOCK
            entries = self.entries[start : start + ENTRIES_PER_BLOCK]
            self.blocks[SIZES.journal_slot(sequence)] = journal.block(
                SIZES.nonce, sequence, FIRST_SEQUENCE, entries
            )

    def image(self) -> bytes:
        zeros = bytes(BLOCK_BYTES)
        return b"".join(self.blocks.get(at, zeros) for at in range(SIZES.needed()))


def example() -> Example:
    made = Example()
    made.blocks[0] = superblock.head(SIZES, False, FIRST_SEQUENCE).ljust(BLOCK_BYTES, b"\0")
    for tree in range(TREES):
        made.add_page(SIZES.root(tree), tree, SIZES.height - 1)
    address = 0
    while made.taken < SIZES.slab_blocks:
        made.write(address)
        address += 1
    made.add_journal()
    return made


def main() -> None:
    parser = argparse.ArgumentParser(description=__doc__, formatter_class=argparse.RawDescriptionHelpFormatter)
    parser.add_argument("file", type=Path)
    arguments = parser.parse_args()
    made = example()
    arguments.file.write_bytes(made.image())
    print(f"{SIZES.needed()} blocks, {len(made.entries)} entries in the journal")


if __name__ == "__main__":
    main()
