#!/usr/bin/env python3
"""Makes a large image file whose last session wasn't closed, as a stop may leave it; fills its counters and its slabs'
journals with ones; and says how many of its leaves and of the blocks of its addresses aren't as they are to be once the
journal is in the pages.

It has 1,024 slabs and 100,000 entries in its journal: for 99,876 addresses, which have data blocks of all slabs, for their
123 leaves, and for an address that was written again. The file has 554 MB, of which most are holes.

    python3 tools/large_image.py make FILE
    python3 tools/large_image.py noise FILE
    python3 tools/large_image.py check FILE
"""

from __future__ import annotations

import argparse
import sys
from collections.abc import Iterator
from pathlib import Path
from typing import BinaryIO

import journal
import map_page
import mapping
import superblock
from layout import SLOTS_PER_PAGE, TREES, Geometry, path
from vector import BLOCK_BYTES, SECTORS, filled, u32

SIZES = Geometry(logical=100_000, slabs=1024, slab_blocks=128, journal=1024, index=4, slab_journal=2)
LEAVES = 123
ADDRESSES = LEAVES * SLOTS_PER_PAGE
WRITTEN_AGAIN = 0
HEAD = len(map_page.page(SIZES.nonce, 0, 0, 0, 0, []))
ENTRIES_PER_BLOCK = journal.ENTRIES_PER_SECTOR * SECTORS


def taken(number: int) -> int:
    """The data block that was taken so many blocks behind the first one: one of each slab, and then the next of each."""
    offset, slab = divmod(number, SIZES.slabs)
    return SIZES.data_block(slab, offset)


def leaf_block(leaf: int) -> int:
    return taken(leaf)


def first_block(address: int) -> int:
    return taken(LEAVES + address)


def block_of(address: int) -> int:
    """The block of an address at the end."""
    return taken(LEAVES + ADDRESSES) if address == WRITTEN_AGAIN else first_block(address)


def place_of_leaf(leaf: int) -> tuple[int, int]:
    """The tree of a leaf, and its number there."""
    tree, slots = path(leaf * SLOTS_PER_PAGE, SIZES.height)
    return tree, slots[0]


def content(address: int) -> bytes:
    """What the block of an address begins with: each hundredth has its number, and the others zeros, for which the file has
    holes."""
    return u32(address) if address % 100 == 0 else b""


def entries() -> Iterator[bytes]:
    for leaf in range(LEAVES):
        tree, index = place_of_leaf(leaf)
        yield journal.new_page(tree, 0, index, leaf_block(leaf))
        for address in range(leaf * SLOTS_PER_PAGE, (leaf + 1) * SLOTS_PER_PAGE):
            yield journal.remap(address, mapping.unmapped(), mapping.at(first_block(address)))
    again = WRITTEN_AGAIN
    yield journal.remap(again, mapping.at(first_block(again)), mapping.at(block_of(again)))


def put(file: BinaryIO, at: int, data: bytes) -> None:
    file.seek(at * BLOCK_BYTES)
    file.write(data)


def empty_page(at: int, tree: int, level: int, index: int) -> bytes:
    return map_page.page(SIZES.nonce, at, tree, level, index, [mapping.unmapped()] * SLOTS_PER_PAGE)


def put_journal(file: BinaryIO) -> int:
    """The blocks of the journal; how many entries they have."""
    all_entries = list(entries())
    starts = range(0, len(all_entries), ENTRIES_PER_BLOCK)
    for sequence, start in enumerate(starts, start=1):
        some = all_entries[start : start + ENTRIES_PER_BLOCK]
        put(file, SIZES.journal_slot(sequence), journal.block(SIZES.nonce, sequence, 1, some))
    return len(all_entries)


def make(name: Path) -> str:
    with name.open("wb") as file:
        file.truncate(SIZES.needed() * BLOCK_BYTES)
        put(file, 0, superblock.head(SIZES, False, 1))
        for tree in range(TREES):
            put(file, SIZES.root(tree), empty_page(SIZES.root(tree), tree, SIZES.height - 1, 0))
        for leaf in range(LEAVES):
            tree, index = place_of_leaf(leaf)
            put(file, leaf_block(leaf), empty_page(leaf_block(leaf), tree, 0, index))
        for address in range(ADDRESSES):
            if content(address):
                put(file, block_of(address), content(address))
        count = put_journal(file)
    return f"{SIZES.needed()} blocks, {count} entries in the journal"


def put_noise(name: Path) -> str:
    count = SIZES.references() + SIZES.slab_journal
    with name.open("r+b") as file:
        for slab in range(SIZES.slabs):
            put(file, SIZES.reference_block(slab, 0), b"\xff" * BLOCK_BYTES * count)
    return f"noise in {count * SIZES.slabs} blocks"


def block(file: BinaryIO, at: int) -> bytes:
    file.seek(at * BLOCK_BYTES)
    return file.read(BLOCK_BYTES)


def is_mapped(file: BinaryIO, leaf: int) -> bool:
    """Whether the pages map the addresses of a leaf as they were."""
    at = leaf_block(leaf)
    tree, index = place_of_leaf(leaf)
    first = leaf * SLOTS_PER_PAGE
    slots = [mapping.at(block_of(address)) for address in range(first, first + SLOTS_PER_PAGE)]
    root = block(file, SIZES.root(tree))[HEAD + 5 * index : HEAD + 5 * index + 5]
    return root == mapping.at(at) and block(file, at) == map_page.page(SIZES.nonce, at, tree, 0, index, slots)


def has_content(file: BinaryIO, address: int) -> bool:
    return block(file, block_of(address)) == filled(content(address), BLOCK_BYTES)


def check(name: Path) -> str:
    with name.open("rb") as file:
        leaves = sum(not is_mapped(file, leaf) for leaf in range(LEAVES))
        values = sum(not has_content(file, address) for address in range(ADDRESSES))
    return f"{leaves} of {LEAVES} leaves and {values} of {ADDRESSES} blocks differ"


COMMANDS = {"make": make, "noise": put_noise, "check": check}


def main() -> int:
    parser = argparse.ArgumentParser(description=__doc__, formatter_class=argparse.RawDescriptionHelpFormatter)
    parser.add_argument("command", choices=tuple(COMMANDS))
    parser.add_argument("file", type=Path)
    arguments = parser.parse_args()
    print(COMMANDS[arguments.command](arguments.file))
    return 0


if __name__ == "__main__":
    sys.exit(main())
