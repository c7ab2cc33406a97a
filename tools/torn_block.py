#!/usr/bin/env python3
"""Makes of an empty image of the default sizes one whose last session was stopped while it wrote a full block of the recovery
journal: BITS says which sectors of the block are there, the first by the lowest bit. The block behind it maps 192 addresses, those of
each sector to a data block of its own, which begins with the sector's number from 1 on; the block before it has the page of these
addresses.

    python3 tools/torn_block.py FILE BITS
"""

from __future__ import annotations

import argparse
from pathlib import Path

import journal
import map_page
import mapping
import superblock
from layout import DEFAULT, SLOTS_PER_PAGE
from vector import BLOCK_BYTES, SECTOR_BYTES, SECTORS

FIRST_SEQUENCE = 1
LEAF = DEFAULT.data_block(0, SECTORS)


def put(data: bytearray, at: int, content: bytes) -> None:
    """Puts what a block begins with."""
    data[at * BLOCK_BYTES : at * BLOCK_BYTES + len(content)] = content


def full_block() -> bytes:
    per_sector = journal.ENTRIES_PER_SECTOR
    blocks = (DEFAULT.data_block(0, address // per_sector) for address in range(SECTORS * per_sector))
    entries = [journal.remap(address, mapping.unmapped(), mapping.at(block)) for address, block in enumerate(blocks)]
    return journal.block(DEFAULT.nonce, FIRST_SEQUENCE + 1, FIRST_SEQUENCE, entries)


def stop(data: bytearray, bits: int) -> None:
    put(data, 0, superblock.head(DEFAULT, False, FIRST_SEQUENCE))
    leaf = journal.new_page(0, 0, 0, LEAF)
    put(data, DEFAULT.journal_slot(FIRST_SEQUENCE), journal.block(DEFAULT.nonce, FIRST_SEQUENCE, FIRST_SEQUENCE, [leaf]))
    put(data, LEAF, map_page.page(DEFAULT.nonce, LEAF, 0, 0, 0, [mapping.unmapped()] * SLOTS_PER_PAGE))
    written = full_block()
    torn = DEFAULT.journal_slot(FIRST_SEQUENCE + 1) * BLOCK_BYTES
    for sector in range(SECTORS):
        put(data, DEFAULT.data_block(0, sector), bytes([sector + 1]))
        place = sector * SECTOR_BYTES
        if bits >> sector & 1:
            data[torn + place : torn + place + SECTOR_BYTES] = written[place : place + SECTOR_BYTES]


def main() -> None:
    parser = argparse.ArgumentParser(description=__doc__, formatter_class=argparse.RawDescriptionHelpFormatter)
    parser.add_argument("file", type=Path)
    parser.add_argument("bits", type=int)
    arguments = parser.parse_args()
    data = bytearray(arguments.file.read_bytes())
    stop(data, arguments.bits)
    arguments.file.write_bytes(data)


if __name__ == "__main__":
    main()
