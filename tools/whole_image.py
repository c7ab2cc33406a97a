#!/usr/bin/env python3
"""What `audit`, `status`, `recover`, `force-rebuild` and `grow` print of an image, and a `crash` of which nothing is served, found
in the plainest way. Nothing is written.

    python3 tools/whole_image.py audit FILE BLOCKS
    python3 tools/whole_image.py status FILE BLOCKS
    python3 tools/whole_image.py recover FILE BLOCKS
    python3 tools/whole_image.py force-rebuild FILE BLOCKS
    python3 tools/whole_image.py grow FILE BLOCKS --logical L --slabs S

Three more commands look inside, and print a record a line, with --json as an object of JSON:

    python3 tools/whole_image.py map FILE BLOCKS [--json]      each page and each mapping; addresses, data blocks, percent saved
    python3 tools/whole_image.py journal FILE BLOCKS [--json]  each entry of the journal that the pages and counts may lack
    python3 tools/whole_image.py counts FILE BLOCKS [--json]   the stored count of each data block

A mapping to block 0 is one of zeros, and one to none, or null, is no mapping.
"""

from __future__ import annotations

import argparse
import json
import sys
from collections.abc import Iterable
from dataclasses import dataclass, replace
from itertools import groupby
from pathlib import Path

from layout import Geometry
from listings import LISTINGS, Record, text_of
from plain_image import (
    GREATEST_COUNT,
    LOGICAL_AT_HEIGHT_2,
    BadImage,
    BlockMap,
    Entry,
    Head,
    Image,
    Journal,
    count_chapters,
    stored_counts,
)
from vector import BLOCK_BYTES


@dataclass(frozen=True)
class Found:
    head: Head
    window: list[Entry]
    stored: dict[int, int]
    mapped: dict[int, int]
    addresses: set[int]

    def differs(self) -> list[tuple[int, int, int]]:
        """The blocks that are counted otherwise than they are mapped, with both numbers."""
        both = ((at, count, self.mapped[at]) for at, count in sorted(self.stored.items()))
        return [one for one in both if one[1] != one[2]]

    def space(self) -> str:
        return f"used {sum(count > 0 for count in self.stored.values())} of {len(self.stored)}\n"


def look(image: Image) -> Found:
    head = image.head()
    window = Journal(image, head).window()
    found = BlockMap(image, head.sizes, window)
    stored = stored_counts(image, head.sizes, window)
    for at in sorted(found.pages):
        if found.mapped[at]:
            raise BadImage(f"shared page {at}")
    mapped = {at: found.mapped[at] + (at in found.pages) for at in stored}
    return Found(head, window, stored, mapped, found.addresses)


def audit(image: Image) -> tuple[str, int]:
    """The text of `audit`, and its status."""
    try:
        found = look(image)
    except BadImage as why:
        return f"bad image: {why}\n", 4
    lines = [f"block {at} stored {count} mapped {mapped}\n" for at, count, mapped in found.differs()]
    if lines:
        return "".join(lines) + f"audit differs {len(lines)}\n", 6
    return "audit clean, " + found.space(), 0


def status(image: Image) -> tuple[str, int]:
    """The text of `status`, and its status."""
    try:
        found = look(image)
    except BadImage as why:
        return f"bad image: {why}\n", 4
    if found.head.clean:
        mode = "mode clean\nrecovery none\n"
    else:
        mode = f"mode unclean\nrecovery {len(found.window)} entries\n"
    index = f"index {count_chapters(image, found.head.sizes)} chapters\ncompression refused\n"
    return mode + index + found.space() + f"logical {found.head.sizes.logical}\n", 0


def recover(image: Image) -> tuple[str, int]:
    """The text of `recover`, and its status: of a closed image the superblock alone is looked at."""
    try:
        if image.head().clean:
            return "clean\n", 0
        return f"recovered {len(look(image).window)} entries\n", 0
    except BadImage as why:
        return f"bad image: {why}\n", 4


def runs(data: bytes) -> str:
    """The bytes of a block, as RUNS."""
    return "+".join(f"{len(list(same))}*{byte:02x}" for byte, same in groupby(data))


def values(image: Image, addresses: Iterable[int]) -> str:
    """A line for each of these addresses below the logical size, by the window and the pages alone."""
    head = image.head()
    places = BlockMap(image, head.sizes, Journal(image, head).window()).places
    blocks = ((address, places.get(address)) for address in sorted(set(addresses)) if address < head.sizes.logical)
    return "".join(f"{address} {runs(bytes(BLOCK_BYTES) if at is None else image.block(at))}\n" for address, at in blocks)


def crash(image: Image, addresses: Iterable[int], end: str = "ended") -> tuple[str, int]:
    """The text of `crash` with a script of these addresses, and its status, where none of it is served and this is picked."""
    line, found = recover(image)
    if found == 4:
        return f"{end}\n{line}", 4
    text, found = audit(image)
    if found == 4:
        return f"{end}\n{text}", 4
    return f"{end}\n{line}{values(image, addresses)}{text}", found


def counted(image: Image) -> dict[int, int]:
    """How often each data block is mapped, by the window and the pages alone; the journal may not be at its end either way."""
    head = image.head()
    sizes = head.sizes
    found = BlockMap(image, sizes, Journal(image, replace(head, clean=False)).window())
    for at in sorted(found.pages):
        if found.mapped[at]:
            raise BadImage(f"shared page {at}")
    blocks = [sizes.data_block(k, offset) for k in range(sizes.slabs) for offset in range(sizes.slab_blocks)]
    mapped = {at: found.mapped[at] + (at in found.pages) for at in blocks}
    for at, count in mapped.items():
        if count > GREATEST_COUNT:
            raise BadImage(f"block {at} stored {GREATEST_COUNT} mapped {count}")
    return mapped


def force_rebuild(image: Image) -> tuple[str, int]:
    """The text of `force-rebuild`, and its status."""
    try:
        mapped = counted(image)
    except BadImage as why:
        return f"bad image: {why}\n", 4
    return f"rebuilt, used {sum(count > 0 for count in mapped.values())} of {len(mapped)}\n", 0


def layout_fault(sizes: Geometry, blocks: int) -> str | None:
    """Why such an image can't be had, of sizes that are within their limits but for addresses and slabs."""
    if not 1 <= sizes.slabs <= 1024:
        return "size slabs"
    if sizes.logical > (LOGICAL_AT_HEIGHT_2 if sizes.height == 2 else 4_000_000_000):
        return "logical too large"
    if sizes.needed() > blocks:
        return f"needs {sizes.needed()} blocks, has {blocks}"
    return None


def grow(image: Image, logical: int, slabs: int) -> tuple[str, int]:
    """The text of `grow`, and its status."""
    try:
        head = image.head()
        if not head.clean:
            raise BadImage("unclean")
        found = look(image)
        for at, stored, mapped in found.differs():
            raise BadImage(f"block {at} stored {stored} mapped {mapped}")
    except BadImage as why:
        return f"bad image: {why}\n", 4
    sizes = head.sizes
    for name, old, new in (("logical", sizes.logical, logical), ("slabs", sizes.slabs, slabs)):
        if new < old:
            return f"grow: smaller {name}\n", 8
    grown = replace(sizes, logical=logical, slabs=slabs)
    why_not = layout_fault(grown, image.count)
    if why_not:
        return f"layout: {why_not}\n", 8
    mapped_already = [address for address in found.addresses if sizes.logical <= address < logical]
    if mapped_already:
        return f"grow: mapped {min(mapped_already)}\n", 4
    word = "slab" if slabs == 1 else "slabs"
    return f"grown {grown.needed()} blocks, {slabs} {word} of {sizes.slab_blocks}, logical {logical}\n", 0


COMMANDS = {"audit": audit, "status": status, "recover": recover, "force-rebuild": force_rebuild}


def listed(records: Iterable[Record], as_json: bool) -> int:
    """Prints records, a line each, and gives the status."""
    spelled = json.dumps if as_json else text_of
    try:
        for record in records:
            print(spelled(record))
    except BadImage as why:
        print(spelled({"bad image": str(why)}))
        return 4
    return 0


def main() -> int:
    parser = argparse.ArgumentParser(description=__doc__, formatter_class=argparse.RawDescriptionHelpFormatter)
    parser.add_argument("command", choices=(*COMMANDS, "grow", *LISTINGS))
    parser.add_argument("file", type=Path)
    parser.add_argument("blocks", type=int)
    parser.add_argument("--logical", type=int, default=1000)
    parser.add_argument("--slabs", type=int, default=1)
    parser.add_argument("--json", action="store_true")
    arguments = parser.parse_args()
    image = Image(arguments.file.read_bytes()[: arguments.blocks * BLOCK_BYTES], arguments.blocks)
    if arguments.command in LISTINGS:
        return listed(LISTINGS[arguments.command](image), arguments.json)
    if arguments.command == "grow":
        text, found = grow(image, arguments.logical, arguments.slabs)
    else:
        text, found = COMMANDS[arguments.command](image)
    sys.stdout.write(text)
    return found


if __name__ == "__main__":
    sys.exit(main())
