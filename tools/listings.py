"""What an image has inside, as records: its mappings, the entries of its journal, and its stored counts.

A record is a line of names and values. Its block is 0 where an address has zeros, and None where it has no mapping.
"""

from __future__ import annotations

from collections.abc import Callable, Iterator

import journal
import mapping
from layout import POINTS_PER_BLOCK
from plain_image import BlockMap, Entry, Image, Journal, number, stored_counts

Record = dict[str, int | str | None]


def text_of(record: Record) -> str:
    return " ".join(f"{name} {'none' if value is None else value}" for name, value in record.items())


def block_or_zeros(five: bytes) -> int | None:
    """The block of a mapping of the journal, 0 of zeros, if it is one."""
    return None if five == mapping.unmapped() else number(five, 1, 4)


def mappings(image: Image) -> Iterator[Record]:
    """Each page of the block map below its roots, and each address that is mapped, as the journal changes them; then how many
    addresses are mapped, how many data blocks are used, of how many, and which part of the addresses takes no block of its own."""
    head = image.head()
    sizes = head.sizes
    found = BlockMap(image, sizes, Journal(image, head).window())
    for block, page in sorted(found.pages.items()):
        yield {"tree": page.tree, "level": page.level, "page": page.index, "block": block}
    for address in sorted(found.addresses):
        yield {"address": address, "block": found.places.get(address, 0)}
    addresses, blocks = len(found.addresses), len(found.mapped)
    saved = 100 * (addresses - blocks) // addresses if addresses else 0
    used = len(found.pages.keys() | found.mapped.keys())
    yield {"addresses": addresses, "used": used, "of": sizes.slabs * sizes.slab_blocks, "percent-saved": saved}


def target_of(entry: Entry) -> Record:
    """The address that an entry maps, or the page that it makes."""
    if entry.kind == journal.REMAP:
        return {"address": entry.number}
    return {"tree": entry.tree, "level": entry.level, "page": entry.number}


def entries(image: Image) -> Iterator[Record]:
    """Each entry from the head of the journal on, with its sequence and its place there; then the mode, and how many there are."""
    head = image.head()
    window = Journal(image, head).window()
    for entry in window:
        sequence, place = divmod(entry.point, POINTS_PER_BLOCK)
        blocks = {"old": block_or_zeros(entry.old), "new": block_or_zeros(entry.new)}
        yield {"sequence": sequence, "entry": place // 2, **target_of(entry), **blocks}
    yield {"mode": "clean" if head.clean else "unclean", "entries": len(window)}


def counts(image: Image) -> Iterator[Record]:
    """The stored count of each data block, with the updates of the journals; then how many are above 0, of how many."""
    head = image.head()
    stored = stored_counts(image, head.sizes, Journal(image, head).window())
    for block, count in sorted(stored.items()):
        yield {"block": block, "stored": count}
    yield {"used": sum(count > 0 for count in stored.values()), "of": len(stored)}


LISTINGS: dict[str, Callable[[Image], Iterator[Record]]] = {"map": mappings, "journal": entries, "counts": counts}
