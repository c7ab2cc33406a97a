#!/usr/bin/env python3
"""The images of the cases by text: an empty one of the default sizes, with some bytes of it changed.

    python3 tools/case_images.py NAME FILE ..

writes the image with this name into each of these files. What the commands print of them, as whole_image.py finds it, stands in the
files of cases/.
"""

from __future__ import annotations

import argparse
import sys
from collections.abc import Iterator
from pathlib import Path

import chapters
import journal
import map_page
import mapping
import slab
import superblock
from layout import DEFAULT, SLOTS_PER_PAGE, TREES, point
from plain_image import INCREMENT, Image
from vector import BLOCK_BYTES, Steps, Vector
from whole_image import audit, crash, force_rebuild, grow, recover, status

Patch = tuple[int, int, bytes]
Patches = tuple[Patch, ...]
Told = tuple[str, int]

TOOLS = "run_tests/src/tools.rt"
UNCLEAN: Patch = (0, 48, bytes([0]))
ROOT = DEFAULT.root(0)
ZEROS = bytes([mapping.MAPPED, 0, 0, 0, 0])
# Of the first two data blocks.
COUNTED: Patch = (149, 8, bytes([1, 1]))


def empty() -> bytearray:
    sizes = DEFAULT
    data = bytearray(sizes.needed() * BLOCK_BYTES)
    data[:64] = superblock.head(sizes, True, 1)
    slots = [mapping.unmapped()] * SLOTS_PER_PAGE
    for tree in range(TREES):
        at = sizes.root(tree)
        data[at * BLOCK_BYTES : (at + 1) * BLOCK_BYTES] = map_page.page(sizes.nonce, at, tree, 1, 0, slots)
    return data


def patched(patches: Patches, blocks: int = DEFAULT.needed()) -> Image:
    data = empty()
    for at, place, content in patches:
        start = at * BLOCK_BYTES + place
        data[start : start + len(content)] = content
    return Image(bytes(data), blocks)


def slot(at: int, place: int, five: bytes) -> Patch:
    return at, 36 + 5 * place, five


def leaf(at: int, tree: int, index: int) -> Patch:
    """How a leaf begins."""
    return at, 0, map_page.page(DEFAULT.nonce, at, tree, 0, index, [])


def window(sequence: int, head: int, entries: list[bytes]) -> Patch:
    """The first sector of a block of the recovery journal."""
    return DEFAULT.journal_slot(sequence), 0, journal.sector(DEFAULT.nonce, sequence, head, 0, entries)


def index_page(at: int, chapter: int, place: int, records: list[chapters.Record]) -> Patch:
    return at, 0, chapters.page(DEFAULT.nonce, chapter, place, records)


def field(place: int, length: int, value: int) -> Patch:
    """A number of the superblock."""
    return 0, place, value.to_bytes(length, "little")


def logical_size(addresses: int) -> Patch:
    return field(24, 4, addresses)


def written() -> Patches:
    """Address 5 was written, and the session was closed."""
    return slot(ROOT, 0, mapping.at(85)), leaf(85, 0, 0), slot(85, 5, mapping.at(86)), COUNTED


def stopped() -> Patches:
    """The same, and it wasn't: its leaf and its counters aren't on the device yet."""
    write = journal.remap(5, mapping.unmapped(), mapping.at(86))
    return UNCLEAN, window(1, 1, [journal.new_page(0, 0, 0, 85), write]), leaf(85, 0, 0)


def stopped_later() -> Patches:
    """What the slab's journal has of the window counts once; another update of it counts too."""
    updates = [slab.entry(point(1, 0, INCREMENT), 0), slab.entry(point(1, 9, INCREMENT), 4)]
    return *stopped(), (150, 0, slab.sector(DEFAULT.nonce, 1, 0, 0, updates))


def indexed() -> Patches:
    """Two chapters have pages at their places, a third page stands at no place of its own."""
    first, second = chapters.name(1), chapters.name(0)
    return (
        index_page(69, 4, 0, [(second, 86), (first, 87)]),
        index_page(70, 4, 1, []),
        index_page(75, 1, 2, [(first, 88)]),
        index_page(77, 1, 0, [(first, 88)]),
    )


def missing_block() -> Patches:
    """The first block of the window isn't there."""
    return UNCLEAN, window(2, 1, [journal.remap(5, mapping.unmapped(), mapping.at(86))])


def shared_page() -> Patches:
    """The leaf is the data of an address too."""
    return slot(ROOT, 0, mapping.at(85)), leaf(85, 0, 0), slot(85, 5, mapping.at(85)), COUNTED


def noise() -> Patches:
    """Noise in all blocks of the slab but its data."""
    return tuple((at, 0, bytes([255]) * BLOCK_BYTES) for at in range(149, 154))


def shared(mappings: int) -> Patches:
    """Block 86 is mapped so often."""
    return (*written(), *(slot(85, place, mapping.at(86)) for place in range(mappings)))


def two_leaves() -> Patches:
    """The second leaf of tree 0, and the first of tree 1, each with zeros at its first address."""
    first, second = slot(ROOT, 1, mapping.at(85)), slot(DEFAULT.root(1), 0, mapping.at(86))
    leaves = (leaf(85, 0, 1), slot(85, 0, ZEROS), leaf(86, 1, 0), slot(86, 0, ZEROS))
    return first, second, *leaves, COUNTED, logical_size(3)


# Images of which the audit and the status are tried.
INSPECTED: dict[str, Patches] = {
    "fresh": (),
    "written": written(),
    "counted-twice": (*written(), (149, 9, bytes([2]))),
    "counted-never": (*written(), (149, 8, bytes([0, 1, 7]))),
    "stopped": stopped(),
    "stopped-later": stopped_later(),
    "indexed": indexed(),
    "not-an-image": ((0, 0, b"X"),),
    "another-version": (field(8, 4, 7),),
    "small-journal": (field(36, 4, 7),),
    "late-start": (field(56, 8, 2**54),),
    "block-is-missing": missing_block(),
    "header": (slot(ROOT, 0, mapping.at(85)),),
    "compressed": (*written(), slot(85, 3, bytes([2]))),
    "out-of-range": (*written(), slot(85, 3, mapping.at(84))),
    "counter": (*written(), (149, 11, bytes([255]))),
    "shared-page": shared_page(),
}
# The last sequence that a block can have.
LATE_END: Patch = field(56, 8, 2**54 - 1)
# More images that a recovery refuses.
UNRECOVERED: dict[str, Patches] = {
    "unclean-late-end": (UNCLEAN, LATE_END),
    "unclean-root-is-missing": (UNCLEAN, (ROOT, 0, b"X")),
    "unclean-compressed": (UNCLEAN, slot(ROOT, 3, bytes([2]))),
    "unclean-out-of-range": (UNCLEAN, slot(ROOT, 3, mapping.at(84))),
    "unclean-counter": (UNCLEAN, (149, 11, bytes([255]))),
    "unclean-shared-page": (UNCLEAN, *shared_page()),
}
WITH_DATA = "-with-data"
OTHERS: dict[str, Patches] = {
    "closed-without-a-root": ((ROOT, 0, b"X"),),
    "unclean": (UNCLEAN,),
    "late-end": (LATE_END,),
    "written-with-noise": (*written(), *noise()),
    "stopped-with-noise": (*stopped(), *noise()),
    "mapped-254-times": (*shared(254), *noise()),
    "mapped-255-times": (*shared(255), *noise()),
    "written-past-4-addresses": (*written(), logical_size(4)),
    "written-past-5-addresses": (*written(), logical_size(5)),
    "zeros-past-3-addresses": (*written(), logical_size(3), slot(85, 3, ZEROS)),
    "two-leaves-past-3-addresses": two_leaves(),
    **{f"{one}{WITH_DATA}": (*INSPECTED[one], (86, 0, b"abbb")) for one in ("counted-twice", "counted-never", "stopped-later")},
}
IMAGES = {**INSPECTED, **UNRECOVERED, **OTHERS}

# The superblock and the window are found by every command in the same way.
HEADS = ("not-an-image", "another-version", "small-journal", "late-start", "block-is-missing")
RECOVERED = ("fresh", "closed-without-a-root", "unclean", "stopped", "stopped-later")
NOISY = ("written-with-noise", "stopped-with-noise", "mapped-254-times")
REBUILT = ("fresh", "counted-twice", "counted-never", "counter", "stopped-later", *NOISY)
UNREBUILT = (*HEADS, "late-end", "header", "compressed", "out-of-range", "shared-page", "mapped-255-times")
# The blocks of the device, the addresses and slabs that an image gets, and how many blocks are used.
GROWN = (
    ("fresh", (223, 2000, 2), 0),
    ("written", (223, 2000, 2), 2),
    ("written", (154, 1000, 1), 2),
    ("written-past-4-addresses", (154, 5, 1), 2),
)
UNGROWN = (
    ("fresh", (222, 2000, 2)),
    ("fresh", (154, 999, 1)),
    ("fresh", (154, 999, 0)),
    ("fresh", (154, 1000, 0)),
    ("fresh", (154, 39_560_641, 1)),
    ("fresh", (154, 1000, 1025)),
    ("not-an-image", (154, 2000, 1)),
    ("unclean", (154, 999, 0)),
    ("counted-twice", (223, 2000, 2)),
    ("written-past-5-addresses", (223, 6, 2)),
    ("zeros-past-3-addresses", (223, 2000, 2)),
    ("two-leaves-past-3-addresses", (154, 60_000, 1)),
)
# Two of these addresses have the same leaf, one has none, and one is too large.
CRASHED = (5, 6, 900, 1000)
SCRIPT = "0 read 900\n0 read 5\n1 write 6 4096*61\n1 flush\n0 discard 1000 1\n0 read 5\n"
KEPT = ("cmp image kept", "", 0)


def steps(file: str, name: str, *behind: tuple[str, str, int]) -> Steps:
    """An image is made, and then come these commands."""
    return Steps(f"{file}.case", ((f"python3 tools/case_images.py {name} image kept", "", 0), *behind))


def did(words: str, told: Told, blocks: int = DEFAULT.needed()) -> tuple[str, str, int]:
    """The program with these words on an image, what it prints, and its status."""
    return (f"vdo image {blocks} {words}", *told)


def recoveries() -> Iterator[Steps]:
    for name in RECOVERED:
        image = patched(IMAGES[name])
        only_reads = (KEPT,) if image.head().clean else ()
        after = (did("recover", ("clean\n", 0)), did("audit", audit(image)))
        yield steps("recoveries", name, did("recover", recover(image)), *after, *only_reads)
    for name in (*HEADS, *UNRECOVERED):
        image = patched(IMAGES[name])
        yield steps("recoveries", name, *(2 * (did("recover", recover(image)),)), did("audit", audit(image)), KEPT)


def rebuilds() -> Iterator[Steps]:
    for name in REBUILT:
        text, found = force_rebuild(patched(IMAGES[name]))
        clean = text.replace("rebuilt", "audit clean")
        yield steps("rebuilds", name, *(2 * (did("force-rebuild", (text, found)),)), did("audit", (clean, 0)))
    for name in UNREBUILT:
        yield steps("rebuilds", name, did("force-rebuild", force_rebuild(patched(IMAGES[name]))), KEPT)


def growths() -> Iterator[Steps]:
    for name, (blocks, logical, slabs), used in GROWN:
        once = did(f"grow --logical={logical} --slabs={slabs}", grow(patched(IMAGES[name], blocks), logical, slabs), blocks)
        clean = (f"audit clean, used {used} of {64 * slabs}\n", 0)
        yield steps("growths", name, once, once, did("audit", clean, blocks))
    for name, (blocks, logical, slabs) in UNGROWN:
        told = grow(patched(IMAGES[name], blocks), logical, slabs)
        yield steps("growths", name, did(f"grow --logical={logical} --slabs={slabs}", told, blocks), KEPT)


def crashes() -> Iterator[Steps]:
    """Of a script that is stopped before its first call; and of one whose copy is recovered, and then no session begins."""
    for name in (one for one in OTHERS if one.endswith(WITH_DATA)):
        text, found = crash(patched(IMAGES[name]), CRASHED, "stopped")
        yield steps("crashes", name, did(f"crash --after=0 --image=1 <<END\n{SCRIPT}END", (text, found)), KEPT)
    text, found = crash(patched(IMAGES[f"stopped-later{WITH_DATA}"]), CRASHED)
    told = (text.replace("recovered 2 entries", "clean"), found)
    yield steps("crashes", f"stopped-later{WITH_DATA}", did(f"crash --after=1000000 --image=1 <<END\n{SCRIPT}END", told), KEPT)


def spelled() -> Iterator[Vector]:
    """What the tests of calls that fail change in an empty image, without the zeros that end a block's front."""
    unclean, front, head = stopped()
    link, _, mapped, counts = written()
    for item, (at, place, content) in (("LINK", link), ("MAPPING", mapped), ("COUNTS", counts), ("UNCLEAN", unclean)):
        yield Vector(TOOLS, item, (at, place, content))
    for item, (at, place, content) in (("LEAF", head), ("WINDOW", front)):
        yield Vector(TOOLS, item, (at, place, content.rstrip(b"\0")))


def vectors() -> Iterator[Steps | Vector]:
    for name, patches in INSPECTED.items():
        image = patched(patches)
        yield steps("inspections", name, did("audit", audit(image)), did("status", status(image)), KEPT)
    yield from recoveries()
    yield from rebuilds()
    yield from growths()
    yield from crashes()
    yield from spelled()


def main() -> int:
    parser = argparse.ArgumentParser(description=__doc__, formatter_class=argparse.RawDescriptionHelpFormatter)
    parser.add_argument("name", choices=IMAGES)
    parser.add_argument("files", type=Path, nargs="+")
    arguments = parser.parse_args()
    for file in arguments.files:
        file.write_bytes(patched(IMAGES[arguments.name]).data)
    return 0


if __name__ == "__main__":
    sys.exit(main())
