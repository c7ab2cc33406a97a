"""An image as the bytes of its blocks say it: its superblock, the window of its journal, its block map, its counts and the chapters
of its index, each read in the plainest way. Nothing is written."""

from __future__ import annotations

from collections import Counter
from collections.abc import Iterator
from dataclasses import dataclass, replace

import chapters
import journal
import map_page
import mapping
import slab
import superblock
from layout import SLOTS_PER_PAGE, TREES, Geometry, point
from vector import BLOCK_BYTES, SECTOR_BYTES, SECTORS

GREATEST_COUNT = 254
INCREMENT = 0
DECREMENT = 1

# Name, place, length, least and greatest value of the sizes, in the order in which they are judged.
SIZES = (
    ("height", 12, 4, 2, 3),
    ("nonce", 16, 8, 1, 2**64 - 1),
    ("logical", 24, 4, 1, 4_000_000_000),
    ("slabs", 28, 4, 1, 1024),
    ("slab-blocks", 32, 4, 16, 32768),
    ("journal", 36, 4, 8, 1024),
    ("index", 40, 4, 4, 1024),
    ("slab-journal", 44, 4, 2, 64),
)
LOGICAL_AT_HEIGHT_2 = 39_560_640


class BadImage(Exception):
    """What is wrong with an image, as it is printed."""


def number(data: bytes, start: int, length: int) -> int:
    return int.from_bytes(data[start : start + length], "little")


@dataclass(frozen=True)
class Head:
    sizes: Geometry
    clean: bool
    start: int


@dataclass(frozen=True)
class Entry:
    """An entry of the journal, and the point of its increment."""

    point: int
    kind: int
    tree: int
    level: int
    number: int
    old: bytes
    new: bytes


@dataclass(frozen=True)
class Page:
    tree: int
    level: int
    index: int


def block_of(five: bytes) -> int | None:
    """The block of a mapping of the journal, if it has one."""
    return number(five, 1, 4) or None if five[0] else None


def is_field(five: bytes) -> bool:
    """Whether the journal has such a mapping: state 0 without a block, or state 1 with 32 bits of it."""
    return five == mapping.unmapped() or five[0] == mapping.MAPPED


class Image:
    """The blocks of a device."""

    def __init__(self, data: bytes, count: int) -> None:
        self.data = data.ljust(count * BLOCK_BYTES, b"\0")
        self.count = count

    def block(self, at: int) -> bytes:
        return self.data[at * BLOCK_BYTES : (at + 1) * BLOCK_BYTES]

    def sector(self, at: int, place: int) -> bytes:
        return self.block(at)[place * SECTOR_BYTES : (place + 1) * SECTOR_BYTES]

    # The superblock.

    def head(self) -> Head:
        first = self.sector(0, 0)
        if self.count == 0 or first[:8] != superblock.MAGIC:
            raise BadImage("not an image")
        if number(first, 8, 4) != superblock.VERSION:
            raise BadImage(f"version {number(first, 8, 4)}")
        found = {}
        for name, start, length, least, most in SIZES:
            found[name] = value = number(first, start, length)
            if name == "logical" and found["height"] == 2:
                most = LOGICAL_AT_HEIGHT_2
            if not least <= value <= most or (name == "index" and value % 4):
                raise BadImage(f"field {name}")
        clean, start = number(first, 48, 4), number(first, 56, 8)
        if clean > 1:
            raise BadImage("field clean")
        if any(first[52:56]):
            raise BadImage("field reserved")
        if not 1 <= start < 2**54:
            raise BadImage("field start")
        if any(first[64:]):
            raise BadImage("field reserved")
        sizes = Geometry(**{name.replace("-", "_"): value for name, value in found.items()})
        if self.count < sizes.needed():
            raise BadImage("field blocks")
        return Head(sizes, clean == 1, start)


class Journal:
    """The window of the recovery journal."""

    def __init__(self, image: Image, head: Head) -> None:
        self.image = image
        self.head = head
        self.sizes = head.sizes

    def part(self, sequence: int, place: int) -> tuple[int, int, list[Entry]] | None:
        """Sequence, head and entries of a sector of the slot of a sequence; nothing where it isn't valid."""
        data = self.image.sector(self.sizes.journal_slot(sequence), place)
        found, head, count = number(data, 8, 8), number(data, 16, 8), number(data, 26, 2)
        front = number(data, 0, 8) == self.sizes.nonce and number(data, 24, 2) == place
        if not front or data[28:32] != journal.MAGIC or count > journal.ENTRIES_PER_SECTOR:
            return None
        if not 0 < found < 2**55 or head > found or any(data[32 + 20 * count :]):
            return None
        entries = []
        for k in range(count):
            raw = data[32 + 20 * k : 52 + 20 * k]
            kind, tree, level = raw[0], raw[1], raw[2]
            old, new = raw[8:13], raw[13:18]
            if kind > 1 or raw[3] or any(raw[18:]) or not is_field(old) or not is_field(new):
                return None
            if kind == journal.REMAP and (tree or level):
                return None
            if kind == journal.NEW_PAGE and (tree >= TREES or any(old) or new[0] != mapping.MAPPED):
                return None
            if kind == journal.NEW_PAGE and not number(new, 1, 4):
                return None
            entries.append(Entry(0, kind, tree, level, number(raw, 4, 4), old, new))
        return found, head, entries

    def prefix(self, sequence: int) -> tuple[int, list[Entry], bool] | None:
        """Head, entries and wholeness of the block with a sequence; nothing where it isn't there."""
        first = self.part(sequence, 0)
        if first is None or first[0] != sequence:
            return None
        raw: list[Entry] = []
        place, full = 0, True
        while place < SECTORS:
            part = self.part(sequence, place)
            if part is None or part[:2] != first[:2] or (part[2] and not full):
                break
            full = len(part[2]) == journal.ENTRIES_PER_SECTOR
            raw += part[2]
            place += 1
        entries = [replace(one, point=point(sequence, k, INCREMENT)) for k, one in enumerate(raw)]
        return first[1], entries, place == SECTORS

    def last(self) -> int:
        found = [self.part(slot, 0) for slot in range(self.sizes.journal)]
        sequences = [
            part[0] for slot, part in enumerate(found) if part and part[0] % self.sizes.journal == slot
        ]
        within = [one for one in sequences if self.head.start <= one < self.head.start + 2**32]
        return max(within, default=self.head.start - 1)

    def is_data(self, block: int | None) -> bool:
        return block is None or place_of(self.sizes, block) is not None

    def is_right(self, entry: Entry) -> bool:
        blocks = self.is_data(block_of(entry.old)) and self.is_data(block_of(entry.new))
        if entry.kind == journal.REMAP:
            return blocks and entry.number < self.sizes.logical
        if entry.level >= self.sizes.height - 1:
            return False
        page = entry.number * SLOTS_PER_PAGE**entry.level * TREES + entry.tree
        return blocks and page * SLOTS_PER_PAGE < self.sizes.logical

    def window(self) -> list[Entry]:
        last = self.last()
        if not self.head.clean and last + 2 >= 2**54:
            raise BadImage("field start")
        if last < self.head.start:
            return []
        newest = self.prefix(last)
        assert newest is not None
        entries: list[Entry] = []
        sequence = newest[0]
        while sequence <= last:
            found = self.prefix(sequence)
            if found is None or (sequence < last and not found[2]) or not all(map(self.is_right, found[1])):
                raise BadImage(f"window {sequence}")
            entries += found[1]
            sequence += 1
        return entries


def place_of(sizes: Geometry, block: int) -> tuple[int, int] | None:
    """Slab and offset of a data block."""
    slab_number, offset = divmod(block - sizes.slab_start(0), sizes.slab_stride())
    inside = 0 <= slab_number < sizes.slabs and offset < sizes.slab_blocks
    return (slab_number, offset) if inside else None


def address_of(page: Page, slot: int) -> int:
    """The address of a slot of a leaf."""
    return (page.index * TREES + page.tree) * SLOTS_PER_PAGE + slot


class BlockMap:
    """The pages of the block map, with what the window puts into their slots."""

    def __init__(self, image: Image, sizes: Geometry, window: list[Entry]) -> None:
        self.image = image
        self.sizes = sizes
        self.changes: dict[tuple[Page, int], bytes] = {}
        for entry in window:
            self.changes[self.changed(entry)] = entry.new
        self.pages: dict[int, Page] = {}
        self.mapped: Counter[int] = Counter()
        self.addresses: set[int] = set()
        self.places: dict[int, int] = {}
        for tree in range(TREES):
            self.walk(Page(tree, sizes.height - 1, 0), sizes.root(tree))

    def changed(self, entry: Entry) -> tuple[Page, int]:
        if entry.kind == journal.NEW_PAGE:
            index, slot = divmod(entry.number, SLOTS_PER_PAGE)
            return Page(entry.tree, entry.level + 1, index), slot
        page, slot = divmod(entry.number, SLOTS_PER_PAGE)
        index, tree = divmod(page, TREES)
        return Page(tree, 0, index), slot

    def mapping(self, page: Page, at: int, slot: int, raw: bytes) -> int | None:
        state, block = raw[0] & 15, raw[0] >> 4 << 32 | number(raw, 1, 4)
        if state == mapping.UNMAPPED and block == 0:
            return None
        if state > mapping.MAPPED:
            raise BadImage(f"page {at} slot {slot} compressed")
        if state == mapping.MAPPED and block == 0 and page.level == 0:
            return None
        if state == mapping.MAPPED and place_of(self.sizes, block) is not None:
            return block
        raise BadImage(f"page {at} slot {slot} out of range")

    def walk(self, page: Page, at: int) -> None:
        data = self.image.block(at)
        front = map_page.page(self.sizes.nonce, at, page.tree, page.level, page.index, [])
        if data[: len(front)] != front:
            raise BadImage(f"page {at} header")
        found: list[tuple[int, int]] = []
        for slot in range(SLOTS_PER_PAGE):
            start = len(front) + 5 * slot
            change = self.changes.get((page, slot))
            five = data[start : start + 5] if change is None else change
            block = self.mapping(page, at, slot, five) if change is None else block_of(change)
            if block is not None:
                found.append((slot, block))
            if page.level == 0 and five != mapping.unmapped():
                self.addresses.add(address_of(page, slot))
        if page.level == 0:
            self.mapped.update(block for _, block in found)
            self.places.update((address_of(page, slot), block) for slot, block in found)
            return
        for slot, block in found:
            below = Page(page.tree, page.level - 1, page.index * SLOTS_PER_PAGE + slot)
            self.pages[block] = below
            self.walk(below, block)


def slab_updates(image: Image, sizes: Geometry, number_of_slab: int) -> Iterator[tuple[int, int]]:
    """Point and block of each update in the valid sectors of a slab's journal."""
    for slot in range(sizes.slab_journal):
        for place in range(SECTORS):
            data = image.sector(sizes.slab_journal_slot(number_of_slab, slot), place)
            count = number(data, 22, 2)
            entries = [data[32 + 12 * k : 44 + 12 * k] for k in range(min(count, slab.ENTRIES_PER_SECTOR))]
            names = [(number(one, 0, 8), number(one, 8, 2)) for one in entries]
            sequence = number(data, 8, 8)
            spelled = [slab.entry(*one) for one in names]
            form = slab.sector(sizes.nonce, sequence, number_of_slab, place, spelled)
            if data == form and all(offset < sizes.slab_blocks for _, offset in names):
                yield from ((at, sizes.data_block(number_of_slab, offset)) for at, offset in names)


def stored_counts(image: Image, sizes: Geometry, window: list[Entry]) -> dict[int, int]:
    updates = {one for k in range(sizes.slabs) for one in slab_updates(image, sizes, k)}
    for entry in window:
        new, old = block_of(entry.new), block_of(entry.old)
        if new is not None:
            updates.add((entry.point + INCREMENT, new))
        if old is not None:
            updates.add((entry.point + DECREMENT, old))
    points: dict[int, list[int]] = {}
    for one, changed in sorted(updates):
        points.setdefault(changed, []).append(one)
    counts: dict[int, int] = {}
    for slab_number in range(sizes.slabs):
        for offset in range(sizes.slab_blocks):
            at = sizes.data_block(slab_number, offset)
            block, place, counter = slab.counter_place(offset)
            data = image.sector(sizes.reference_block(slab_number, block), place)
            commit, count = number(data, 0, 8), data[8 + counter]
            later = [one for one in points.get(at, []) if one > commit]
            for change in [0] + [1 if one % 2 == INCREMENT else -1 for one in later]:
                count += change
                if not 0 <= count <= GREATEST_COUNT:
                    raise BadImage(f"counter {at}")
            counts[at] = count
    return counts


def count_chapters(image: Image, sizes: Geometry) -> int:
    places = sizes.index // chapters.PAGES
    found = set()
    for k in range(sizes.index):
        data = image.block(sizes.index_block(k))
        chapter, count = number(data, 8, 4), data[13]
        raw = [data[16 + 24 * one : 40 + 24 * one] for one in range(min(count, chapters.PER_PAGE))]
        records = [(one[:16], number(one, 16, 8)) for one in raw]
        names = [name for name, _ in records]
        form = chapters.page(sizes.nonce, chapter, k % chapters.PAGES, records)
        rising = all(one < other for one, other in zip(names, names[1:], strict=False))
        below = all(location < 2**32 for _, location in records)
        if data == form and rising and below and chapter % places == k // chapters.PAGES:
            found.add(chapter)
    return len(found)
