#!/usr/bin/env python3
"""Prints the vectors that the tests compare with, or looks each of them up in the tests and the cases (README.md)."""

from __future__ import annotations

import argparse
import sys
from collections.abc import Iterator
from functools import cache
from pathlib import Path

import case_images
import chapters
import journal
import layout
import map_page
import names
import picks
import slab
import sparse
import superblock
from cases import sections
from rust_source import literals
from vector import Steps, Vector, numbers

TOP = Path(__file__).resolve().parent.parent
CRATES = TOP / "crates"


def vectors() -> Iterator[Vector | Steps]:
    for module in (layout, superblock, journal, map_page, slab, names, picks, chapters, sparse, case_images):
        yield from module.vectors()


@cache
def commands(file: str) -> list[tuple[tuple[str, str, int], ...]]:
    """The commands of each section of a file of cases."""
    found = (section.cases for section in sections(TOP / "cases" / file))
    return [tuple((case.command, case.text, case.status) for case in cases) for cases in found]


def is_found(vector: Vector | Steps) -> bool:
    """Whether the vector's literals stand one after the other in its item, or its commands in a section."""
    if isinstance(vector, Steps):
        count = len(vector.commands)
        return any(vector.commands == found[at : at + count] for found in commands(vector.file) for at in range(len(found)))
    wanted = numbers(vector.literals)
    found = numbers(literals((CRATES / vector.file).read_text(), vector.item))
    starts = range(len(found) - len(wanted) + 1)
    return any(found[start : start + len(wanted)] == wanted for start in starts)


def print_all() -> int:
    for vector in vectors():
        print(vector)
    return 0


def check() -> int:
    computed = list(vectors())
    missing = [vector for vector in computed if not is_found(vector)]
    for vector in missing:
        print(f"not found: {vector}")
    print(f"{len(computed) - len(missing)} found, {len(missing)} not found")
    return 1 if missing else 0


def main() -> int:
    parser = argparse.ArgumentParser(description=__doc__)
    parser.add_argument("command", choices=("print", "check"))
    arguments = parser.parse_args()
    return print_all() if arguments.command == "print" else check()


if __name__ == "__main__":
    sys.exit(main())
