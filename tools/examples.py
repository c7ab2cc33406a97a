#!/usr/bin/env python3
"""Runs the examples of README.md and docs/vdo.1, and compares what they print byte for byte.

    python3 tools/examples.py PROGRAM

An example is a line that begins with `$ `, in a fenced block of README.md or between `.EX` and `.EE` of the manual page; the
lines below it, up to the next such line or the block's end, are what it prints. The examples of a document run in order, each
in a shell of its own, in a new folder in which `vdo` is PROGRAM and `tools` is this folder. `$?` is the status of the example
before. What goes to standard error isn't compared. A line for each document says how many passed; the status is 1 where one
differs.
"""

from __future__ import annotations

import argparse
import os
import sys
import tempfile
from collections.abc import Iterator
from pathlib import Path

from transcripts import TOP, Example, Folder, Numbered, differences, examples


def fenced(lines: Numbered) -> Iterator[list[tuple[int, str]]]:
    """The fenced blocks of a Markdown text."""
    block: list[tuple[int, str]] | None = None
    for number, line in lines:
        if line.startswith("```"):
            if block is not None:
                yield block
            block = [] if block is None else None
        elif block is not None:
            block.append((number, line))


def printed(line: str) -> str:
    """A line of a manual page as it is printed."""
    for escape, character in (("\\&", ""), ("\\-", "-"), ("\\(aq", "'"), ("\\(dq", '"'), ("\\e", "\\")):
        line = line.replace(escape, character)
    return line


def displayed(lines: Numbered) -> Iterator[list[tuple[int, str]]]:
    """The displays of a manual page."""
    block: list[tuple[int, str]] | None = None
    for number, line in lines:
        if line == ".EX":
            block = []
        elif line == ".EE" and block is not None:
            yield block
            block = None
        elif block is not None:
            block.append((number, printed(line)))


DOCUMENTS = {"README.md": fenced, "docs/vdo.1": displayed}


def examples_of(document: str) -> Iterator[Example]:
    lines = (TOP / document).read_text(encoding="utf-8").split("\n")
    for block in DOCUMENTS[document](enumerate(lines, 1)):
        yield from examples(block)


def try_document(document: str, program: Path) -> tuple[int, int]:
    """How many examples of a document passed, and how many differ."""
    passed = failed = 0
    with tempfile.TemporaryDirectory(prefix="vdo-examples-") as name:
        folder = Folder(name, program, "tools")
        for example in examples_of(document):
            wanted = example.text().encode()
            found, errors = folder.run(example.command)
            if found == wanted:
                passed += 1
                continue
            failed += 1
            print(f"{document}:{example.line}: {example.command}")
            print(differences(wanted, found, errors), end="")
    return passed, failed


def main() -> int:
    parser = argparse.ArgumentParser(description=__doc__, formatter_class=argparse.RawDescriptionHelpFormatter)
    parser.add_argument("program", type=Path)
    program = parser.parse_args().program.absolute()
    if not os.access(program, os.X_OK):
        parser.error(f"no program: {program}")
    is_right = True
    for document in DOCUMENTS:
        passed, failed = try_document(document, program)
        print(f"{document}: {passed} examples passed, {failed} failed")
        # A document in which no example is found is wrong too.
        is_right = is_right and passed > 0 and failed == 0
    return 0 if is_right else 1


if __name__ == "__main__":
    sys.exit(main())
