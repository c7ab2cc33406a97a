#!/usr/bin/env python3
"""Runs the program on the cases of a folder, and compares what it prints byte for byte, and its status.

    python3 tools/cases.py PROGRAM [FILE ..]

Without a FILE all files `cases/*.case` are tried. A file has sections. Each begins with a line `# ` that says what is tried, and
has commands: a line that begins with `$ `, lines with `> ` that go on with it (a text on standard input, as <<END), what it
prints on standard output, and its status as `[N]`, where that isn't 0. Empty lines count for nothing.

    # Sizes that can't be had.
    $ vdo image 154 format --height 4
    layout: size height
    [8]

The commands of a section run in order, each in a shell of its own, in a new folder of the section, in which `vdo` is PROGRAM, and
`tools` and `cases` are these folders. Sections run side by side. What goes to standard error isn't compared. A case is a command: a
line tells of each that differs, and how, and the last line how many passed; the status is 1 where one differs.
"""

from __future__ import annotations

import argparse
import os
import re
import subprocess
import sys
import tempfile
from collections.abc import Iterator
from concurrent.futures import ThreadPoolExecutor
from dataclasses import dataclass
from pathlib import Path

from transcripts import TOP, Folder, differences, examples

HEAD = "# "
STATUS = re.compile(r"\[(\d+)\]")


class BadCases(Exception):
    """A file of cases in another form."""


@dataclass(frozen=True)
class Case:
    """A command, the line of the file where it stands, what it prints, and its status."""

    line: int
    command: str
    text: str
    status: int


@dataclass(frozen=True)
class Section:
    """What is tried, and its cases."""

    file: Path
    line: int
    head: str
    cases: list[Case]

    def place(self, line: int) -> str:
        return f"{os.path.relpath(self.file)}:{line}"


def cases(lines: list[tuple[int, str]]) -> Iterator[Case]:
    for example in examples(lines):
        ending = STATUS.fullmatch(example.output[-1]) if example.output else None
        if ending:
            example.output.pop()
        yield Case(example.line, example.command, example.text(), int(ending[1]) if ending else 0)


def sections(file: Path) -> Iterator[Section]:
    """The sections of a file."""
    heads: list[tuple[int, str, list[tuple[int, str]]]] = []
    for number, line in enumerate(file.read_text(encoding="utf-8").split("\n"), 1):
        if line.startswith(HEAD):
            heads.append((number, line.removeprefix(HEAD), []))
        elif line and not heads:
            raise BadCases(f"{file}:{number}: no section has begun")
        elif line:
            heads[-1][2].append((number, line))
    for number, head, lines in heads:
        if not lines or not lines[0][1].startswith("$ "):
            raise BadCases(f"{file}:{number}: the section begins with no command")
        yield Section(file, number, head, list(cases(lines)))


def tried(section: Section, program: Path) -> tuple[int, list[str]]:
    """How many cases of a section passed, and what is told of each that differs."""
    passed, told = 0, []
    with tempfile.TemporaryDirectory(prefix="vdo-cases-") as name:
        folder = Folder(name, program, "tools", "cases")
        for case in section.cases:
            try:
                found, errors = folder.run(case.command)
            except subprocess.TimeoutExpired:
                told.append(f"{section.place(case.line)}: {section.head}\n  {case.command}\n  doesn't end\n")
                break
            wanted = case.text.encode()
            if found == wanted and folder.status == case.status:
                passed += 1
                continue
            text = f"{section.place(case.line)}: {section.head}\n  {case.command}\n"
            if folder.status != case.status:
                text += f"  status {folder.status}, not {case.status}\n"
            told.append(text + differences(wanted, found, errors))
    return passed, told


def main() -> int:
    parser = argparse.ArgumentParser(description=__doc__, formatter_class=argparse.RawDescriptionHelpFormatter)
    parser.add_argument("program", type=Path)
    parser.add_argument("files", type=Path, nargs="*")
    arguments = parser.parse_args()
    program = arguments.program.absolute()
    if not os.access(program, os.X_OK):
        parser.error(f"no program: {program}")
    files = arguments.files or sorted((TOP / "cases").glob("*.case"))
    try:
        found = [section for file in files for section in sections(file)]
    except (BadCases, OSError) as why:
        parser.error(str(why))
    passed = failed = 0
    with ThreadPoolExecutor(os.cpu_count()) as pool:
        for count, told in pool.map(lambda section: tried(section, program), found):
            print("".join(told), end="")
            passed += count
            failed += len(told)
    print(f"{passed} cases passed, {failed} failed")
    # Where no case is found something is wrong too.
    return 0 if passed and not failed else 1


if __name__ == "__main__":
    sys.exit(main())
