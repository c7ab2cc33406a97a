#!/usr/bin/env python3
"""Makes docs/CRATES.md from crates.txt and the first lines of each crate.

    python3 tools/crates.py write
    python3 tools/crates.py check    whether docs/CRATES.md is what `write` would make (status 1 where it isn't)
    python3 tools/crates.py count    the numbers that the first page tells: crates, lines, guards and edits

Of each crate it takes the first paragraph of the comment at the head of src/lib.rt or src/main.rt, and the crates and libraries of
the kit on which crates.txt lets it stand, but for those on which another one of these crates stands.
"""

from __future__ import annotations

import argparse
import re
import sys
import textwrap
from collections.abc import Iterable
from dataclasses import dataclass
from pathlib import Path

TOP = Path(__file__).resolve().parent.parent
DOCUMENT = TOP / "docs/CRATES.md"
WIDTH = 120
GUARD = re.compile(r"^fn ", re.MULTILINE)

HEAD = """\
# The crates

Made by `tools/crates.py` from `crates.txt` and the head of each crate. Lowest first under each heading. *On* names the
crates on which a crate stands, but for those that stand below these; the libraries of the kit come last.
"""


@dataclass(frozen=True)
class Crate:
    name: str
    heading: str
    libraries: tuple[str, ...]


def listed() -> list[Crate]:
    """The crates of crates.txt, in its order."""
    found = []
    heading = ""
    for line in (TOP / "crates.txt").read_text(encoding="utf-8").split("\n"):
        if line.startswith("#"):
            heading = line.lstrip("# ")
        elif ":" in line:
            name, libraries = line.split(":", 1)
            found.append(Crate(name.split()[0], heading, tuple(libraries.split())))
    return found


def opening(name: str) -> str:
    """The first paragraph of the comment at the head of a crate."""
    roots = (TOP / "crates" / name / "src" / root for root in ("lib.rt", "main.rt"))
    root = next(path for path in roots if path.exists())
    words: list[str] = []
    for line in root.read_text(encoding="utf-8").split("\n"):
        if not line.startswith("//!") or line == "//!":
            break
        words += line.removeprefix("//!").split()
    return " ".join(words)


def directly(crate: Crate, below: dict[str, set[str]]) -> list[str]:
    """The crates and libraries on which it stands and none of these crates does, the crates first."""
    covered = set().union(*(below.get(name, set()) for name in crate.libraries))
    own = [name for name in crate.libraries if name not in covered]
    return sorted(own, key=lambda name: name not in below)


def entry(crate: Crate, below: dict[str, set[str]]) -> str:
    names = [f"`{name}`" for name in directly(crate, below)]
    on = f" *On* {', '.join(names)}." if names else ""
    text = f"**`{crate.name}`** {opening(crate.name)}{on}"
    return textwrap.fill(text, WIDTH, initial_indent="- ", subsequent_indent="  ", break_on_hyphens=False)


def document() -> str:
    crates = listed()
    below: dict[str, set[str]] = {}
    # crates.txt has each crate behind those on which it stands.
    for crate in crates:
        libraries = set(crate.libraries)
        below[crate.name] = libraries.union(*(below.get(name, set()) for name in libraries))
    parts = [HEAD]
    heading = ""
    for crate in crates:
        if crate.heading != heading:
            heading = crate.heading
            parts.append(f"\n## {heading}\n\n")
        parts.append(entry(crate, below) + "\n")
    return "".join(parts)


def lines_of(paths: Iterable[Path]) -> int:
    return sum(len(path.read_text(encoding="utf-8").splitlines()) for path in paths)


def counts() -> str:
    """How many crates there are, their lines of code, of tests, of definitions and proofs, the guards, and the edits."""
    code = tests = proofs = guards = edits = 0
    for crate in listed():
        folder = TOP / "crates" / crate.name
        lines = lines_of(folder.glob("src/**/*.rt"))
        if crate.heading == "Tests":
            tests += lines
        elif crate.heading == "Guards":
            guards += sum(len(GUARD.findall(path.read_text(encoding="utf-8"))) for path in folder.glob("src/**/*.rt"))
        else:
            code += lines
        proofs += lines_of(folder.glob("specs/**/*.antt")) + lines_of(folder.glob("proofs/**/*.antt"))
        edits += len(list(folder.glob("must-fail/*.edit")))
    return (
        f"{len(listed())} crates, {code} lines of code, {tests} of tests, "
        f"{proofs} of definitions and proofs, {guards} guards, {edits} edits"
    )


def main() -> int:
    parser = argparse.ArgumentParser(description=__doc__, formatter_class=argparse.RawDescriptionHelpFormatter)
    parser.add_argument("command", choices=("write", "check", "count"))
    command = parser.parse_args().command
    if command == "count":
        print(counts())
        return 0
    text = document()
    if command == "write":
        DOCUMENT.write_text(text, encoding="utf-8")
        return 0
    if not DOCUMENT.exists() or DOCUMENT.read_text(encoding="utf-8") != text:
        print("docs/CRATES.md isn't current: python3 tools/crates.py write")
        return 1
    print(f"docs/CRATES.md is current: {len(listed())} crates")
    return 0


if __name__ == "__main__":
    sys.exit(main())
