#!/usr/bin/env python3
"""Lists every line that speaks of a phase, a rule, a happening, an item, or another name of the code: what a new one needs too.

    python3 tools/where.py AbortClaim            a variant, a constructor, a function, a type or a definition
    python3 tools/where.py Happening.Takes       of this type, where several have the name
    python3 tools/where.py --count Phase.Store   how many lines each crate has, and no line

A name is followed by what the files import: in Rust `Phase::Store`, in definitions and proofs `phase.Store` where `phase`
stands for the variants of `Phase`, a name by itself where the file imports or declares it, and the names that the checker
makes of a variant (`in-Store`).
"""

from __future__ import annotations

import argparse
import re
import signal
import sys
from collections import Counter
from collections.abc import Iterator
from dataclasses import dataclass
from functools import cached_property
from pathlib import Path

TOP = Path(__file__).resolve().parent.parent
# The kinds of lines, with their headings.
KINDS = {
    "definition": "Definitions",
    "code": "Code",
    "law": "Laws",
    "row": "Rows",
    "proof": "Other proofs",
    "test": "Tests",
    "edit": "Edits",
}

TYPE = re.compile(r"^\s*pub(?:\(crate\))? (?:enum|data) (\w+)")
VARIANT = re.compile(r"^\s+(\w+)\s*(?:[:,({]|$)")
PLAIN = re.compile(
    r"^\s*(?:unfoldable |abbrev )*(?:pub(?:\(crate\))? )?(?:unfoldable )?(?:const fn |fn |struct |record |const |type )?([\w-]+)"
)
IMPORT = re.compile(r"^\s*(?:pub )?(?:ghost )?use ([\w.:]+?)(?:(?:\.|::)\{([^}]*)\}| as (\w+))?;?\s*$")


@dataclass(frozen=True)
class Declared:
    """Where a name is declared; the owner of a variant or constructor is its type."""

    file: str
    line: int
    name: str
    owner: str | None

    def full(self) -> str:
        return self.name if self.owner is None else f"{self.owner}.{self.name}"


class File:
    def __init__(self, path: Path) -> None:
        self.path = path
        self.name = str(path.relative_to(TOP))
        self.crate = path.relative_to(TOP / "crates").parts[0]
        self.lines = path.read_text(encoding="utf-8").split("\n")

    @cached_property
    def kind(self) -> str:
        parts = self.path.relative_to(TOP / "crates" / self.crate).parts
        if self.path.suffix == ".edit":
            return "edit"
        if self.crate.endswith("_tests"):
            return "test"
        if parts[0] == "specs":
            return "definition"
        if parts[0] == "src":
            return "code"
        if "rows" in parts or self.path.stem.endswith(("Rows", "Pins")):
            return "row"
        return "law" if self.path.stem.endswith(("Laws", "Facts")) else "proof"

    @cached_property
    def imports(self) -> list[tuple[str, str, str]]:
        """Path, name and name here of each import; of a module the name is empty."""
        found = []
        for line in self.lines:
            match = IMPORT.match(line)
            if match is None:
                continue
            path, names, alias = match.groups()
            if names is None:
                found.append((path, "", alias or re.split(r"\.|::", path)[-1]))
                continue
            for one in names.split(","):
                name, _, here = one.strip().partition(" as ")
                found.append((path, name, here or name))
        return found

    def declares(self) -> Iterator[Declared]:
        owner = None
        for number, line in enumerate(self.lines, 1):
            start = TYPE.match(line)
            if start:
                owner = start.group(1)
                yield Declared(self.name, number, owner, None)
                continue
            if owner is not None and (line.startswith("}") or (line and not line[0].isspace())):
                owner = None
            if owner is not None:
                match = VARIANT.match(line)
                if match:
                    yield Declared(self.name, number, match.group(1), owner)
                continue
            if line.lstrip().startswith(("use ", "pub use ", "ghost ", "//", "--", "mod ", "pub mod ")):
                continue
            is_declaration = re.match(r"^\s*(?:unfoldable |abbrev )*(?:pub(?:\(crate\))? )?(?:const )?(?:fn|struct|record|type|const) ", line)
            if is_declaration or re.match(r"^(?:unfoldable |abbrev )*(?:pub )?[\w-]+ :", line):
                match = PLAIN.match(line)
                if match:
                    yield Declared(self.name, number, match.group(1), None)


def files() -> list[File]:
    found = []
    for path in sorted((TOP / "crates").rglob("*")):
        if path.suffix in (".rt", ".antt", ".edit") and "out" not in path.parts:
            found.append(File(path))
    return found


class Search:
    def __init__(self, wanted: Declared) -> None:
        self.name = wanted.name
        self.owner = wanted.owner
        self.home = wanted.file
        self.parts = {part for part in (wanted.owner, Path(wanted.file).stem) if part}
        self.word = re.compile(rf"(?:(\w+)(?:\.|::))?(?<![\w-])(in-)?{re.escape(wanted.name)}(?![\w-])")

    def leads_here(self, path: str) -> bool:
        return not self.parts.isdisjoint(re.split(r"\.|::", path))

    def lines(self, file: File) -> Iterator[tuple[int, str]]:
        qualifiers = {here for path, name, here in file.imports if not name and self.leads_here(path)}
        qualifiers |= {here for _, name, here in file.imports if name == self.owner}
        qualifiers |= {self.owner} if self.owner else {Path(self.home).stem}
        # A module may hand on what it imports; `Common` does.
        is_bare = file.name == self.home or any(
            name == self.name and (self.leads_here(path) or path.endswith("Common"))
            for path, name, _ in file.imports
        )
        for number, line in enumerate(file.lines, 1):
            for match in self.word.finditer(line):
                before, is_made = match.group(1), match.group(2)
                is_method = before is None and match.start() > 0 and line[match.start() - 1] == "."
                if before in qualifiers or (before is None and not is_method and (is_bare or is_made and self.owner)):
                    yield number, line.strip()
                    break


def shown(line: str, name: str, width: int) -> str:
    """The line, or as much of it as there is room for, with the name in it."""
    if len(line) <= width:
        return line
    start = max(0, min(line.find(name) - width // 2, len(line) - width))
    end = start + width
    return f"{'..' if start else ''}{line[start:end]}{'..' if end < len(line) else ''}"


def main() -> int:
    # Where what reads the lines ends, this ends too.
    signal.signal(signal.SIGPIPE, signal.SIG_DFL)
    parser = argparse.ArgumentParser(description=__doc__, formatter_class=argparse.RawDescriptionHelpFormatter)
    parser.add_argument("--count", action="store_true", help="how many lines each crate has")
    parser.add_argument("--width", type=int, default=160, help="of a line that is shown")
    parser.add_argument("name")
    arguments = parser.parse_args()
    owner, _, name = arguments.name.replace("::", ".").rpartition(".")
    every = files()
    declared = [one for file in every for one in file.declares() if one.name == name and owner in ("", one.owner or "")]
    homes = {one.full(): one for one in reversed(declared)}
    if not homes:
        print(f"no declaration of {arguments.name}", file=sys.stderr)
        return 1
    if len(homes) > 1:
        print(f"{arguments.name} is several; name one of", file=sys.stderr)
        for full, one in sorted(homes.items()):
            print(f"  {full}  {one.file}:{one.line}", file=sys.stderr)
        return 1
    search = Search(declared[0])
    found = [(file, list(search.lines(file))) for file in every]
    counts: Counter[tuple[str, str]] = Counter()
    for kind, heading in KINDS.items():
        here = [(file, lines) for file, lines in found if file.kind == kind and lines]
        if here and not arguments.count:
            print(heading)
        for file, lines in here:
            counts[file.crate, kind] += len(lines)
            for number, line in lines if not arguments.count else ():
                print(f"  {file.name}:{number}: {shown(line, name, arguments.width)}")
    if arguments.count:
        for (crate, kind), count in sorted(counts.items()):
            print(f"{crate} {kind} {count}")
    print(f"{sum(counts.values())} lines in {len({crate for crate, _ in counts})} crates")
    return 0


if __name__ == "__main__":
    sys.exit(main())
