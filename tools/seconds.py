#!/usr/bin/env python3
"""Lists the functions of a crate by the seconds that each takes to prove.

    python3 tools/seconds.py CRATE ..             the ten dearest of each crate, and its sum
    python3 tools/seconds.py --over 6 CRATE ..    those over six seconds, and whether a comment at the function says why

A crate is checked from nothing, over the libraries below it, which `rt lib` builds first where they aren't yet. Seconds are those of a
processor between the ends of two functions, as the check tells them (`--progress`); the first one, which has the start in it, isn't
listed. What is listed by `--over` has a comment line with the words "to prove" above the function, or above the type of which it is
derived, or `no comment` stands behind it; the status is 1 then. How a value of another crate is let go is proved too, and has no place
for one.
"""

from __future__ import annotations

import argparse
import os
import re
import subprocess
import sys
from dataclasses import dataclass
from pathlib import Path

from crates import TOP, listed

ENDED = re.compile(r"checked (?P<name>.+), \d+ of \d+")
DERIVED = re.compile(r"(?P<type>\w+?)(Debug|Display|PartialEq|Ord|PartialOrd|Clone|Default)")
TICKS = os.sysconf("SC_CLK_TCK")


@dataclass(frozen=True)
class Proved:
    """A function, and the seconds that it took."""

    name: str
    seconds: float


def kit() -> Path:
    """The folder of the kit: its first page stands there."""
    page = subprocess.run(["rt", "doc"], check=True, capture_output=True, text=True).stdout.strip()
    return Path(page).parent


def processor_seconds(pid: int) -> float:
    """What a process has taken of the processors."""
    fields = Path(f"/proc/{pid}/stat").read_text(encoding="utf-8").rpartition(")")[2].split()
    return (int(fields[11]) + int(fields[12])) / TICKS


def below(name: str, libraries: dict[str, tuple[str, ...]]) -> list[str]:
    """The crates of the repository below one, lowest first."""
    found: list[str] = []
    for library in libraries[name]:
        if library in libraries:
            found += [it for it in [*below(library, libraries), library] if it not in found]
    return found


def check_words(name: str, libraries: dict[str, tuple[str, ...]]) -> list[str]:
    """The call that checks a crate from nothing, in its folder."""
    at = kit()
    root = "src/lib.rt" if (TOP / "crates" / name / "src/lib.rt").exists() else "src/main.rt"
    words = [str(at / "bin/rattle"), "check", "--crate-name", name, root, "--extern", f"std={at}/rlibs/std.rlib"]
    for library in libraries[name]:
        own = TOP / "crates" / library / f"out/rlib/{library}.rlib"
        words += ["--extern", f"{library}={own if library in libraries else at / f'rlibs/{library}.rlib'}"]
    words += ["-L", f"dependency={at}/rlibs"]
    for library in below(name, libraries):
        words += ["-L", f"dependency={TOP}/crates/{library}/out/rlib"]
    words += ["--antt-project", f"{at}/rattle/logic/antt-project.json", "--logic-built", f"{at}/logic_built"]
    return [*words, "--jobs", "1", "--progress"]


def proved(name: str, libraries: dict[str, tuple[str, ...]]) -> list[Proved]:
    """Each function of the crate with its seconds, in the order in which the check ends with them."""
    folder = TOP / "crates" / name
    for library in below(name, libraries):
        subprocess.run(["rt", "lib"], cwd=TOP / "crates" / library, check=True, stdout=subprocess.DEVNULL)
    found: list[Proved] = []
    words = check_words(name, libraries)
    with subprocess.Popen(words, cwd=folder, stdout=subprocess.PIPE, stderr=subprocess.STDOUT, text=True) as check:
        assert check.stdout is not None
        before = 0.0
        for line in check.stdout:
            if ended := ENDED.match(line):
                now = processor_seconds(check.pid)
                found.append(Proved(ended["name"], now - before))
                before = now
    if check.returncode != 0:
        sys.exit(f"{name} isn't proved")
    return found


def defines(name: str) -> re.Pattern[str]:
    """The line that defines a function, or the type of which it is derived."""
    *places, last = name.split("::")
    derived = DERIVED.fullmatch(last) or DERIVED.fullmatch(places[-1] if places else "")
    if derived and derived["type"]:
        return re.compile(rf"\b(struct|enum|Display for) {re.escape(derived['type'])}\b")
    if places and (let_go := re.search(r"(\w+)\+Destruct$", places[-1])):
        return re.compile(rf"\b(struct|enum) {let_go[1]}\b")
    return re.compile(rf"\bfn {re.escape(last)}\b")


def says_why(crate: str, name: str) -> bool | None:
    """Whether a comment above the function says why it is slow to prove; none where nothing in the crate defines it."""
    definition = defines(name)
    found = None
    for path in sorted((TOP / "crates" / crate / "src").rglob("*.rt")):
        lines = path.read_text(encoding="utf-8").split("\n")
        for number, line in enumerate(lines):
            if definition.search(line):
                above = number
                while above > 0 and lines[above - 1].lstrip().startswith(("//", "#[")):
                    above -= 1
                found = found or any("to prove" in it for it in lines[above:number])
    return found


def main() -> int:
    reader = argparse.ArgumentParser(description=__doc__, formatter_class=argparse.RawDescriptionHelpFormatter)
    reader.add_argument("--over", type=float, metavar="SECONDS")
    reader.add_argument("crates", nargs="+", metavar="CRATE")
    words = reader.parse_args()
    libraries = {it.name: it.libraries for it in listed()}
    lacking = 0
    for crate in words.crates:
        functions = proved(crate, libraries)
        print(f"{crate}: {len(functions)} functions, {sum(it.seconds for it in functions):.0f} s")
        dearest = sorted(functions[1:], key=lambda it: -it.seconds)
        shown = dearest[:10] if words.over is None else [it for it in dearest if it.seconds > words.over]
        for it in shown:
            lacks = words.over is not None and says_why(crate, it.name) is False
            lacking += lacks
            print(f"  {it.seconds:5.1f} {it.name}{'  no comment' if lacks else ''}")
    return 1 if lacking else 0


if __name__ == "__main__":
    sys.exit(main())
