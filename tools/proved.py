#!/usr/bin/env python3
"""Makes docs/PROVED.md from the public laws and contracts, and from the heads of the crates.

    python3 tools/proved.py write
    python3 tools/proved.py check    whether docs/PROVED.md is what `write` would make (status 1 where it isn't)

A law is a public function with an empty body: it stands there with its comment, its file and the names of its clauses.
Of the calls in TOP_CALLS the clauses stand there with their comments, and the definitions of the same crate on which
they rest, each with the comment above it. Of the crates of guards each function stands there with its comment. The head of a crate is the first paragraph of the comment in src/lib.rt or
src/main.rt; its paragraphs that begin with one of the words in REMARKS say what is only tested or missing.
"""

from __future__ import annotations

import argparse
import re
import sys
import textwrap
from collections.abc import Iterator
from dataclasses import dataclass
from pathlib import Path

from crates import listed

TOP = Path(__file__).resolve().parent.parent
DOCUMENT = TOP / "docs/PROVED.md"
WIDTH = 120
REMARKS = ("Only tested:", "Not there:", "No rows yet:")

# The calls that whoever uses the program rests on.
TOP_CALLS = {
    "image_format": ("format",),
    "audit": ("audit",),
    "rebuild": ("recover", "open_clean"),
    "image_status": ("read_status",),
    "vdo_cli": ("run", "run_script", "format", "recover_device", "audit_device", "status_of_device"),
}

HEAD = """\
# What is proved, crate by crate

Made by `tools/proved.py` from the laws, the contracts and the heads of the crates. Every function is safe, and returns;
but the checker says that `run`, the `main` that calls it, `drive`, and what stands between them may wait. What a
function does is said by its contract, where it stands. Here are the laws, the clauses of the calls that the program
rests on, and what isn't proved of a crate. A law is a public function without a body: in brackets are its file and the
names of its clauses. *Rows* are files of small cases that a definition accepts or refuses, each of them proved.
"""

FUNCTION = re.compile(r"^(?:pub )?fn (\w+)")
CLAUSE = re.compile(r"^\s+(requires|ensures)(?: (\w+))? \{")
DEFINITION = re.compile(r"^(?:unfoldable |abbrev )*pub (?:unfoldable )?(?:record |data )?(\w+)\b")
FIELD = re.compile(r"^  pub (\w+) :")
NAME = re.compile(r"(?<![\w.])[A-Z]\w+")
# Names of the standard library in clauses, of which nothing is to be said.
STANDARD = {"Ok", "Err", "Some", "None", "IfOk", "IfErr", "OnOk", "OnErr", "IfSome", "IsTrue"}


@dataclass(frozen=True)
class Clause:
    kind: str
    name: str
    comment: str
    text: str


@dataclass(frozen=True)
class Function:
    name: str
    file: str
    public: bool
    comment: str
    clauses: tuple[Clause, ...]
    is_law: bool


@dataclass(frozen=True)
class Definition:
    name: str
    file: str
    comment: str
    fields: tuple[tuple[str, str], ...]
    text: str


def read(path: Path) -> list[str]:
    return path.read_text(encoding="utf-8").split("\n")


def paragraphs(lines: list[str]) -> list[str]:
    """The paragraphs of a comment, each in one line, without tables."""
    found: list[list[str]] = [[]]
    for line in lines:
        if not line.strip() or line.lstrip().startswith("|"):
            found.append([])
        else:
            found[-1].append(line.strip())
    return [" ".join(words) for words in found if words]


def comment_above(lines: list[str], at: int, mark: str) -> list[str]:
    """The lines of the comment that ends above this line and its attributes, without their marks."""
    end = at
    while end > 0 and lines[end - 1].lstrip().startswith("#["):
        end -= 1
    start = end
    while start > 0 and lines[start - 1].lstrip().startswith(mark):
        start -= 1
    return [line.lstrip().removeprefix(mark).strip() for line in lines[start:end]]


def head_of(crate: str) -> list[str]:
    """The paragraphs of the comment at the head of a crate."""
    roots = (TOP / "crates" / crate / "src" / root for root in ("lib.rt", "main.rt"))
    lines = read(next(path for path in roots if path.exists()))
    return paragraphs([line.removeprefix("//!").strip() for line in lines if line.startswith("//!")])


def clauses_of(lines: list[str]) -> Iterator[Clause]:
    """The clauses of a contract, each with the comment above it."""
    for at, line in enumerate(lines):
        if (match := CLAUSE.match(line)) is None:
            continue
        end = at + 1
        while end < len(lines) and CLAUSE.match(lines[end]) is None:
            end += 1
        comment = " ".join(comment_above(lines, at, "//"))
        text = "\n".join(own for own in lines[at:end] if not own.lstrip().startswith("//"))
        yield Clause(match[1], match[2] or "", comment, text)


def functions_of(crate: str) -> Iterator[Function]:
    """The functions of a crate that stand by themselves, in the order of its files."""
    folder = TOP / "crates" / crate
    for path in sorted(folder.glob("src/**/*.rt")):
        lines = read(path)
        for at, line in enumerate(lines):
            if (match := FUNCTION.match(line)) is None:
                continue
            end = next((n for n in range(at, len(lines)) if lines[n] in ("{", "{}")), len(lines) - 1)
            mark = "///" if line.startswith("pub ") else "//"
            comment = paragraphs(comment_above(lines, at, mark))
            kept = " ".join(comment) if lines[end] == "{}" else (comment or [""])[0]
            yield Function(
                match[1],
                str(path.relative_to(folder)),
                line.startswith("pub "),
                kept,
                tuple(clauses_of(lines[at:end])),
                lines[end] == "{}",
            )


def fields_of(lines: list[str]) -> Iterator[tuple[str, str]]:
    for at, line in enumerate(lines):
        if match := FIELD.match(line):
            yield match[1], " ".join(comment_above(lines, at, "--"))


def definitions_of(crate: str) -> dict[str, Definition]:
    """The public definitions of a crate by their names."""
    folder = TOP / "crates" / crate / "specs"
    found: dict[str, Definition] = {}
    for path in sorted(folder.glob("*.antt")):
        lines = read(path)
        starts = [at for at, line in enumerate(lines) if DEFINITION.match(line)]
        for at, end in zip(starts, [*starts[1:], len(lines)], strict=True):
            name = DEFINITION.match(lines[at])[1]  # type: ignore[index]
            comment = " ".join(comment_above(lines, at, "--"))
            own = lines[at:end]
            found.setdefault(name, Definition(name, path.stem, comment, tuple(fields_of(own)), "\n".join(own)))
    return found


def resting_on(text: str, known: dict[str, Definition]) -> list[Definition]:
    """The definitions that a text uses, and those that they use, the nearest first."""
    names = list(dict.fromkeys(name for name in NAME.findall(text) if name in known))
    for name in names:
        names += [used for used in dict.fromkeys(NAME.findall(known[name].text)) if used in known and used not in names]
    return [known[name] for name in names]


def wrapped(text: str, indent: str = "") -> str:
    return textwrap.fill(
        text,
        WIDTH,
        initial_indent=f"{indent}- ",
        subsequent_indent=f"{indent}  ",
        break_on_hyphens=False,
        break_long_words=False,
    )


def of_law(law: Function) -> str:
    names = ", ".join(f"`{clause.name}`" for clause in law.clauses if clause.kind == "ensures" and clause.name)
    place = f"`{law.file}`: {names}" if names else f"`{law.file}`"
    return wrapped(f"**`{law.name}`** ({place}) {law.comment.removesuffix(' It does nothing.')}")


def of_clause(clause: Clause) -> str:
    used = [f"`{name}`" for name in dict.fromkeys(NAME.findall(clause.text)) if name not in STANDARD]
    condition = "needed: " if clause.kind == "requires" else ""
    name = f"`{clause.name}`" if clause.name else "the clause"
    rest = f": {', '.join(used)}" if used else ""
    return wrapped(f"{condition}{name}{rest}{'. ' + clause.comment if clause.comment else ''}", "  ")


def sentence(text: str) -> str:
    return text if not text or text[-1] in ".:;" else f"{text}."


def of_definition(definition: Definition) -> str:
    fields = [f"`{name}`" + (f" ({comment})" if comment else "") for name, comment in definition.fields]
    parts = f" Parts: {', '.join(fields)}." if fields else ""
    return wrapped(f"`{definition.name}` (`specs/{definition.file}`) {sentence(definition.comment)}{parts}")


def of_calls(calls: list[Function], known: dict[str, Definition]) -> Iterator[str]:
    """The top calls of a crate, and then the definitions on which their clauses rest, each once."""
    for call in calls:
        yield wrapped(f"**`{call.name}`** (`{call.file}`) {call.comment}")
        yield from (of_clause(clause) for clause in call.clauses)
    text = "\n".join(clause.text for call in calls for clause in call.clauses)
    if found := resting_on(text, known):
        yield "\nThey rest on these definitions:\n"
        yield from (of_definition(definition) for definition in found)
        yield ""


def rows_of(crate: str) -> list[str]:
    """The files of rows of a crate."""
    folder = TOP / "crates" / crate
    found = [path for end in ("Rows", "Pins") for path in folder.glob(f"proofs/**/*{end}.antt")]
    return sorted(str(path.relative_to(folder).with_suffix("")) for path in found)


def of_guard(guard: Function) -> str:
    return wrapped(f"`{guard.name}` (`{guard.file}`) {guard.comment}")


def section(crate: str, heading: str) -> str:
    head = head_of(crate)
    functions = list(functions_of(crate))
    known = definitions_of(crate)
    order = TOP_CALLS.get(crate, ())
    calls = [function for name in order for function in functions if function.name == name]
    parts = [f"\n### `{crate}`\n", textwrap.fill(head[0], WIDTH, break_on_hyphens=False), ""]
    parts += [of_law(function) for function in functions if function.is_law and function.public]
    parts += of_calls(calls, known)
    if heading == "Guards":
        parts += [of_guard(function) for function in functions]
    if rows := rows_of(crate):
        parts.append(wrapped(f"*Rows:* {', '.join(f'`{row}`' for row in rows)}."))
    for remark in (paragraph for paragraph in head[1:] if paragraph.startswith(REMARKS)):
        word, rest = remark.split(":", 1)
        parts.append(wrapped(f"*{word}:*{rest}"))
    return "\n".join(parts).rstrip("\n") + "\n"


def document() -> str:
    parts = [HEAD]
    heading = ""
    for crate in listed():
        if crate.heading == "Tests":
            continue
        if crate.heading != heading:
            heading = crate.heading
            parts.append(f"\n## {heading}\n")
        parts.append(section(crate.name, heading))
    return "".join(parts)


def main() -> int:
    parser = argparse.ArgumentParser(description=__doc__, formatter_class=argparse.RawDescriptionHelpFormatter)
    parser.add_argument("command", choices=("write", "check"))
    command = parser.parse_args().command
    text = document()
    if command == "write":
        DOCUMENT.write_text(text, encoding="utf-8")
        return 0
    if not DOCUMENT.exists() or DOCUMENT.read_text(encoding="utf-8") != text:
        print("docs/PROVED.md isn't current: python3 tools/proved.py write")
        return 1
    print("docs/PROVED.md is current")
    return 0


if __name__ == "__main__":
    sys.exit(main())
