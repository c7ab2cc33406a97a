"""The literals of a constant, a static or a function in a source file: numbers, and byte strings."""

from __future__ import annotations

import re
from collections.abc import Iterator

from vector import Literal

TOKEN = re.compile(
    r"""(?P<comment> //[^\n]*)
    | (?P<bytes> b"(?:[^"\\]|\\.)*")
    | (?P<text> "(?:[^"\\]|\\.)*")
    | (?P<char> b?'(?:[^'\\]|\\.)')
    | (?P<word> [A-Za-z_]\w*)
    | (?P<number> 0x[0-9a-fA-F_]+ | [0-9][0-9_]*)
    | (?P<range> \.\.=?)
    | (?P<field> \.[0-9]+)
    | (?P<mark> \S)""",
    re.VERBOSE,
)

ESCAPE = re.compile(rb"\\(?:x([0-9a-fA-F]{2})|(.))", re.DOTALL)
SIMPLE_ESCAPES = {
    b"0": b"\0",
    b"n": b"\n",
    b"r": b"\r",
    b"t": b"\t",
    b"\\": b"\\",
    b'"': b'"',
    b"'": b"'",
}

OPENING = "([{"
CLOSING = ")]}"


def unescaped(match: re.Match[bytes]) -> bytes:
    hexadecimal, simple = match.groups()
    return bytes.fromhex(hexadecimal.decode()) if hexadecimal else SIMPLE_ESCAPES[simple]


def tokens(source: str) -> Iterator[tuple[str, str]]:
    """The kind and the text of each token that isn't a comment."""
    for match in TOKEN.finditer(source):
        kind = match.lastgroup
        if kind is not None and kind != "comment":
            yield kind, match.group()


def item_tokens(source: str, item: str) -> list[tuple[str, str]]:
    """The tokens of an item's value or body; none where there is no such item."""
    head = re.search(rf"\b(const|static|fn) {item}\b", source)
    if head is None:
        return []
    first, last = ("{", "}") if head[1] == "fn" else ("=", ";")
    depth = 0
    kept: list[tuple[str, str]] = []
    for kind, text in tokens(source[head.end() :]):
        if kind == "mark" and text in CLOSING:
            depth -= 1
        if depth == 0 and text == last:
            break
        if kept or (depth == 0 and text == first):
            kept.append((kind, text))
        if kind == "mark" and text in OPENING:
            depth += 1
    return kept


def literals(source: str, item: str) -> list[Literal]:
    """The numbers and byte strings of an item, in order."""
    found: list[Literal] = []
    for kind, text in item_tokens(source, item):
        if kind == "number":
            found.append(int(text.replace("_", ""), base=0))
        elif kind == "bytes":
            found.append(ESCAPE.sub(unescaped, text[2:-1].encode()))
    return found
