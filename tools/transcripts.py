"""Commands of a shell with what they print: how they stand in a text, and how they are run and compared."""

from __future__ import annotations

import difflib
import os
import subprocess
from collections.abc import Iterable, Iterator
from dataclasses import dataclass, field
from pathlib import Path

TOP = Path(__file__).resolve().parent.parent
PROMPT = "$ "
CONTINUED = "> "
SECONDS = 600

Numbered = Iterable[tuple[int, str]]


@dataclass
class Example:
    """A command, the line of the text where it stands, and what it prints."""

    line: int
    command: str
    output: list[str] = field(default_factory=list)

    def text(self) -> str:
        return "".join(f"{line}\n" for line in self.output)


def examples(lines: Numbered) -> Iterator[Example]:
    """The commands of some lines: each begins with `$ `, lines with `> ` go on with it, and the others are what it prints."""
    example = None
    for number, line in lines:
        if line.startswith(PROMPT):
            if example is not None:
                yield example
            example = Example(number, line.removeprefix(PROMPT))
        elif example is not None and not example.output and line.startswith(CONTINUED):
            example.command += f"\n{line.removeprefix(CONTINUED)}"
        elif example is not None:
            example.output.append(line)
    if example is not None:
        yield example


class Folder:
    """A folder in which commands run: `vdo` is the program there, and others of this repository's folders have their names."""

    def __init__(self, folder: str, program: Path, *others: str) -> None:
        self.folder = folder
        self.status = 0
        os.symlink(program, f"{folder}/vdo")
        for other in others:
            os.symlink(TOP / other, f"{folder}/{other}")
        self.environment = {**os.environ, "PATH": f"{folder}{os.pathsep}{os.environ.get('PATH', '')}"}

    def run(self, command: str) -> tuple[bytes, bytes]:
        """What a command prints, on standard output and on standard error."""
        ran = subprocess.run(
            ["sh", "-c", f"(exit {self.status})\n{command}"],
            cwd=self.folder,
            env=self.environment,
            stdin=subprocess.DEVNULL,
            capture_output=True,
            timeout=SECONDS,
        )
        self.status = ran.returncode & 255
        return ran.stdout, ran.stderr


def differences(wanted: bytes, found: bytes, errors: bytes) -> str:
    """How two texts differ, and what went to standard error."""
    if wanted == found:
        text = ""
    elif wanted.split() == found.split():
        text = f"  wanted {wanted!r}\n  found  {found!r}\n"
    else:
        texts = (text.decode("utf-8", "backslashreplace").splitlines() for text in (wanted, found))
        lines = difflib.unified_diff(*texts, "wanted", "found", lineterm="")
        text = "".join(f"  {line}\n" for line in lines)
    if errors:
        text += f"  standard error: {errors.decode('utf-8', 'backslashreplace').strip()}\n"
    return text
