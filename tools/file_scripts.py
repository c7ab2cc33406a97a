"""Blocks put onto an image, and got from it, by scripts of requests.

A script of writes has some streams, of which each writes every so many-th block. It flushes after some writes and at its end, so
that what a run that ended answered `ok` lasts. A run that answers `full` has used up its journal or its data blocks: the next
one goes on with what is left.
"""

from __future__ import annotations

import argparse
import itertools
import re
import subprocess
import tempfile
from collections.abc import Iterable, Iterator, Sequence
from dataclasses import dataclass

from vector import BLOCK_BYTES

STREAMS = 16
# A script has at most 134,217,728 bytes, and a block without two equal bytes side by side takes 20,480 of them.
MOST_BLOCKS = 4096
ADDRESSES = 2**32
ZEROS = bytes(BLOCK_BYTES)
EQUAL_BYTES = re.compile(rb"(.)\1+", re.DOTALL)
LONGER_RUN = re.compile(r"\+(\d+)\*(..)")


class Stopped(Exception):
    """Why the blocks can't be carried any further."""


@dataclass(frozen=True)
class Put:
    """How a script writes its blocks."""

    streams: int = STREAMS
    flush_every: int = 64
    run_blocks: int = MOST_BLOCKS


@dataclass(frozen=True)
class Answer:
    """A line of an answer. A flush has no address."""

    asked: str
    address: int | None
    answer: str


def blocks_of(data: bytes, address: int) -> dict[int, bytes]:
    """The blocks of a file by their addresses. The last one is filled up with zeros."""
    starts = range(0, len(data), BLOCK_BYTES)
    return {address + i: data[at : at + BLOCK_BYTES].ljust(BLOCK_BYTES, b"\0") for i, at in enumerate(starts)}


def spelled_singly(part: bytes) -> Iterator[str]:
    """Bytes of which no two side by side are equal, as runs of one byte."""
    if part:
        yield "1*" + part.hex("+").replace("+", "+1*")


def runs_of(block: bytes) -> Iterator[str]:
    """The runs of a block: those of one byte many at once."""
    behind = 0
    for run in EQUAL_BYTES.finditer(block):
        yield from spelled_singly(block[behind : run.start()])
        yield f"{len(run[0])}*{run[1].hex()}"
        behind = run.end()
    yield from spelled_singly(block[behind:])


def spelled(block: bytes) -> str:
    """A block as runs of equal bytes."""
    return "+".join(runs_of(block))


def block_of(text: str) -> bytes:
    """The block that these runs spell. Without `+1*` the runs of one byte are hexadecimal digits already."""
    digits = LONGER_RUN.sub(lambda run: int(run[1]) * run[2], f"+{text}".replace("+1*", ""))
    return bytes.fromhex(digits)


def writes_of(stream: int, blocks: Sequence[tuple[int, bytes]], flush_every: int) -> Iterator[str]:
    """A stream's writes of these blocks, and its flushes."""
    for number, (address, block) in enumerate(blocks, 1):
        yield f"{stream} write {address} {spelled(block)}\n"
        if number % flush_every == 0 or number == len(blocks):
            yield f"{stream} flush\n"


def script_of_writes(blocks: dict[int, bytes], how: Put) -> Iterator[str]:
    """The lines of a script that writes these blocks."""
    listed = list(blocks.items())
    for stream in range(how.streams):
        yield from writes_of(stream, listed[stream :: how.streams], how.flush_every)


def script_of_reads(addresses: Iterable[int]) -> Iterator[str]:
    """The lines of a script that reads these addresses."""
    return (f"0 read {address}\n" for address in addresses)


def answer_of(line: str) -> Answer | None:
    """The answer in a line of a run; the other lines begin with a word."""
    number, *words = line.split(" ")
    if not number.isdigit() or len(words) < 3:
        return None
    if words[-1].startswith("z"):
        words.pop()
    _, asked, *answer = words
    address = None if asked == "flush" else int(answer.pop(0))
    return Answer(asked, address, " ".join(answer))


def answers(command: Sequence[str], script: Iterable[str]) -> Iterator[Answer]:
    """The answers of a run that serves the whole script, which ends with status 0 or 1."""
    others = []
    with tempfile.TemporaryFile("w+", encoding="ascii") as lines:
        lines.writelines(script)
        lines.seek(0)
        with subprocess.Popen(command, stdin=lines, stdout=subprocess.PIPE, text=True) as ran:
            for line in map(str.rstrip, ran.stdout):
                if answer := answer_of(line):
                    yield answer
                else:
                    others.append(line)
    if ran.returncode not in (0, 1):
        raise Stopped("; ".join([f"the program ended with status {ran.returncode}", *others]))


def put(left: dict[int, bytes], command: Sequence[str], how: Put) -> Iterator[int]:
    """Writes these blocks by as many runs as it takes, and tells how many each of them wrote. A block goes out of `left` once it
    lasts."""
    while left:
        part = dict(itertools.islice(left.items(), how.run_blocks))
        writes = [it for it in answers(command, script_of_writes(part, how)) if it.asked == "write"]
        written = [it.address for it in writes if it.answer == "ok"]
        if not written:
            raise Stopped("; ".join(sorted({it.answer for it in writes})) or "no answer")
        for address in written:
            del left[address]
        yield len(written)


def held_of(answer: Answer) -> bytes:
    """The block that a read answered."""
    if "*" not in answer.answer:
        raise Stopped(f"address {answer.address}: {answer.answer}")
    return block_of(answer.answer)


def get(addresses: Sequence[int], command: Sequence[str]) -> dict[int, bytes]:
    """What these addresses hold, by one run: at most MOST_BLOCKS of them."""
    held = {it.address: held_of(it) for it in answers(command, script_of_reads(addresses)) if it.address is not None}
    if len(held) < len(addresses):
        raise Stopped(f"{len(held)} of {len(addresses)} addresses were answered")
    return held


def number_from(least: int, most: int):
    """A whole number between these, as an argument."""

    def read(text: str) -> int:
        number = int(text)
        if not least <= number <= most:
            raise argparse.ArgumentTypeError(f"{number} isn't {least} to {most}")
        return number

    return read
