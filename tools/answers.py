#!/usr/bin/env python3
"""The largest script, and what a run prints of it but for places and the space.

    python3 tools/answers.py script
    python3 tools/answers.py lines

Each of 16 streams writes its own address once, and then reads, discards and flushes in turn: it reads its own address and others,
that were never written, and those that it discards are too large.
"""

from __future__ import annotations

import argparse
import sys

STREAMS = 16
REQUESTS = 65536
LOGICAL = 1000
BLOCK = 4096


def pair(stream: int, number: int) -> tuple[str, str]:
    """What a request of a stream asks for, and its answer."""
    own = f"{BLOCK}*{stream + 1:02x}"
    if number == 0:
        return f"write {stream} {own}", f"write {stream} ok"
    address = (number * STREAMS + stream) % (LOGICAL - STREAMS) + STREAMS
    asked = (f"read {stream}", f"read {address}", f"discard {LOGICAL + number} 1", "flush")[number % 4]
    answer = (f"{asked} {own}", f"{asked} {BLOCK}*00", f"discard {LOGICAL + number} range", "flush ok")[number % 4]
    return asked, answer


def script() -> str:
    """The requests of all streams in turn."""
    return "".join(f"{k % STREAMS} {pair(k % STREAMS, k // STREAMS)[0]}\n" for k in range(REQUESTS))


def lines() -> str:
    """The lines, stream after stream."""
    named = ((stream, number) for stream in range(STREAMS) for number in range(REQUESTS // STREAMS))
    return "".join(f"{stream} {number} {pair(stream, number)[1]}\n" for stream, number in named)


def main() -> int:
    parser = argparse.ArgumentParser(description=__doc__, formatter_class=argparse.RawDescriptionHelpFormatter)
    parser.add_argument("text", choices=("script", "lines"))
    sys.stdout.write(script() if parser.parse_args().text == "script" else lines())
    return 0


if __name__ == "__main__":
    sys.exit(main())
