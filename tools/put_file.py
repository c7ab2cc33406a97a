#!/usr/bin/env python3
"""Puts a file onto an image, from an address on.

    python3 tools/put_file.py [OPTIONS] FILE ADDRESS ./vdo IMAGE BLOCKS run

COMMAND serves a script on standard input. It is called until each block of the file is written and flushed, and a line says how
many runs that took. If a run stops, the blocks of the runs before it are there; call it again then. Without a command the script
of one run is printed.

A block of the file is an address of the image. The last block is filled up with zeros.
"""

from __future__ import annotations

import argparse
import sys
from pathlib import Path

from file_scripts import ADDRESSES, MOST_BLOCKS, STREAMS, Put, Stopped, blocks_of, number_from, put, script_of_writes


def main() -> int:
    parser = argparse.ArgumentParser(description=__doc__, formatter_class=argparse.RawDescriptionHelpFormatter)
    parser.add_argument("--streams", type=number_from(1, STREAMS), default=Put.streams)
    parser.add_argument("--flush-every", type=number_from(1, MOST_BLOCKS), default=Put.flush_every, help="writes of a stream")
    parser.add_argument("--run-blocks", type=number_from(1, MOST_BLOCKS), default=Put.run_blocks, help="the most of one run")
    parser.add_argument("file", type=Path)
    parser.add_argument("address", type=number_from(0, ADDRESSES - 1))
    parser.add_argument("command", nargs=argparse.REMAINDER)
    given = parser.parse_args()
    how = Put(given.streams, given.flush_every, given.run_blocks)
    try:
        blocks = blocks_of(given.file.read_bytes(), given.address)
    except OSError as why:
        print(why, file=sys.stderr)
        return 1
    if not given.command:
        sys.stdout.writelines(script_of_writes(blocks, how))
        return 0
    left = dict(blocks)
    runs = 0
    try:
        for _ in put(left, given.command, how):
            runs += 1
    except (Stopped, OSError) as why:
        print(f"{len(blocks) - len(left)} of {len(blocks)} blocks in {runs} runs; then {why}", file=sys.stderr)
        return 1
    print(f"{len(blocks)} blocks in {runs} runs")
    return 0


if __name__ == "__main__":
    sys.exit(main())
