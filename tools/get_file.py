#!/usr/bin/env python3
"""Gets so many bytes from an image, from an address on, and writes them to standard output.

    python3 tools/get_file.py ADDRESS BYTES ./vdo IMAGE BLOCKS run > FILE

COMMAND serves a script on standard input. It is called for 4,096 blocks at once, and these are written when it has ended. Without
a command the script is printed.
"""

from __future__ import annotations

import argparse
import sys
from collections.abc import Iterator, Sequence

from file_scripts import ADDRESSES, MOST_BLOCKS, Stopped, get, number_from, script_of_reads
from vector import BLOCK_BYTES


def bytes_at(addresses: Sequence[int], command: Sequence[str]) -> Iterator[bytes]:
    """What these addresses hold, run by run."""
    for start in range(0, len(addresses), MOST_BLOCKS):
        yield b"".join(get(addresses[start : start + MOST_BLOCKS], command).values())


def main() -> int:
    parser = argparse.ArgumentParser(description=__doc__, formatter_class=argparse.RawDescriptionHelpFormatter)
    parser.add_argument("address", type=number_from(0, ADDRESSES - 1))
    parser.add_argument("bytes", type=number_from(0, ADDRESSES * BLOCK_BYTES))
    parser.add_argument("command", nargs=argparse.REMAINDER)
    given = parser.parse_args()
    addresses = range(given.address, given.address + -(-given.bytes // BLOCK_BYTES))
    if not given.command:
        sys.stdout.writelines(script_of_reads(addresses))
        return 0
    left = given.bytes
    try:
        for held in bytes_at(addresses, given.command):
            left -= sys.stdout.buffer.write(held[:left])
    except (Stopped, OSError) as why:
        print(f"{given.bytes - left} of {given.bytes} bytes; then {why}", file=sys.stderr)
        return 1
    return 0


if __name__ == "__main__":
    sys.exit(main())
