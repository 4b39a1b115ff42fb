#!/usr/bin/env python3
"""Writes a block without transactions and without arguments, as a file of offers has it, to the standard output.

    block.py HEIGHT PREVIOUS TIME PROGRAM

HEIGHT and TIME are decimal, PREVIOUS is the id of the block before it, and PROGRAM what the next block has to satisfy, both in hex. Such
a block is valid where the program of the block before it succeeds without arguments. The layout is that of docs/FORMATS.md.
"""
import pathlib
import sys

sys.dont_write_bytecode = True
sys.path.insert(0, str(pathlib.Path(__file__).resolve().parent.parent / "tools" / "reference"))

from records import frame, header  # noqa: E402


def main(words):
    if len(words) != 4:
        sys.exit(__doc__)
    height, previous, time, program = words
    sys.stdout.buffer.write(frame(header(int(height), bytes.fromhex(previous), int(time), bytes.fromhex(program))))


if __name__ == "__main__":
    main(sys.argv[1:])
