#!/usr/bin/env python3
"""Time and peak memory of `vm` on straight additions and on a counting loop, under a limit and under twice that limit.

The additions are a program of about two bytes for each three units of the limit; the loop is seven bytes that jump back to the
start until the limit runs out. What each run has to print is counted here, from the costs of the code table. Time and memory
are the least of three runs; those of a program of one instruction stand beside them, as what starting and ending take.

usage: bench/vm.py [LIMIT]        LIMIT is 40,000 where it is not given, and at most 48,000: a longer program is no word
"""

import os
import pathlib
import subprocess
import sys
import tempfile
import time

PROGRAM = pathlib.Path(__file__).resolve().parent.parent / "vineyore"


def item_cost(number):
    """What the item of a number from 0 on costs."""
    return 8 + (number.bit_length() + 7) // 8


def additions(limit):
    """1 and then as many times 1 ADD as the limit covers: the words, and the line."""
    left, total, pairs = limit - 1 - item_cost(1), 1, 0
    while True:
        after_push = left - 1 - item_cost(1)
        if after_push < 2:
            break
        after = after_push - 2 + item_cost(total) + item_cost(1) - item_cost(total + 1)
        if after < 0:
            break
        left, total, pairs = after, total + 1, pairs + 1
    return [str(limit), "51" + "5193" * pairs], f"succeeded left {left}"


def counting(limit):
    """1ADD, DUP and a jump back to the start where that is true, on the empty item: the words, and the line."""
    left, total = limit - item_cost(0), 0
    while True:
        if left < 2 or left - 2 + item_cost(total) < item_cost(total + 1):
            return [str(limit), "8b766400000000", ""], "failed RunLimit at 0"
        left, total = left - 2 + item_cost(total) - item_cost(total + 1), total + 1
        if left < 1 + item_cost(total):
            return [str(limit), "8b766400000000", ""], "failed RunLimit at 1"
        # a copy and its base, and the base of the jump; the copy is given back
        if left - 1 - item_cost(total) < 1:
            return [str(limit), "8b766400000000", ""], "failed RunLimit at 2"
        left -= 2


def run(words):
    """The output, the seconds and the peak memory in KiB of one run."""
    with tempfile.TemporaryFile() as out:
        begin = time.monotonic()
        child = subprocess.Popen([str(PROGRAM), "vm"] + words, stdout=out)
        _, status, usage = os.wait4(child.pid, 0)
        seconds = time.monotonic() - begin
        child.returncode = os.waitstatus_to_exitcode(status)
        if child.returncode != 0:
            sys.exit(f"bench: status {child.returncode}")
        out.seek(0)
        return out.read().decode(), seconds, usage.ru_maxrss


def measure(name, words, line):
    runs = [run(words) for _ in range(3)]
    for output, _, _ in runs:
        if output != line + "\n":
            sys.exit(f"bench: {name} printed {output!r} and not {line!r}")
    seconds, memory = min(r[1] for r in runs), min(r[2] for r in runs)
    print(f"{name:30} {seconds * 1000:8.1f} ms  {memory / 1024:6.1f} MiB", flush=True)


def main():
    limit = int(sys.argv[1]) if len(sys.argv) > 1 else 40_000
    if not 1_000 <= limit <= 48_000:
        sys.exit("bench: a limit from 1,000 to 48,000")
    run(["100", "51"])  # builds the program, if need be
    measure("one instruction", ["100", "51"], "succeeded left 90")
    for kind in (additions, counting):
        for most in (limit, 2 * limit):
            measure(f"{kind.__name__}, limit {most}", *kind(most))


if __name__ == "__main__":
    main()
