#!/usr/bin/env python3
"""Time and peak memory of `apply` for N and 2N blocks without transactions, offered to a ledger of the initial block, and then
for 4 and 8 blocks of 1,000 transactions each, as `offer.py` makes them.

The script makes the offers with its own SHA-256 of the blocks' bytes, checks every printed line and the ledger's bytes
against its own, and prints how time and memory grow when the blocks double. Beside it stands the time of `sha256sum` over as
many bytes as the ids of the blocks are hashed from, in the same run. At last two offers that are too long are refused.

usage: bench/apply.py [N]        N is 50,000 where it is not given
"""

import os
import pathlib
import subprocess
import sys
import tempfile
import time

TOP = pathlib.Path(__file__).resolve().parent.parent
PROGRAM = TOP / "vineyore"
sys.dont_write_bytecode = True
sys.path.insert(0, str(TOP / "tools" / "reference"))

from records import block_id, frame, header  # noqa: E402

MOST = 67_108_864


def run(words):
    """The status, the output, the seconds and the peak memory in KiB of one run."""
    with tempfile.TemporaryFile() as out:
        begin = time.monotonic()
        child = subprocess.Popen([str(PROGRAM)] + words, stdout=out)
        _, status, usage = os.wait4(child.pid, 0)
        seconds = time.monotonic() - begin
        child.returncode = os.waitstatus_to_exitcode(status)
        out.seek(0)
        return child.returncode, out.read(), seconds, usage.ru_maxrss


def expect(found, wanted, what):
    if found != wanted:
        sys.exit(f"bench: {what} is not what was expected")


def start(ledger):
    first = header(1, bytes(32), 1, b"\x51")
    status, out, _, _ = run(["init", str(ledger), "1", "51"])
    expect((status, out), (0, b"block 1 " + block_id(first).hex().encode() + b"\n"), "the answer of init")
    expect(ledger.read_bytes(), frame(first), "the initial block")
    return block_id(first)


def measure(folder, count):
    ledger, offers = folder / "ledger", folder / "offers"
    previous = start(ledger)
    frames, lines, hashed = [ledger.read_bytes()], [], 0
    for height in range(2, count + 2):
        head = header(height, previous, height, b"\x51")
        previous = block_id(head)
        hashed += len(head) + len(b"entryid:blockheader:") + 32
        frames.append(frame(head))
        lines.append(f"accepted {height} {previous.hex()}\n")
    offers.write_bytes(b"".join(frames[1:]))
    status, out, seconds, memory = run(["apply", str(ledger), str(offers)])
    expect(status, 0, "the status")
    expect(out, "".join(lines).encode(), "the output")
    expect(ledger.read_bytes(), b"".join(frames), "the ledger")
    return seconds, memory, hashed


def hash_time(folder, size):
    data = folder / "data"
    data.write_bytes(bytes(size))
    begin = time.monotonic()
    subprocess.run(["sha256sum", str(data)], stdout=subprocess.DEVNULL, check=True)
    return time.monotonic() - begin


def refuse(folder):
    ledger, offers = folder / "ledger", folder / "offers"
    start(ledger)
    before = ledger.read_bytes()
    for size in (MOST + 1, MOST - len(before) + 1):
        offers.write_bytes(b"\x00" * size)
        status, out, _, _ = run(["apply", str(ledger), str(offers)])
        wanted = b"refused size 2\n" if size > MOST else b"refused file 2 0 1 Short\n"
        expect((status, out), (2, wanted), f"the answer to {size} bytes")
        expect(ledger.read_bytes(), before, "the ledger after a refusal")


def transactions():
    import offer  # it takes its calls of the program from here

    offer.compare(4, 1_000)


def main():
    count = int(sys.argv[1]) if len(sys.argv) > 1 else 50_000
    expect(run(["vm", "10000", "525393559c"])[0], 0, "the status of the first run")
    rows = []
    for blocks in (count, 2 * count):
        with tempfile.TemporaryDirectory() as name:
            folder = pathlib.Path(name)
            seconds, memory, hashed = measure(folder, blocks)
            rows.append((seconds, memory))
            print(f"{blocks} blocks: {seconds:.2f} s, {memory / 1024:.1f} MiB at most, sha256sum of {hashed} bytes {hash_time(folder, hashed):.3f} s", flush=True)
    print(f"twice the blocks: {rows[1][0] / rows[0][0]:.2f} times the time, {rows[1][1] / rows[0][1]:.2f} times the memory")
    transactions()
    with tempfile.TemporaryDirectory() as name:
        refuse(pathlib.Path(name))
    print("offers that are too long or no blocks are refused, and nothing is written")


if __name__ == "__main__":
    main()
