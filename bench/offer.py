#!/usr/bin/env python3
"""Time and peak memory of `apply` for N and 2N blocks of T transactions each, one input and two outputs a transaction.

The first of the blocks issues, a nonce for each transaction; each transaction of a later one spends an output of the block
before it. The script forms all ids and roots itself with its own SHA-256, checks every printed line and the ledger's bytes
against its own, and prints how time and memory grow when the blocks double. What is unspent grows by T a block, and each
block names the root of all of it, so time grows by more than the blocks.

usage: bench/offer.py [N [T]]        N is 4 and T is 1,000 where they are not given
"""

import pathlib
import sys
import tempfile

from apply import expect, run  # it also says where records is
from records import block_id, entry_id, frame, header, list_root, set_root, sha256, string, varint

PROGRAM = b"\x51"
AMOUNT = 1 << 40


class Output:
    """An output under the program 51, without data."""

    def __init__(self, mux, place, asset, amount):
        self.amount = amount
        value = asset + varint(amount) + string(PROGRAM)
        self.body = mux + varint(place) + value + sha256(b"")
        self.id = entry_id(b"output1", self.body)
        self.spelled = b"\x00" + value + string(b"")


def transaction(kind, named, asset, amount, first, maxtime):
    """Bytes, id and outputs of a transaction whose input begins with these bytes and names this."""
    data_hash = sha256(b"")
    body = named + (asset + varint(amount) if kind == b"issuance1" else b"") + data_hash
    mux = entry_id(b"mux1", varint(1) + entry_id(kind, body) + asset + varint(amount))
    outputs = [Output(mux, 0, asset, amount - amount // 2), Output(mux, 1, asset, amount // 2)]
    times = varint(0) + varint(maxtime)
    tx = entry_id(b"txheader", varint(1) + varint(2) + outputs[0].id + outputs[1].id + data_hash + times)
    spelled = varint(1) + times + string(b"") + varint(1) + first + varint(2) + outputs[0].spelled + outputs[1].spelled
    return spelled, tx, outputs


def issuance(asset, nonce, maxtime):
    named = entry_id(b"nonce", string(nonce) + asset + varint(0) + varint(maxtime))
    first = b"\x00" + string(nonce) + asset + varint(AMOUNT) + string(PROGRAM) + string(b"") + string(b"") + varint(0)
    return transaction(b"issuance1", string(named), asset, AMOUNT, first, maxtime)


def spend(asset, output):
    first = b"\x01" + output.body + string(b"") + varint(0)
    return transaction(b"spend1", output.id, asset, output.amount, first, 0)


def block(height, previous, unspent, txs):
    head = header(height, previous, height, PROGRAM, list_root([tx[1] for tx in txs]), set_root(sorted(unspent)))
    return block_id(head), frame(head, [tx[0] for tx in txs])


def measure(folder, blocks, count):
    ledger, offers = folder / "ledger", folder / "offers"
    first = header(1, bytes(32), 1, PROGRAM)
    previous = block_id(first)
    asset = sha256(b"asset1:" + previous + string(PROGRAM) + string(b""))
    expect(run(["init", str(ledger), "1", "51"])[0], 0, "the status of init")
    frames, lines, unspent, made = [frame(first)], [], set(), []
    for height in range(2, blocks + 2):
        if height == 2:
            txs = [issuance(asset, varint(k), 2) for k in range(count)]
        else:
            spent = made[:count]
            unspent.difference_update(output.id for output in spent)
            txs = [spend(asset, output) for output in spent]
        made = [output for tx in txs for output in tx[2]]
        unspent.update(output.id for output in made)
        previous, framed = block(height, previous, unspent, txs)
        frames.append(framed)
        lines.append(f"accepted {height} {previous.hex()}\n")
    offers.write_bytes(b"".join(frames[1:]))
    status, out, seconds, memory = run(["apply", str(ledger), str(offers)])
    expect((status, out), (0, "".join(lines).encode()), "the answer of apply")
    expect(ledger.read_bytes(), b"".join(frames), "the ledger")
    return seconds, memory, sum(map(len, frames))


def compare(blocks, count):
    rows = []
    for number in (blocks, 2 * blocks):
        with tempfile.TemporaryDirectory() as name:
            seconds, memory, size = measure(pathlib.Path(name), number, count)
            rows.append((seconds, memory))
            print(
                f"{number} blocks of {count} transactions, {size} bytes: {seconds:.2f} s, {memory / 1024:.1f} MiB at most",
                flush=True,
            )
    print(f"twice the blocks: {rows[1][0] / rows[0][0]:.2f} times the time, {rows[1][1] / rows[0][1]:.2f} times the memory")


def main():
    blocks = int(sys.argv[1]) if len(sys.argv) > 1 else 4
    count = int(sys.argv[2]) if len(sys.argv) > 2 else 1_000
    expect(run(["vm", "10000", "525393559c"])[0], 0, "the status of the first run")
    compare(blocks, count)


if __name__ == "__main__":
    main()
