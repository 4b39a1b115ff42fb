"""Which blocks extend a chain, and why others are refused, written from docs/FORMATS.md and docs/MODEL.md alone."""
from machine import Fails, flag, number, verdict, written
from reading import Control, Issue, Spend
from records import NOTHING, block_id, entry_id, list_root, set_root, sha256, string, varint

LIMIT = 10_000
GREATEST = 2**63 - 1


class Refused(Exception):
    """Why a block or a transaction is refused, as it is printed."""

    def __init__(self, *words):
        super().__init__(" ".join(word.hex() if isinstance(word, bytes) else str(word) for word in words))


def value(asset, amount):
    return asset + varint(amount)


def is_nonce(put):
    return isinstance(put, Issue) and bool(put.nonce)


class Ids:
    """The ids of a transaction: what its inputs name, its entries, and its outputs."""

    def __init__(self, tx):
        times = varint(tx.mintime) + varint(tx.maxtime)
        self.data = sha256(tx.data)
        self.named = [self.name(put, times) for put in tx.inputs]
        self.entries = [self.entry(put, named) for put, named in zip(tx.inputs, self.named)]
        parts = [entry + value(put.asset, put.amount) for entry, put in zip(self.entries, tx.inputs)]
        mux = entry_id(b"mux1", varint(len(parts)) + b"".join(parts))
        self.bodies = [self.body(mux, place, out) for place, out in enumerate(tx.outputs)]
        self.outputs = [
            entry_id(b"output1" if isinstance(out, Control) else b"retirement1", body)
            for out, body in zip(tx.outputs, self.bodies)
        ]
        count = varint(len(self.outputs))
        self.tx = entry_id(b"txheader", varint(tx.version) + count + b"".join(self.outputs) + self.data + times)

    def name(self, put, times):
        if isinstance(put, Spend):
            body = put.source + varint(put.place) + value(put.asset, put.amount) + string(put.program) + put.data_hash
            return entry_id(b"output1", body)
        return entry_id(b"nonce", string(put.nonce) + put.asset + times) if put.nonce else b""

    def entry(self, put, named):
        if isinstance(put, Spend):
            return entry_id(b"spend1", named + sha256(put.data))
        return entry_id(b"issuance1", string(named) + value(put.asset, put.amount) + sha256(put.data))

    def body(self, mux, place, out):
        program = string(out.program) if isinstance(out, Control) else b""
        return mux + varint(place) + value(out.asset, out.amount) + program + sha256(out.data)


def pushes(item, base=1):
    return lambda machine: (0, [item], base)


def input_context(tx, ids, place):
    """What the program of an input may ask for, by the codes."""
    put = tx.inputs[place]

    def check_output(machine):
        at, data, amount, asset, version, program = machine.top(6)
        at, amount, version = number(at), number(amount), number(version)
        if at < 0 or amount < 0 or at >= len(tx.outputs):
            raise Fails("BadValue")
        out = tx.outputs[at]
        same = isinstance(out, Control) and (out.asset, out.amount, out.program) == (asset, amount, program)
        return 6, [flag(same and version == 1 and data in (b"", sha256(out.data)))], 16

    given = {
        0xAE: pushes(sha256(ids.entries[place] + ids.tx), 256),
        0xC1: check_output,
        0xC2: pushes(put.asset),
        0xC3: pushes(written(put.amount)),
        0xC4: pushes(put.program),
        0xC5: pushes(written(tx.mintime)),
        0xC6: pushes(written(tx.maxtime or GREATEST)),
        0xC7: pushes(ids.data),
        0xC8: pushes(sha256(put.data)),
        0xC9: pushes(written(place)),
        0xCA: pushes(ids.entries[place]),
    }
    if isinstance(put, Spend):
        given[0xCB] = pushes(ids.named[place])
    return given


def block_context(block, program):
    return {
        0xAF: pushes(block_id(block.head)),
        0xC4: pushes(program),
        0xCD: pushes(block.program),
        0xCE: pushes(written(block.time)),
    }


def asks(given):
    def ask(code, machine):
        if code not in given:
            raise Fails("Context")
        return given[code](machine)

    return ask


def must_succeed(program, arguments, good, given, *refusal):
    words = verdict(program, arguments, LIMIT, good, asks(given)).split()
    if words[0] == "failed":
        raise Refused(*refusal, words[1], words[3])


def check_tx(tx, ids, time, initial, unspent, nonces, good):
    """Raises the first refusal of the table."""
    if tx.version != 1:
        raise Refused("X1", tx.version)
    if tx.maxtime and tx.mintime > tx.maxtime:
        raise Refused("X2", tx.mintime, tx.maxtime)
    if time < tx.mintime:
        raise Refused("X3", tx.mintime, time)
    if tx.maxtime and time > tx.maxtime:
        raise Refused("X4", tx.maxtime, time)
    inputs = list(enumerate(tx.inputs))
    for place, put in inputs:
        if is_nonce(put) and not tx.maxtime:
            raise Refused("X5", place)
    if not any(isinstance(put, Spend) or is_nonce(put) for put in tx.inputs):
        raise Refused("X6")
    for name, kind in ("X7", Spend), ("X8", Issue):
        for place, put in inputs:
            earlier = [ids.named[i] for i, other in inputs[:place] if isinstance(other, kind)]
            if isinstance(put, kind) and ids.named[place] and ids.named[place] in earlier:
                raise Refused(name, place)
    for place, put in inputs:
        if isinstance(put, Issue):
            if put.asset != sha256(b"asset1:" + initial + string(put.program) + string(put.definition)):
                raise Refused("X9", place)
    check_sums(tx)
    for place, put in inputs:
        if isinstance(put, Spend) and ids.named[place] not in unspent:
            raise Refused("X11", place)
    for place, put in inputs:
        if is_nonce(put) and ids.named[place] in nonces:
            raise Refused("X12", place)
    for place, out in enumerate(tx.outputs):
        given = ids.outputs[place]
        if isinstance(out, Control) and (given in unspent or given in ids.outputs[:place]):
            raise Refused("X13", place, given)
    for place, put in inputs:
        must_succeed(put.program, put.arguments, good, input_context(tx, ids, place), "X14", place)


def check_sums(tx):
    for part in [*tx.inputs, *tx.outputs]:
        brought = sum(put.amount for put in tx.inputs if put.asset == part.asset)
        taken = sum(out.amount for out in tx.outputs if out.asset == part.asset)
        if brought != taken or max(brought, taken) > GREATEST:
            raise Refused("X10", part.asset, brought, taken)


class Chain:
    """The blocks of a chain: its initial id, its tip, what is unspent, and its nonces with the maxtime of each."""

    def __init__(self, first):
        if first.height != 1:
            raise Refused("I1")
        if first.previous != bytes(32):
            raise Refused("I2")
        if first.version != 1:
            raise Refused("I3")
        if first.arguments or first.txs:
            raise Refused("I4")
        if (first.tx_root, first.unspent_root) != (NOTHING, NOTHING):
            raise Refused("I5")
        self.tip, self.unspent, self.nonces = first, set(), {}
        self.initial = self.tip_id = block_id(first.head)

    def add(self, block, good):
        """Adds a block, or raises its refusal and stays as it was."""
        tip = self.tip
        if block.previous != self.tip_id:
            raise Refused("B1", self.tip_id, block.previous)
        if block.height != tip.height + 1:
            raise Refused("B2", tip.height + 1, block.height)
        if block.time <= tip.time:
            raise Refused("B3", tip.time, block.time)
        if block.version != 1:
            raise Refused("B4", block.version)
        all_ids = [Ids(tx) for tx in block.txs]
        root = list_root([ids.tx for ids in all_ids])
        if block.tx_root != root:
            raise Refused("B6", root, block.tx_root)
        must_succeed(tip.program, block.arguments, good, block_context(block, tip.program), "B7")
        unspent = set(self.unspent)
        nonces = {name: most for name, most in self.nonces.items() if most >= tip.time}
        for place, (tx, ids) in enumerate(zip(block.txs, all_ids)):
            try:
                check_tx(tx, ids, block.time, self.initial, unspent, nonces, good)
            except Refused as why:
                raise Refused("B8", place, why) from None
            for put, name in zip(tx.inputs, ids.named):
                if isinstance(put, Spend):
                    unspent.discard(name)
                elif put.nonce:
                    nonces[name] = tx.maxtime
            unspent.update(name for out, name in zip(tx.outputs, ids.outputs) if isinstance(out, Control))
        root = set_root(sorted(unspent))
        if block.unspent_root != root:
            raise Refused("B9", root, block.unspent_root)
        self.tip, self.tip_id, self.unspent, self.nonces = block, block_id(block.head), unspent, nonces
