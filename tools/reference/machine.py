"""Chain VM 1, written from the code table of docs/FORMATS.md alone.

The program under proof has no part in it: where the two disagree, one of them is wrong. Items are bytes; a stack is a list whose last
item is on top.
"""
import hashlib

LEAST, MOST = -(2**63), 2**63 - 1

# What only a context gives: without one these codes fail.
OF_A_CONTEXT = {0xAE, 0xAF, 0xC1, 0xC2, 0xC3, 0xC4, 0xC5, 0xC6, 0xC7, 0xC8, 0xC9, 0xCA, 0xCB, 0xCD, 0xCE}


class Fails(Exception):
    """A run that fails, by the name of the failure."""


def number(item):
    """The number of an item: little-endian in two's complement, filled with zeros to eight bytes."""
    if len(item) > 8:
        raise Fails("BadNumber")
    return int.from_bytes(item.ljust(8, b"\0"), "little", signed=True)


def written(n):
    """The item of a number."""
    if not LEAST <= n <= MOST:
        raise Fails("Range")
    return n.to_bytes(8, "little", signed=True).rstrip(b"\0")


def truth(item):
    return any(item)


def flag(value):
    return b"\1" if value else b""


def cost(items):
    return sum(8 + len(item) for item in items)


def push(item):
    """The shortest push of an item among 00 and the codes 01 to 4e."""
    size = len(item)
    if size == 0:
        return b"\x00"
    if size <= 75:
        return bytes([size]) + item
    for code, width in (0x4C, 1), (0x4D, 2), (0x4E, 4):
        if size < 256**width:
            return bytes([code]) + size.to_bytes(width, "little") + item
    raise Fails("BadValue")


def push_number(n):
    """The push of a number: 00, 4f or 51 to 60 where it has a code of its own."""
    if n == 0:
        return b"\x00"
    if n == -1:
        return b"\x4f"
    if 1 <= n <= 16:
        return bytes([0x50 + n])
    return push(written(n))


def quotient(a, b):
    """Toward zero."""
    if b == 0:
        raise Fails("DivZero")
    size = abs(a) // abs(b)
    return size if (a < 0) == (b < 0) else -size


def remainder(a, b):
    return a - b * quotient(a, b)


def shifted(n, count):
    if count < 0:
        raise Fails("BadValue")
    return n << count if n and count < 64 else 0 if n == 0 else MOST + 1


def shifted_back(n, count):
    if count < 0:
        raise Fails("BadValue")
    return n >> count


def part(a, place, size):
    if place < 0 or size < 0 or place + size > len(a):
        raise Fails("BadValue")
    return a[place : place + size]


# Lines that make an item of numbers: how many they take, what it is, and the base.
NUMBERS = {
    0x8B: (1, lambda n: n + 1, 2),
    0x8C: (1, lambda n: n - 1, 2),
    0x8D: (1, lambda n: 2 * n, 2),
    0x8E: (1, lambda n: n // 2, 2),
    0x8F: (1, lambda n: -n, 2),
    0x90: (1, abs, 2),
    0x91: (1, lambda n: n == 0, 2),
    0x92: (1, lambda n: n != 0, 2),
    0x93: (2, lambda a, b: a + b, 2),
    0x94: (2, lambda a, b: a - b, 2),
    0x95: (2, lambda a, b: a * b, 8),
    0x96: (2, quotient, 8),
    0x97: (2, remainder, 8),
    0x98: (2, shifted, 8),
    0x99: (2, shifted_back, 8),
    0x9C: (2, lambda a, b: a == b, 2),
    0x9E: (2, lambda a, b: a != b, 2),
    0x9F: (2, lambda a, b: a < b, 2),
    0xA0: (2, lambda a, b: a > b, 2),
    0xA1: (2, lambda a, b: a <= b, 2),
    0xA2: (2, lambda a, b: a >= b, 2),
    0xA3: (2, min, 2),
    0xA4: (2, max, 2),
    0xA5: (3, lambda x, least, limit: least <= x < limit, 2),
}

# Lines that move or copy items: how many they take, what stands in their place, how many of it are copies, and the base.
MOVES = {
    0x6D: (2, lambda a, b: [], 2),
    0x6E: (2, lambda a, b: [a, b, a, b], 2),
    0x6F: (3, lambda a, b, c: [a, b, c, a, b, c], 3),
    0x70: (4, lambda a, b, c, d: [a, b, c, d, a, b], 2),
    0x71: (6, lambda a, b, c, d, e, f: [c, d, e, f, a, b], 2),
    0x72: (4, lambda a, b, c, d: [c, d, a, b], 2),
    0x73: (1, lambda a: [a, a] if truth(a) else [a], 1),
    0x75: (1, lambda a: [], 1),
    0x76: (1, lambda a: [a, a], 1),
    0x77: (2, lambda a, b: [b], 1),
    0x78: (2, lambda a, b: [a, b, a], 1),
    0x7B: (3, lambda a, b, c: [b, c, a], 2),
    0x7C: (2, lambda a, b: [b, a], 1),
    0x7D: (2, lambda a, b: [b, a, b], 1),
}


def bitwise(a, b, size, op):
    return bytes(op(x, y) for x, y in zip(a.ljust(size, b"\0")[:size], b.ljust(size, b"\0")[:size]))


# Lines that make an item of strings of bytes and of numbers, the numbers on top: how many of each they take, what it is, and the base
# by what they take and what it is.
STRINGS = {
    0x7E: (2, 0, lambda a, b: a + b, lambda r, *_: 4 + len(r)),
    0x7F: (1, 2, part, lambda r, *_: 4 + len(r)),
    0x80: (1, 1, lambda a, n: part(a, 0, n), lambda r, *_: 4 + len(r)),
    0x81: (1, 1, lambda a, n: part(a, len(a) - n, n), lambda r, *_: 4 + len(r)),
    0x83: (1, 0, lambda a: bytes(255 - x for x in a), lambda r, a: 1 + len(a)),
    0x84: (2, 0, lambda a, b: bitwise(a, b, min(len(a), len(b)), int.__and__), lambda r, a, b: 1 + len(r)),
    0x85: (2, 0, lambda a, b: bitwise(a, b, max(len(a), len(b)), int.__or__), lambda r, a, b: 1 + len(r)),
    0x86: (2, 0, lambda a, b: bitwise(a, b, max(len(a), len(b)), int.__xor__), lambda r, a, b: 1 + len(r)),
    0x87: (2, 0, lambda a, b: flag(a == b), lambda r, a, b: 1 + min(len(a), len(b))),
    0x89: (2, 0, lambda a, b: a + push(b), lambda r, *_: 4 + len(r)),
    0x9A: (2, 0, lambda a, b: flag(truth(a) and truth(b)), lambda *_: 2),
    0x9B: (2, 0, lambda a, b: flag(truth(a) or truth(b)), lambda *_: 2),
    0xA8: (1, 0, lambda a: hashlib.sha256(a).digest(), lambda r, a: max(64, len(a))),
}


class Machine:
    """A program on its stack; `good` is the check of signatures, and `context` gives items by codes, or is None."""

    def __init__(self, program, stack, left, good, context):
        self.program, self.stack, self.alt, self.left = program, stack, [], left
        self.good, self.context, self.at = good, context, 0

    def run(self):
        """Runs to the end, or fails at `at`."""
        while self.at < len(self.program):
            self.step(*self.instruction())

    def instruction(self):
        """The code at the place, its data, the place that it names, and the place after it."""
        code, after = self.program[self.at], self.at + 1
        if not (code <= 0x4F or 0x51 <= code <= 0x61 or code in (0x63, 0x64) or 0x69 <= code <= 0x89 or 0x8B <= code <= 0xA5
                or code == 0xA8 or 0xAC <= code <= 0xAF or 0xC0 <= code <= 0xCB or code in (0xCD, 0xCE)):
            raise Fails("BadOpcode")
        size, place = code if code <= 0x4B else 0, None
        if 0x4C <= code <= 0x4E:
            width = 1 << (code - 0x4C)
            size, after = int.from_bytes(self.taken(after, width), "little"), after + width
        if code in (0x63, 0x64):
            place, after = int.from_bytes(self.taken(after, 4), "little"), after + 4
        return code, self.taken(after, size), place, after + size

    def taken(self, place, size):
        if place + size > len(self.program):
            raise Fails("Short")
        return self.program[place : place + size]

    def top(self, count):
        """The top items, bottom to top."""
        if len(self.stack) < count:
            raise Fails("Underflow")
        return self.stack[len(self.stack) - count :]

    def put(self, popped, pushed, base, back=0):
        """Pays, and puts items in the place of the top ones; what is moved stands among both."""
        if self.left < base:
            raise Fails("RunLimit")
        gone = self.top(popped)
        after = self.left - base + cost(gone) - cost(pushed) + back
        if after < 0:
            raise Fails("RunLimit")
        self.left = after
        del self.stack[len(self.stack) - popped :]
        self.stack += pushed

    def step(self, code, data, place, after):
        if code in OF_A_CONTEXT:
            self.ask(code)
        elif code <= 0x4E:
            self.put(0, [data], 1)
        elif code == 0x4F or code <= 0x60:
            self.put(0, [written(-1 if code == 0x4F else code - 0x50)], 1)
        elif code == 0x61:
            self.put(0, [], 1)
        elif code in (0x63, 0x64):
            after = self.jump(code, place, after)
        elif code == 0x69:
            self.verify(truth(self.top(1)[0]), 1, 1)
        elif code == 0x6A:
            raise Fails("FailCode")
        elif code in (0x6B, 0x6C):
            self.cross(code)
        elif code in MOVES:
            count, make, base = MOVES[code]
            self.put(count, make(*self.top(count)), base)
        elif code == 0x74:
            self.put(0, [written(len(self.stack))], 1)
        elif code in (0x79, 0x7A):
            self.reach(code)
        elif code == 0x82:
            self.put(0, [written(len(self.top(1)[0]))], 1)
        elif code == 0x88:
            a, b = self.top(2)
            self.verify(a == b, 2, 1 + min(len(a), len(b)))
        elif code == 0x9D:
            a, b = map(number, self.top(2))
            self.verify(a == b, 2, 2)
        elif code in NUMBERS:
            count, make, base = NUMBERS[code]
            made = make(*map(number, self.top(count)))
            self.put(count, [flag(made) if isinstance(made, bool) else written(made)], base)
        elif code in STRINGS:
            items, numbers, make, base = STRINGS[code]
            taken = self.top(items + numbers)
            taken = taken[:items] + [number(item) for item in taken[items:]]
            made = make(*taken)
            self.put(items + numbers, [made], base(made, *taken))
        elif code == 0xAC:
            signature, message, key = self.top(3)
            if len(message) != 32:
                raise Fails("BadValue")
            self.put(3, [flag(self.good(key, message, signature))], 1024)
        elif code == 0xAD:
            self.several()
        else:
            self.predicate()
        self.at = after

    def ask(self, code):
        if self.context is None:
            raise Fails("Context")
        popped, pushed, base = self.context(code, self)
        self.put(popped, pushed, base)

    def jump(self, code, place, after):
        count = 1 if code == 0x64 else 0
        if count and not truth(self.top(1)[0]):
            place = after
        elif place > len(self.program):
            raise Fails("BadJump")
        self.put(count, [], 1)
        return place

    def verify(self, holds, popped, base):
        if not holds:
            raise Fails("VerifyFalse")
        self.put(popped, [], base)

    def cross(self, code):
        """A moved item costs nothing: what it costs stays with what both stacks hold."""
        source, target = (self.stack, self.alt) if code == 0x6B else (self.alt, self.stack)
        if not source:
            raise Fails("Underflow" if code == 0x6B else "AltUnderflow")
        self.put(0, [], 2)
        target.append(source.pop())

    def reach(self, code):
        count = number(self.top(1)[0])
        if count < 0:
            raise Fails("BadValue")
        taken = self.top(count + 2)[:-1]
        self.put(count + 2, taken[1:] + taken[:1] if code == 0x7A else taken + taken[:1], 2)

    def several(self):
        """Signatures by some of several keys, in the order of the keys."""
        wanted, count = map(number, self.top(2))
        if count < 0 or wanted < 0 or wanted > count or (wanted == 0 and count > 0):
            raise Fails("BadValue")
        items = self.top(wanted + 1 + count + 2)
        signatures, message, keys = items[:wanted], items[wanted], items[wanted + 1 : -2]
        if len(message) != 32:
            raise Fails("BadValue")
        for key in keys:
            if signatures and self.good(key, message, signatures[0]):
                signatures = signatures[1:]
        self.put(len(items), [flag(not signatures)], max(1, 1024 * count))

    def predicate(self):
        """Runs a program on the items below as a child, with a part of what is left."""
        count_item, program, limit_item = self.top(3)
        limit, count = number(limit_item), number(count_item)
        if limit < 0 or count < 0:
            raise Fails("BadValue")
        moved = self.top(count + 3)[:-3]
        if self.left < 256 or limit > self.left - 256:
            raise Fails("RunLimit")
        limit = limit or self.left - 256
        child = Machine(program, list(moved), limit, self.good, self.context)
        try:
            child.run()
            good = bool(child.stack) and truth(child.stack[-1])
        except Fails:
            good = False
        back = child.left + cost(child.stack) + cost(child.alt) if good else 0
        # The moved items cost nothing: they are popped here, and their cost has gone with them to the child.
        self.put(count + 3, [flag(good)], 256, 192 - limit + back - cost(moved))


def verdict(program, arguments, limit, good=lambda key, message, signature: False, context=None):
    """How a program ends on its arguments, as words: the first argument is the deepest."""
    if cost(arguments) > limit:
        return "failed RunLimit at 0"
    machine = Machine(program, list(arguments), limit - cost(arguments), good, context)
    try:
        machine.run()
    except Fails as failure:
        return f"failed {failure} at {machine.at}"
    if machine.stack and truth(machine.stack[-1]):
        return f"succeeded left {machine.left}"
    return f"failed FalseResult at {len(program)}"
