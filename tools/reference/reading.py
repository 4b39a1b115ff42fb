"""Reading blocks and files of them, with the first fault and its place, written from docs/FORMATS.md alone."""
from collections import namedtuple

GREATEST = 2**63 - 1
STRING_MOST, FILE_MOST, TXS_MOST = 65_536, 67_108_864, 16_777_216

Issue = namedtuple("Issue", "nonce asset amount program definition data arguments")
Spend = namedtuple("Spend", "source place asset amount program data_hash data arguments")
Control = namedtuple("Control", "asset amount program data")
Retire = namedtuple("Retire", "asset amount data")
Tx = namedtuple("Tx", "version mintime maxtime data inputs outputs")
Block = namedtuple("Block", "version height previous time tx_root unspent_root program arguments txs head frame")


class Fault(Exception):
    """The first fault of bytes: its kind, and the byte at which its field begins."""

    def __init__(self, at, kind):
        super().__init__(at, kind)
        self.at, self.kind = at, kind


class Reader:
    """Reads fields from one place up to an end."""

    def __init__(self, data, at, end):
        self.data, self.at, self.end = data, at, end

    def number(self, most=GREATEST, least=0):
        start = place = self.at
        value = 0
        while True:
            if place - start == 9:
                raise Fault(start, "TooBig")
            if place == self.end:
                raise Fault(start, "Short")
            byte = self.data[place]
            value |= byte % 128 << 7 * (place - start)
            place += 1
            if byte < 128:
                break
        if byte == 0 and place - start > 1:
            raise Fault(start, "NotShortest")
        if value > most:
            raise Fault(start, "TooBig")
        if value < least:
            raise Fault(start, "Zero")
        self.at = place
        return value

    def raw(self, size):
        if self.end - self.at < size:
            raise Fault(self.at, "Short")
        self.at += size
        return self.data[self.at - size : self.at]

    def string(self):
        start = self.at
        size = self.number(STRING_MOST)
        if self.end - self.at < size:
            raise Fault(start, "Short")
        return self.raw(size)

    def id(self):
        return self.raw(32)

    def amount(self):
        return self.number(least=1)

    def kind(self):
        start = self.at
        kind = self.raw(1)[0]
        if kind > 1:
            raise Fault(start, "Kind")
        return kind

    def items(self, most, read):
        return [read() for _ in range(self.number(most))]

    def arguments(self):
        return self.items(64, self.string)

    def input(self):
        if self.kind() == 0:
            return Issue(self.string(), self.id(), self.amount(), self.string(), self.string(), self.string(), self.arguments())
        return Spend(
            self.id(), self.number(), self.id(), self.amount(), self.string(), self.id(), self.string(), self.arguments()
        )

    def output(self):
        if self.kind() == 0:
            return Control(self.id(), self.amount(), self.string(), self.string())
        return Retire(self.id(), self.amount(), self.string())

    def tx(self):
        numbers = self.number(), self.number(), self.number()
        return Tx(*numbers, self.string(), self.items(256, self.input), self.items(256, self.output))

    def block(self, frame):
        start = self.at
        fields = [self.number(), self.number(), self.id(), self.number(), self.id(), self.id(), self.string()]
        head = self.data[start : self.at]
        arguments, txs = self.arguments(), []
        count, first = self.number(10_000), self.at
        for _ in range(count):
            begin = self.at
            txs.append(self.tx())
            if self.at - first > TXS_MOST:
                raise Fault(begin, "TooBig")
        if self.at != self.end:
            raise Fault(self.at, "Trailing")
        return Block(*fields, arguments, txs, head, frame)


def blocks(data):
    """The blocks of a file; a fault also has the number of its frame."""
    read, at = [], 0
    while at < len(data):
        try:
            reader = Reader(data, at, len(data))
            size = reader.number(FILE_MOST)
            if len(data) - reader.at < size:
                raise Fault(at, "Short")
            end = reader.at + size
            read.append(Reader(data, reader.at, end).block(data[at:end]))
        except Fault as fault:
            fault.frame = len(read)
            raise
        at = end
    return read
