"""Numbers, strings, blocks, ids and roots, written from docs/FORMATS.md alone."""
import hashlib


def sha256(data):
    return hashlib.sha256(data).digest()


NOTHING = sha256(b"")


def varint(n):
    """Seven bits to a byte, the lowest first; each byte but the last has its highest bit set."""
    spelled = bytearray()
    while n >= 128:
        spelled.append(n % 128 + 128)
        n //= 128
    return bytes(spelled) + bytes([n])


def string(value):
    return varint(len(value)) + value


def header(height, previous, time, program, tx_root=NOTHING, unspent_root=NOTHING):
    """A header of version 1; without roots it has those of no ids."""
    return varint(1) + varint(height) + previous + varint(time) + tx_root + unspent_root + string(program)


def frame(head, txs=(), arguments=()):
    """A block, of its header, its arguments and the bytes of its transactions, after its length."""
    lists = [varint(len(arguments)), *map(string, arguments), varint(len(txs)), *txs]
    return string(head + b"".join(lists))


def entry_id(kind, body):
    return sha256(b"entryid:" + kind + b":" + sha256(body))


def block_id(head):
    return entry_id(b"blockheader", head)


def list_root(ids):
    """The root of a list of ids."""
    if not ids:
        return NOTHING
    if len(ids) == 1:
        return sha256(b"\x00" + ids[0])
    half = 1
    while 2 * half < len(ids):
        half *= 2
    return sha256(b"\x01" + list_root(ids[:half]) + list_root(ids[half:]))


def set_root(ids, bit=0):
    """The root of a set of ids, given in order; all agree before the bit."""
    if not ids:
        return NOTHING
    if len(ids) == 1:
        return sha256(b"\x00" + ids[0])
    while True:
        count = sum(1 for i in ids if not i[bit // 8] >> (7 - bit % 8) & 1)
        bit += 1
        if 0 < count < len(ids):
            return sha256(b"\x01" + set_root(ids[:count], bit) + set_root(ids[count:], bit))
