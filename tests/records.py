"""The bytes of model files, record by record, with the names of document 01."""
import struct

# ---- fields, nodes, items


def u16(n):
    return struct.pack('<H', n)


def u32(n):
    return struct.pack('<I', n)


def i32(n):
    return struct.pack('<i', n)


def node(op, operand=0):
    return u16(op) + i32(operand)


def literal(n):
    return node(0, n)


def global_(n):
    return node(1, n)


def local(n):
    return node(2, n)


def draw(n):
    return node(10, n)


ADD, SUBTRACT, MULTIPLY, LESSER, GREATER, CLOCK, NEGATE = (node(op) for op in range(3, 10))
LITERAL = literal(1)


def item(kind, relation, number, amount):
    return struct.pack('<BBHi', kind, relation, number, amount)


def getR(number, amount=1):
    return item(0, 0, number, amount)


def getB(number, amount=1):
    return item(1, 0, number, amount)


def getS(number, amount=1):
    return item(2, 0, number, amount)


def condition(number, relation=1, amount=0):
    return item(3, relation, number, amount)


def claim(*items, n=None):
    return u16(len(items) if n is None else n) + b''.join(items)


def branch(block, *items, n=None):
    return u16(block) + claim(*items, n=n)


def share(resource, amount=1):
    return u16(resource) + u32(amount)


# ---- records; `n` is a count that is written in place of the true one


def record(kind, body=b''):
    return u16(2 + len(body)) + u16(kind) + body


def RES(total):
    return record(1, u32(total))


def BIN(amount):
    return record(2, u32(amount))


def SYNC():
    return record(3)


def VAR(value):
    return record(4, i32(value))


def CLASS(block):
    return record(5, u16(block))


def BLOCK():
    return record(6)


def ENTITY(class_, offset=0):
    return record(7, u16(class_) + u32(offset))


def SAMPLER(lowest, highest, seed=1):
    return record(8, i32(lowest) + i32(highest) + u32(seed))


def HOLD(*nodes):
    return record(16, b''.join(nodes))


def PRIO(*nodes):
    return record(17, b''.join(nodes))


def SET(variable, *nodes):
    return record(18, u16(variable) + b''.join(nodes))


def LSET(variable, *nodes):
    return record(19, u16(variable) + b''.join(nodes))


def DO(rounds, block):
    return record(20, u16(rounds) + u16(block))


def PUTR(number, amount=1):
    return record(21, u16(number) + u32(amount))


def PUTB(number, amount=1):
    return record(22, u16(number) + u32(amount))


def PUTS(sync, count=1):
    return record(23, u16(sync) + u16(count))


def BECOME(sync):
    return record(24, u16(sync))


def REQ(*items, n=None):
    return record(25, claim(*items, n=n))


def TRY(*branches, n=None):
    return record(26, u16(len(branches) if n is None else n) + b''.join(branches))


def WHILE(block, *items, n=None):
    return record(27, branch(block, *items, n=n))


def START(class_, offset=0, *shares, n=None):
    return record(28, u16(class_) + u32(offset) + u16(len(shares) if n is None else n) + b''.join(shares))


def TRACE(*nodes):
    return record(29, b''.join(nodes))


def CLOSE():
    return record(30)


def shorter(whole):
    """The record with one byte less of body, its length put right."""
    return u16(len(whole) - 3) + whole[2:-1]


def longer(whole):
    """The record with one byte more of body, its length put right."""
    return u16(len(whole) - 1) + whole[2:] + b'\0'


def cut(whole):
    """The record without its last byte, its length as it was."""
    return whole[:-1]


def chain(blocks, names=lambda block: DO(1, block), first=0):
    """So many blocks from the block `first` on; each but the last names the next one."""
    return [r for b in range(first, first + blocks - 1) for r in (BLOCK(), names(b + 1))] + [BLOCK()]
