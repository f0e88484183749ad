#!/usr/bin/env python3
"""Model files with the answer that document 01 gives each: what the program `try_cases` of the gate runs check and bound on.

    python3 tests/cases.py            writes crates/try_cases/data/cases.bin and crates/try_cases/stdout
    python3 tests/cases.py --check    fails if these two files are not what it would write
    python3 tests/cases.py --list     prints each case's number, answer and name
    python3 tests/cases.py --files D  writes each case's model file to the folder D, for another program to read

A case is its name, its records and its answer. The answers are written by hand from document 01, none is taken from a program:
`refused N at the third record`, whose byte place is the size of the records before it, or of an accepted file `bound N`,
`bound none` or `bound over`.

cases.bin is, little-endian: u16 number of cases; each case: u16 number of runs; each run: u16 repeat, u16 length, bytes. So a
record that stands a thousand times in a row takes its own size once.
"""
import itertools
import pathlib
import sys

from records import (
    ADD, CLOCK, GREATER, LESSER, LITERAL, MULTIPLY, NEGATE, SUBTRACT, draw, global_, literal, local, node,
    branch, condition, getB, getR, getS, item, share,
    BECOME, BIN, BLOCK, CLASS, CLOSE, DO, ENTITY, HOLD, LSET, PRIO, PUTB, PUTR, PUTS, REQ, RES, SAMPLER, SET, START, SYNC, TRACE,
    TRY, VAR, WHILE, record, chain, cut, longer, shorter, u16, u32)

# One thing of each kind, and an entity whose body is block 0: seven records, and the eighth is the first action.
GROUND = [RES(5), BIN(5), SYNC(), VAR(0), CLASS(0), ENTITY(0), BLOCK()]
# Block 1, behind an action that names it.
TAIL = [BLOCK()]

DECLARATIONS = [('RES', RES(1)), ('BIN', BIN(1)), ('SYNC', SYNC()), ('VAR', VAR(1)), ('CLASS', CLASS(0)), ('ENTITY', ENTITY(0)),
                ('SAMPLER', SAMPLER(4, 7))]
ACTIONS = [
    ('HOLD', HOLD(LITERAL)), ('PRIO', PRIO(LITERAL)), ('SET', SET(0, LITERAL)), ('LSET', LSET(0, LITERAL)), ('DO', DO(1, 1)),
    ('PUTR', PUTR(0)), ('PUTB', PUTB(0)), ('PUTS', PUTS(0)), ('BECOME', BECOME(0)), ('REQ', REQ(getR(0))),
    ('TRY', TRY(branch(1, getR(0)))), ('WHILE', WHILE(1, getR(0))), ('START', START(0, 0, share(0))), ('TRACE', TRACE(LITERAL)),
    ('CLOSE', CLOSE()),
]

# ---- 1 SHORT: bytes end inside a record, or length under 2

SHORT = [
    ('one odd byte', [b'\6'], 'refused 1 at the first record'),
    ('a length and nothing else', [u16(6)], 'refused 1 at the first record'),
    ('three bytes', [u16(6) + b'\1'], 'refused 1 at the first record'),
    ('two zero bytes', [bytes(2)], 'refused 1 at the first record'),
    ('four zero bytes', [bytes(4)], 'refused 1 at the first record'),
    ('length 0', [u16(0) + u16(3)], 'refused 1 at the first record'),
    ('length 1', [u16(1) + u16(3)], 'refused 1 at the first record'),
    ('length 1 and as many bytes', [u16(1) + b'\3'], 'refused 1 at the first record'),
    ('length 1 before whole records', [u16(1) + u16(3), SYNC(), BLOCK()], 'refused 1 at the first record'),
    ('a RES without its body', [u16(6) + u16(1)], 'refused 1 at the first record'),
    ('a RES cut by one byte', [cut(RES(1))], 'refused 1 at the first record'),
    ('a BLOCK cut by one byte', [cut(BLOCK())], 'refused 1 at the first record'),
    ('length 65,535 in a short file', [u16(65535) + RES(1)[2:]], 'refused 1 at the first record'),
    ('length 65,535 before whole records', [u16(65535) + SYNC()[2:], BLOCK()], 'refused 1 at the first record'),
    ('length 0 in the middle', [RES(1), u16(0) + u16(3), BLOCK()], 'refused 1 at the second record'),
    ('length 1 in the middle', [RES(1), u16(1) + u16(3), BLOCK()], 'refused 1 at the second record'),
    ('four zero bytes in the middle', [RES(1), SYNC(), bytes(4), BLOCK()], 'refused 1 at the third record'),
    ('length one past the end, in the middle', [RES(1), u16(6 + 4 + 1) + BIN(1)[2:], BLOCK()], 'refused 1 at the second record'),
    ('length to the very end, in the middle', [RES(1), u16(6 + 4) + BIN(1)[2:], BLOCK()], 'refused 5 at the second record'),
    ('length 1 of an action in the middle', GROUND + [u16(1) + u16(30), CLOSE()], 'refused 1 at the eighth record'),
    ('one odd byte at the end', GROUND + [b'\2'], 'refused 1 at the last record'),
    ('one zero byte at the end', GROUND + [b'\0'], 'refused 1 at the last record'),
    ('two zero bytes at the end', GROUND + [bytes(2)], 'refused 1 at the last record'),
    ('a length alone at the end', GROUND + [u16(2)], 'refused 1 at the last record'),
    ('three bytes at the end', GROUND + [cut(CLOSE())], 'refused 1 at the last record'),
    ('four zero bytes at the end', GROUND + [bytes(4)], 'refused 1 at the last record'),
    ('length 1 at the end', GROUND + [u16(1) + u16(30)], 'refused 1 at the last record'),
    ('an ENTITY cut by one byte at the end', [CLASS(0), cut(ENTITY(0))], 'refused 1 at the last record'),
    ('a HOLD cut by one byte', GROUND + [cut(HOLD(LITERAL))], 'refused 1 at the last record'),
    ('a DO cut by one byte', GROUND + [cut(DO(1, 1))], 'refused 1 at the last record'),
    ('a REQ cut by one byte', GROUND + [cut(REQ(getR(0)))], 'refused 1 at the last record'),
    ('a TRY cut by one byte', GROUND + [cut(TRY(branch(1, getR(0))))], 'refused 1 at the last record'),
    ('a START cut by one byte', GROUND + [cut(START(0, 0, share(0)))], 'refused 1 at the last record'),
    ('a HOLD cut by a whole node', GROUND + [HOLD(ADD, LITERAL, LITERAL)[:-6]], 'refused 1 at the last record'),
]

# ---- 2 KIND: kind not in the table. 257, 262 and 264 have the low byte of a RES, a BLOCK and a SAMPLER.

KIND = [
    (f'kind {kind} first', [record(kind)], 'refused 2 at the first record')
    for kind in (0, 9, 10, 11, 12, 13, 14, 15, 31, 32, 255, 256, 257, 262, 264, 65535)
] + [
    (f'kind {kind} among the declarations', [RES(1), record(kind, u32(0)), BLOCK()], 'refused 2 at the second record')
    for kind in (0, 9, 15, 257, 65535)
] + [
    (f'kind {kind} among the actions', GROUND + [CLOSE(), record(kind), CLOSE()], 'refused 2 at the ninth record')
    for kind in (0, 15, 31, 286)
] + [
    (f'kind {kind} last', GROUND + [CLOSE(), record(kind)], 'refused 2 at the last record')
    for kind in (0, 9, 31, 65535)
]

# ---- 3 PLACE: declaration after a BLOCK, action before any

PLACE = [
    (f'{name} before any BLOCK', [action, BLOCK()], 'refused 3 at the first record') for name, action in ACTIONS
] + [
    (f'{name} just after a BLOCK', [BLOCK(), declaration, CLOSE()], 'refused 3 at the second record')
    for name, declaration in DECLARATIONS
] + [
    (f'{name} at the end', GROUND + [CLOSE(), declaration], 'refused 3 at the last record') for name, declaration in DECLARATIONS
] + [
    ('HOLD between declarations', [RES(1), HOLD(LITERAL), BIN(1), BLOCK()], 'refused 3 at the second record'),
    ('CLOSE after declarations, no BLOCK', [RES(1), VAR(0), CLOSE()], 'refused 3 at the last record'),
    ('VAR between two blocks', [BLOCK(), BLOCK(), VAR(0), BLOCK()], 'refused 3 at the third record'),
    ('an action, then a declaration', [CLOSE(), RES(1)], 'refused 3 at the first record'),
    ('blocks without actions', [BLOCK(), BLOCK(), BLOCK()], 'bound 0'),
    ('declarations in any order', [SAMPLER(4, 7), ENTITY(0), CLASS(0), VAR(0), SYNC(), BIN(0), RES(0), BLOCK()], 'bound 1'),
]

# ---- 4 MANY: one more than a limit

MANY = [
    ('32 RES', 32 * [RES(1)], 'bound 0'),
    ('33 RES', 33 * [RES(1)], 'refused 4 at the last record'),
    ('33 RES, more behind', 33 * [RES(1)] + [BIN(1), BLOCK()], 'refused 4 at record 33'),
    ('33 RES with others between', 32 * [RES(1), SYNC()] + [RES(1), BLOCK()], 'refused 4 at record 65'),
    ('32 BIN', 32 * [BIN(1)], 'bound 0'),
    ('33 BIN', [RES(1)] + 33 * [BIN(1)] + [BLOCK()], 'refused 4 at record 34'),
    ('32 SYNC', 32 * [SYNC()], 'bound 0'),
    ('33 SYNC', 33 * [SYNC()] + [BLOCK()], 'refused 4 at record 33'),
    ('32 VAR', 32 * [VAR(-1)], 'bound 0'),
    ('33 VAR', 33 * [VAR(-1)], 'refused 4 at the last record'),
    ('16 SAMPLER', 16 * [SAMPLER(4, 7)], 'bound 0'),
    ('17 SAMPLER', 17 * [SAMPLER(4, 7)], 'refused 4 at the last record'),
    ('17 SAMPLER with others between', 16 * [SAMPLER(4, 7), VAR(0)] + [SAMPLER(4, 7), BLOCK()], 'refused 4 at record 33'),
    ('64 CLASS', 64 * [CLASS(0)] + [BLOCK()], 'bound 0'),
    ('65 CLASS', 65 * [CLASS(0)] + [BLOCK()], 'refused 4 at record 65'),
    ('64 ENTITY', [CLASS(0)] + 64 * [ENTITY(0)] + [BLOCK()], 'bound 64'),
    ('65 ENTITY', [CLASS(0)] + 65 * [ENTITY(0)] + [BLOCK()], 'refused 4 at record 66'),
    ('256 BLOCK', 256 * [BLOCK()], 'bound 0'),
    ('257 BLOCK', 257 * [BLOCK()], 'refused 4 at the last record'),
    ('257 BLOCK, more behind', 257 * [BLOCK()] + [CLOSE()], 'refused 4 at record 257'),
    ('1,024 actions', [CLASS(0), ENTITY(0), BLOCK()] + 1024 * [CLOSE()], 'bound 1025'),
    ('1,025 actions', [CLASS(0), ENTITY(0), BLOCK()] + 1025 * [CLOSE()], 'refused 4 at the last record'),
    ('1,024 actions in 256 blocks', 256 * [BLOCK(), CLOSE(), HOLD(LITERAL), TRACE(CLOCK), REQ()], 'bound 0'),
    ('1,025 actions in 256 blocks', 256 * [BLOCK(), CLOSE(), HOLD(LITERAL), TRACE(CLOCK), REQ()] + [PRIO(LITERAL)],
     'refused 4 at the last record'),
    ('the 1,025th action in a block of its own', [BLOCK()] + 1024 * [CLOSE()] + [BLOCK(), REQ(), BLOCK()],
     'refused 4 at record 1027'),
    ('every limit at once', 32 * [RES(1), BIN(1), SYNC(), VAR(1)] + 16 * [SAMPLER(4, 7)] + 64 * [CLASS(255)] + 64 * [ENTITY(63)]
     + 255 * [BLOCK()] + 1024 * [CLOSE()] + [BLOCK()], 'bound 64'),
    ('every limit at once, and a 65th ENTITY', 32 * [RES(1), BIN(1), SYNC(), VAR(1)] + 16 * [SAMPLER(4, 7)] + 64 * [CLASS(255)]
     + 65 * [ENTITY(63)] + 256 * [BLOCK()], 'refused 4 at record 273'),
]

# ---- 5 SIZE: body, claim or expression not exactly its size

SIZE = [
    (f'{name} with a byte less', [shorter(declaration), BLOCK()], 'refused 5 at the first record')
    for name, declaration in DECLARATIONS if name != 'SYNC'
] + [
    (f'{name} with a byte more', [RES(1), longer(declaration), BLOCK()], 'refused 5 at the second record')
    for name, declaration in DECLARATIONS
] + [
    (f'{name} with a byte less', GROUND + [shorter(action)], 'refused 5 at the last record')
    for name, action in ACTIONS if name != 'CLOSE'
] + [
    (f'{name} with a byte more', GROUND + [longer(action), CLOSE()], 'refused 5 at the eighth record')
    for name, action in ACTIONS
] + [
    (f'kind {kind} with an empty body', GROUND + [record(kind)], 'refused 5 at the last record')
    for kind in (16, 18, 20, 21, 23, 24, 25, 26, 27, 28, 29)
] + [
    ('BLOCK with a byte more', [longer(BLOCK())], 'refused 5 at the first record'),
    ('BLOCK with a byte more, last', GROUND + [longer(BLOCK())], 'refused 5 at the last record'),
    ('RES with an empty body', [record(1)], 'refused 5 at the first record'),
    ('RES of eight bytes', [record(1, u32(1) + u32(1))], 'refused 5 at the first record'),
    ('SAMPLER with an empty body', [RES(1), record(8), BLOCK()], 'refused 5 at the second record'),
    ('SAMPLER of eight bytes', [record(8, u32(4) + u32(7))], 'refused 5 at the first record'),
    ('a SET of one byte', GROUND + [record(18, b'\0')], 'refused 5 at the last record'),
    ('a SET with no node', GROUND + [SET(0)], 'refused 5 at the last record'),
    ('an LSET with no node', GROUND + [LSET(0)], 'refused 5 at the last record'),
    ('a WHILE of its block alone', GROUND + [record(27, u16(1))], 'refused 5 at the last record'),
    ('a START without its n', GROUND + [record(28, u16(0) + u32(0))], 'refused 5 at the last record'),
]

EXPRESSIONS = [
    ('a literal', GROUND + [HOLD(literal(-2147483648))], 'bound 2'),
    ('a clock', GROUND + [HOLD(CLOCK)], 'bound 2'),
    ('every op', GROUND + [HOLD(GREATER, LESSER, ADD, literal(3), global_(0), SUBTRACT, local(0), CLOCK,
                                MULTIPLY, NEGATE, LITERAL, LITERAL)], 'bound 2'),
    ('16 nodes in a row', GROUND + [HOLD(*15 * [NEGATE], LITERAL)], 'bound 2'),
    ('16 nodes in a tree', GROUND + [TRACE(NEGATE, *7 * [ADD, LITERAL], LITERAL)], 'bound 2'),
    ('16 nodes, all leaves at the end', GROUND + [SET(0, NEGATE, *7 * [MULTIPLY], *8 * [LITERAL])], 'bound 2'),
    ('17 nodes in a row', GROUND + [HOLD(*16 * [NEGATE], LITERAL)], 'refused 5 at the last record'),
    ('17 nodes in a tree', GROUND + [TRACE(*8 * [ADD, LITERAL], LITERAL), CLOSE()], 'refused 5 at the eighth record'),
    ('17 nodes, all leaves at the end', GROUND + [SET(0, *8 * [MULTIPLY], *9 * [LITERAL])], 'refused 5 at the last record'),
    ('17 literals', GROUND + [HOLD(*17 * [LITERAL])], 'refused 5 at the last record'),
    ('two trees', GROUND + [HOLD(LITERAL, LITERAL)], 'refused 5 at the last record'),
    ('a tree and a leaf', GROUND + [PRIO(ADD, LITERAL, LITERAL, CLOCK)], 'refused 5 at the last record'),
    ('a leaf and a tree', GROUND + [LSET(0, CLOCK, ADD, LITERAL, LITERAL)], 'refused 5 at the last record'),
    ('a sum in infix order', GROUND + [HOLD(LITERAL, ADD, LITERAL)], 'refused 5 at the last record'),
    ('a sum in postfix order', GROUND + [HOLD(LITERAL, LITERAL, ADD)], 'refused 5 at the last record'),
    ('negate behind its operand', GROUND + [HOLD(LITERAL, NEGATE), CLOSE()], 'refused 5 at the eighth record'),
    ('add without operands', GROUND + [HOLD(ADD)], 'refused 5 at the last record'),
    ('add with one operand', GROUND + [HOLD(ADD, LITERAL)], 'refused 5 at the last record'),
    ('negate without operand', GROUND + [HOLD(NEGATE)], 'refused 5 at the last record'),
    ('negate with two operands', GROUND + [HOLD(NEGATE, LITERAL, LITERAL)], 'refused 5 at the last record'),
    ('clock with an operand node', GROUND + [HOLD(CLOCK, LITERAL)], 'refused 5 at the last record'),
    ('an inner operand missing', GROUND + [TRACE(ADD, LITERAL, MULTIPLY, LITERAL), CLOSE()], 'refused 5 at the eighth record'),
    ('an expression of five bytes', GROUND + [record(16, LITERAL[:5])], 'refused 5 at the last record'),
    ('an expression of seven bytes', GROUND + [record(16, LITERAL + b'\0')], 'refused 5 at the last record'),
    ('an expression of eleven bytes', GROUND + [record(29, LITERAL + LITERAL[:5])], 'refused 5 at the last record'),
    ('op 11 alone is a leaf', GROUND + [HOLD(node(11))], 'refused 6 at the last record'),
    ('op 65,535 alone is a leaf', GROUND + [HOLD(node(65535))], 'refused 6 at the last record'),
    ('op 256 alone is a leaf', GROUND + [PRIO(node(256))], 'refused 6 at the last record'),
    ('op 11 as the leaf of a tree', GROUND + [HOLD(ADD, node(11, 5), LITERAL), CLOSE()], 'refused 6 at the eighth record'),
    ('op 259 takes no operands', GROUND + [HOLD(node(259), LITERAL, LITERAL)], 'refused 5 at the last record'),
    ('op 11 and another node', GROUND + [HOLD(node(11), LITERAL)], 'refused 5 at the last record'),
    ('a tree that op 11 leaves open', GROUND + [HOLD(ADD, node(11))], 'refused 5 at the last record'),
] + [
    (f'op {op} with operand {operand}', GROUND + [HOLD(node(op, operand), *leaves)], 'refused 6 at the last record')
    for op, leaves, operand in (
        (3, 2 * [LITERAL], 1), (4, 2 * [LITERAL], 1), (5, 2 * [LITERAL], -1), (6, 2 * [LITERAL], 65536),
        (7, 2 * [LITERAL], -2147483648), (8, [], 1), (8, [], -1), (9, [LITERAL], 1), (9, [LITERAL], 2147483647))
] + [
    ('operand 1 at the last node', GROUND + [SET(0, ADD, LITERAL, node(8, 1)), CLOSE()], 'refused 6 at the eighth record'),
]

CLAIMS = [
    ('a claim of no items', GROUND + [REQ()], 'bound 2'),
    ('a claim of four items', GROUND + [REQ(getR(0), getB(0), getS(0), condition(0))], 'bound 2'),
    ('n 5 with room for five', GROUND + [REQ(*5 * [condition(0)])], 'refused 6 at the last record'),
    ('n 5 with room for four', GROUND + [REQ(*4 * [condition(0)], n=5)], 'refused 5 at the last record'),
    ('n 5 with room for six', GROUND + [REQ(*6 * [condition(0)], n=5)], 'refused 5 at the last record'),
    ('n 4 with room for five', GROUND + [REQ(*5 * [condition(0)], n=4), CLOSE()], 'refused 5 at the eighth record'),
    ('n 1 without an item', GROUND + [REQ(n=1)], 'refused 5 at the last record'),
    ('n 0 with an item', GROUND + [REQ(getR(0), n=0)], 'refused 5 at the last record'),
    ('n 65,535', GROUND + [REQ(getR(0), n=65535)], 'refused 5 at the last record'),
    ('n 8,192, whose items have 65,536 bytes', GROUND + [REQ(n=8192)], 'refused 5 at the last record'),
    ('n 8,193, whose items have 65,536 bytes and 8', GROUND + [REQ(getR(0), n=8193)], 'refused 5 at the last record'),
    ('n 256', GROUND + [REQ(n=256)], 'refused 5 at the last record'),
    ('n 256 with room for 256', GROUND + [REQ(*256 * [condition(0)])], 'refused 6 at the last record'),
    ('n 5 in a WHILE with room for five', GROUND + [WHILE(1, *5 * [condition(0)])] + TAIL, 'refused 6 at the eighth record'),
    ('n 5 in a WHILE with room for four', GROUND + [WHILE(1, *4 * [condition(0)], n=5)] + TAIL,
     'refused 5 at the eighth record'),
    ('item kind 4', GROUND + [REQ(item(4, 0, 0, 1))], 'refused 6 at the last record'),
    ('item kind 4 with a relation', GROUND + [REQ(item(4, 1, 0, 1)), CLOSE()], 'refused 6 at the eighth record'),
    ('item kind 255', GROUND + [REQ(item(255, 0, 0, 1))], 'refused 6 at the last record'),
    ('item kind 4 as the last of four', GROUND + [REQ(getR(0), getB(0), getS(0), item(4, 0, 0, 1))],
     'refused 6 at the last record'),
    ('getR with relation 1', GROUND + [REQ(item(0, 1, 0, 1))], 'refused 6 at the last record'),
    ('getB with relation 1', GROUND + [REQ(item(1, 1, 0, 1))], 'refused 6 at the last record'),
    ('getS with relation 3', GROUND + [REQ(item(2, 3, 0, 1))], 'refused 6 at the last record'),
    ('getR with relation 255', GROUND + [REQ(item(0, 255, 0, 1))], 'refused 6 at the last record'),
    ('relation 0 of a condition', GROUND + [REQ(condition(0, 0))], 'refused 6 at the last record'),
    ('relation 1 of a condition', GROUND + [REQ(condition(0, 1))], 'bound 2'),
    ('relation 6 of a condition', GROUND + [REQ(condition(0, 6))], 'bound 2'),
    ('relation 7 of a condition', GROUND + [REQ(condition(0, 7))], 'refused 6 at the last record'),
    ('relation 255 of a condition', GROUND + [WHILE(1, condition(0, 255))] + TAIL, 'refused 6 at the eighth record'),
    ('getR of 0', GROUND + [REQ(getR(0, 0))], 'refused 6 at the last record'),
    ('getR of 1,000,000, above the total', GROUND + [REQ(getR(0, 1000000))], 'bound 2'),
    ('getR of 1,000,001', GROUND + [REQ(getR(0, 1000001))], 'refused 6 at the last record'),
    ('getR of -1', GROUND + [REQ(getR(0, -1))], 'refused 6 at the last record'),
    ('getR of the lowest i32', GROUND + [REQ(getR(0, -2147483648))], 'refused 6 at the last record'),
    ('getB of 0', GROUND + [REQ(getB(0, 0))], 'refused 6 at the last record'),
    ('getB of 1,000,000', GROUND + [REQ(getB(0, 1000000))], 'bound 2'),
    ('getB of 1,000,001', GROUND + [REQ(getB(0, 1000001))], 'refused 6 at the last record'),
    ('getS of 0', GROUND + [REQ(getS(0, 0))], 'refused 6 at the last record'),
    ('getS of 1,000,000', GROUND + [REQ(getS(0, 1000000))], 'bound 2'),
    ('getS of 1,000,001', GROUND + [REQ(getS(0, 1000001))], 'refused 6 at the last record'),
    ('a condition on the lowest i32', GROUND + [REQ(condition(0, 3, -2147483648))], 'bound 2'),
    ('a condition on the highest i32', GROUND + [REQ(condition(0, 3, 2147483647))], 'bound 2'),
]

TRIES = [
    ('a TRY of one branch', GROUND + [TRY(branch(1))] + TAIL, 'bound 3'),
    ('a TRY of four branches', GROUND + [TRY(*4 * [branch(1, getR(0))])] + TAIL, 'bound 3'),
    ('no branches', GROUND + [TRY()], 'refused 6 at the last record'),
    ('no branches, more body', GROUND + [TRY(branch(1), n=0)] + TAIL, 'refused 5 at the eighth record'),
    ('five branches with room for five', GROUND + [TRY(*5 * [branch(1)])] + TAIL, 'refused 6 at the eighth record'),
    ('five branches with room for four', GROUND + [TRY(*4 * [branch(1)], n=5)] + TAIL, 'refused 5 at the eighth record'),
    ('four branches with room for five', GROUND + [TRY(*5 * [branch(1)], n=4)] + TAIL, 'refused 5 at the eighth record'),
    ('65,535 branches', GROUND + [TRY(branch(1), n=65535)] + TAIL, 'refused 5 at the eighth record'),
    ('one branch without its claim', GROUND + [TRY(u16(1))] + TAIL, 'refused 5 at the eighth record'),
    ('a branch with n 5 and room for five', GROUND + [TRY(branch(1), branch(1, *5 * [condition(0)]))] + TAIL,
     'refused 6 at the eighth record'),
    ('a branch with n 5 and room for four', GROUND + [TRY(branch(1), branch(1, *4 * [condition(0)], n=5))] + TAIL,
     'refused 5 at the eighth record'),
    ('n of the first branch one too many', GROUND + [TRY(branch(1, getR(0), n=2), branch(1))] + TAIL,
     'refused 5 at the eighth record'),
    ('n of the first branch one too few', GROUND + [TRY(branch(1, getR(0), n=0), n=1)] + TAIL, 'refused 5 at the eighth record'),
    # of the item its number 0 is read as the second branch's n, its amount 1 as the third branch, of block 1 and n 0
    ('the same bytes as three branches', GROUND + [TRY(branch(1, getR(0), n=0), n=3)] + TAIL, 'refused 9 at the eighth record'),
    # n 1 reads the next two branches, of block 1 and n 0, as one getB of bin 0 and amount 1
    ('n of the first branch takes two branches', GROUND + [TRY(branch(1, n=1), branch(1, n=0), branch(1, n=0), n=1)] + TAIL,
     'bound 3'),
    ('an amount of 0 in the last branch', GROUND + [TRY(branch(1, getR(0)), branch(1, getR(0, 0)))] + TAIL,
     'refused 6 at the eighth record'),
    ('relation 7 in the first branch', GROUND + [TRY(branch(1, condition(0, 7)), branch(1))] + TAIL,
     'refused 6 at the eighth record'),
]

# ---- 6 VALUE: field outside its stated set (those of expressions, claims and TRY stand above)

VALUE = [
    ('RES of 0', [RES(0)], 'bound 0'),
    ('RES of 1,000,000', [RES(1000000)], 'bound 0'),
    ('RES of 1,000,001', [RES(1000001)], 'refused 6 at the first record'),
    ('RES of 4,294,967,295', [RES(4294967295), BLOCK()], 'refused 6 at the first record'),
    ('RES of 1,000,001 in the middle', [RES(1), SYNC(), RES(1000001), BLOCK()], 'refused 6 at the third record'),
    ('RES of 1,000,001 last', [RES(1), RES(1), RES(1000001)], 'refused 6 at the last record'),
    ('BIN of 0', [BIN(0)], 'bound 0'),
    ('BIN of 1,000,000', [BIN(1000000)], 'bound 0'),
    ('BIN of 1,000,001', [BIN(1000001), BLOCK()], 'refused 6 at the first record'),
    ('BIN of 2,147,483,648', [RES(1), BIN(2147483648), BLOCK()], 'refused 6 at the second record'),
    ('VAR of the lowest i32', [VAR(-2147483648)], 'bound 0'),
    ('VAR of the highest i32', [VAR(2147483647)], 'bound 0'),
    ('ENTITY at 1,000,000', [CLASS(0), ENTITY(0, 1000000), BLOCK()], 'bound 1'),
    ('ENTITY at 1,000,001', [CLASS(0), ENTITY(0, 1000001), BLOCK()], 'refused 6 at the second record'),
    ('ENTITY at 4,294,967,295', [ENTITY(0, 4294967295), CLASS(0), BLOCK()], 'refused 6 at the first record'),
    ('PUTR of 0', GROUND + [PUTR(0, 0)], 'refused 6 at the last record'),
    ('PUTR of 1', GROUND + [PUTR(0, 1)], 'bound 3'),
    ('PUTR of 65,536', GROUND + [PUTR(0, 65536)], 'bound 3'),
    ('PUTR of 1,000,000', GROUND + [PUTR(0, 1000000)], 'bound 3'),
    ('PUTR of 1,000,001', GROUND + [PUTR(0, 1000001)], 'refused 6 at the last record'),
    ('PUTR of 4,294,967,295', GROUND + [PUTR(0, 4294967295), CLOSE()], 'refused 6 at the eighth record'),
    ('PUTB of 0', GROUND + [PUTB(0, 0), CLOSE()], 'refused 6 at the eighth record'),
    ('PUTB of 1', GROUND + [PUTB(0, 1)], 'bound 3'),
    ('PUTB of 1,000,000', GROUND + [PUTB(0, 1000000)], 'bound 3'),
    ('PUTB of 1,000,001', GROUND + [PUTB(0, 1000001)], 'refused 6 at the last record'),
    ('PUTS of 0', GROUND + [PUTS(0, 0)], 'refused 6 at the last record'),
    ('PUTS of 1', GROUND + [PUTS(0, 1)], 'bound 2'),
    ('PUTS of 64', GROUND + [PUTS(0, 64)], 'bound 2'),
    ('PUTS of 65', GROUND + [PUTS(0, 65)], 'refused 6 at the last record'),
    ('PUTS of 256', GROUND + [PUTS(0, 256), CLOSE()], 'refused 6 at the eighth record'),
    ('PUTS of 65,535', GROUND + [PUTS(0, 65535)], 'refused 6 at the last record'),
    ('START at 0', GROUND + [START(0, 0)], 'bound none'),
    ('START at 1,000,000', GROUND + [START(0, 1000000)], 'bound none'),
    ('START at 1,000,001', GROUND + [START(0, 1000001)], 'refused 6 at the last record'),
    ('START at 4,294,967,295', GROUND + [START(0, 4294967295), CLOSE()], 'refused 6 at the eighth record'),
    ('START with a share of 0', GROUND + [START(0, 0, share(0, 0))], 'refused 6 at the last record'),
    ('START with a share of 1,000,000', GROUND + [START(0, 0, share(0, 1000000))], 'bound none'),
    ('START with a share of 1,000,001', GROUND + [START(0, 0, share(0, 1000001))], 'refused 6 at the last record'),
    ('START with a share of 4,294,967,295', GROUND + [START(0, 0, share(0, 4294967295))], 'refused 6 at the last record'),
    ('DO of 0 and of 65,535 rounds', GROUND + [DO(0, 1), DO(65535, 1)] + TAIL, 'bound 65538'),
]

# Four resources, a class and its block: the seventh record is the first action.
FOUR = 4 * [RES(5)] + [CLASS(0), BLOCK()]
SHARES = [
    ('START with four shares', FOUR + [START(0, 0, share(0), share(1), share(2), share(3))], 'bound none'),
    ('n 5 with room for five shares', FOUR + [START(0, 0, share(0), share(1), share(2), share(3), share(4))],
     'refused 6 at the last record'),
    ('n 5 with room for four shares', FOUR + [START(0, 0, share(0), share(1), share(2), share(3), n=5)],
     'refused 5 at the last record'),
    ('n 3 with room for four shares', FOUR + [START(0, 0, share(0), share(1), share(2), share(3), n=3)],
     'refused 5 at the last record'),
    ('n 1 without a share', FOUR + [START(0, 0, n=1), CLOSE()], 'refused 5 at the seventh record'),
    ('n 0 with a share', FOUR + [START(0, 0, share(0), n=0)], 'refused 5 at the last record'),
    ('n 65,535 of shares', FOUR + [START(0, 0, share(0), n=65535)], 'refused 5 at the last record'),
    ('n 32,768, whose shares have 196,608 bytes', FOUR + [START(0, 0, n=32768)], 'refused 5 at the last record'),
    ('a share of 0 as the last of four', FOUR + [START(0, 0, share(0), share(1), share(2), share(3, 0)), CLOSE()],
     'refused 6 at the seventh record'),
]

# ---- 7 TWICE: a claim names one resource, bin or sync twice, or a START list one resource twice. An action that passes PLACE is
# at the earliest the second record.

# Two of each that a claim can take, a variable and a block: the ninth record is the first action.
PAIRS = [RES(5), RES(5), BIN(5), BIN(5), SYNC(), SYNC(), VAR(0), BLOCK()]
TWICE = [
    ('getR twice, in the earliest action', [BLOCK(), REQ(getR(0), getR(0))], 'refused 7 at the second record'),
    ('getR twice', PAIRS + [REQ(getR(1), getR(1))], 'refused 7 at the last record'),
    ('getB twice', PAIRS + [REQ(getB(0), getB(0))], 'refused 7 at the last record'),
    ('getS twice', PAIRS + [REQ(getS(1), getS(1))], 'refused 7 at the last record'),
    ('getR twice, of other amounts', PAIRS + [REQ(getR(0, 1), getR(0, 2)), CLOSE()], 'refused 7 at the ninth record'),
    ('the first and the fourth item', PAIRS + [REQ(getR(0), getB(0), getS(0), getR(0))], 'refused 7 at the last record'),
    ('the second and the fourth item', PAIRS + [REQ(getR(0), getB(1), getR(1), getB(1))], 'refused 7 at the last record'),
    ('the third and the fourth item', PAIRS + [REQ(getR(0), getB(0), getS(1), getS(1))], 'refused 7 at the last record'),
    ('twice around a condition', PAIRS + [REQ(getB(1), condition(0), getB(1))], 'refused 7 at the last record'),
    ('twice in the middle', PAIRS + [CLOSE(), REQ(getS(0), getS(0)), CLOSE()], 'refused 7 at the tenth record'),
    ('twice in a WHILE', PAIRS + [WHILE(1, getR(0), getR(0)), BLOCK()], 'refused 7 at the ninth record'),
    ('twice in the first branch', PAIRS + [TRY(branch(1, getR(0), getR(0)), branch(1)), BLOCK()],
     'refused 7 at the ninth record'),
    ('twice in the fourth branch', PAIRS + [TRY(branch(1), branch(1), branch(1), branch(1, getS(0), getB(0), getS(0))), BLOCK()],
     'refused 7 at the ninth record'),
    ('twice in a START list', GROUND + [START(0, 0, share(0), share(0))], 'refused 7 at the last record'),
    ('twice in a START list, of other amounts', GROUND + [START(0, 0, share(0, 1), share(0, 2)), CLOSE()],
     'refused 7 at the eighth record'),
    ('the first and the fourth share', FOUR + [START(0, 0, share(0), share(1), share(2), share(0))],
     'refused 7 at the last record'),
    ('twice of a thing not declared', PAIRS + [REQ(getR(65535), getR(65535))], 'refused 7 at the last record'),
    ('two resources', PAIRS + [REQ(getR(0), getR(1), getB(1), getB(0))], 'bound 0'),
    ('one number in three kinds', PAIRS + [REQ(getR(1), getB(1), getS(1), condition(0))], 'bound 0'),
    ('one variable in four conditions', PAIRS + [REQ(condition(0), condition(0), condition(0, 6), condition(0))], 'bound 0'),
    ('one resource in two branches', PAIRS + [TRY(branch(1, getR(0)), branch(1, getR(0)), branch(1, getR(0), getR(1))), BLOCK()],
     'bound 0'),
    ('one resource in two claims', PAIRS + [REQ(getR(0)), REQ(getR(0))], 'bound 0'),
    ('numbers alike in their low byte', PAIRS + [REQ(getR(0), getR(256))], 'refused 8 at the last record'),
]

# ---- 8 NAME: number of a thing not declared, or a local not in 0..7

NAME = [
    ('CLASS, and no block', [CLASS(0)], 'refused 8 at the first record'),
    ('CLASS of block 1 of one', [CLASS(1), BLOCK()], 'refused 8 at the first record'),
    ('CLASS of block 65,535', [CLASS(65535), BLOCK()], 'refused 8 at the first record'),
    ('CLASS of block 256 of 256', [CLASS(256)] + 256 * [BLOCK()], 'refused 8 at the first record'),
    ('CLASS of block 255 of 256', [CLASS(255)] + 256 * [BLOCK()], 'bound 0'),
    ('the second CLASS', [CLASS(0), CLASS(1), BLOCK()], 'refused 8 at the second record'),
    ('ENTITY, and no class', [ENTITY(0)], 'refused 8 at the first record'),
    ('ENTITY of class 1 of one', [CLASS(0), ENTITY(1), BLOCK()], 'refused 8 at the second record'),
    ('ENTITY of class 64 of 64', 64 * [CLASS(0)] + [ENTITY(64), BLOCK()], 'refused 8 at record 65'),
    ('ENTITY of class 63 of 64', 64 * [CLASS(0)] + [ENTITY(63), BLOCK()], 'bound 1'),
    ('ENTITY before its class', [ENTITY(1), CLASS(0), CLASS(0), BLOCK()], 'bound 1'),
] + [
    (f'{name} of one that is not there', GROUND + [action], 'refused 8 at the last record')
    for name, action in (
        ('SET', SET(1, LITERAL)), ('SET 65,535', SET(65535, LITERAL)), ('LSET 8', LSET(8, LITERAL)),
        ('LSET 256', LSET(256, LITERAL)), ('LSET 65,535', LSET(65535, LITERAL)), ('DO', DO(1, 1)), ('DO 65,535', DO(1, 65535)),
        ('PUTR', PUTR(1)), ('PUTR 256', PUTR(256)), ('PUTB', PUTB(1)), ('PUTS', PUTS(1)), ('BECOME', BECOME(1)),
        ('getR', REQ(getR(1))), ('getB', REQ(getB(1))), ('getS', REQ(getS(1))), ('condition', REQ(condition(1))),
        ('getR 65,535', REQ(getR(65535))), ('the last of four items', REQ(getR(0), getB(0), getS(0), condition(1))),
        ('TRY', TRY(branch(1))), ('WHILE', WHILE(1)), ('START', START(1)), ('a share', START(0, 0, share(1))),
        ('the last share', START(0, 0, share(0), share(2))),
        ('a global in HOLD', HOLD(global_(1))), ('a global in PRIO', PRIO(global_(1))), ('a global in TRACE', TRACE(global_(1))),
        ('a global in SET', SET(0, global_(1))), ('a global in LSET', LSET(0, global_(1))),
        ('a local in HOLD', HOLD(local(8))), ('a local in PRIO', PRIO(local(8))), ('a local in TRACE', TRACE(local(8))),
        ('a local in SET', SET(0, local(8))), ('a local in LSET', LSET(7, local(8))),
        ('global -1', HOLD(global_(-1))), ('the lowest global', HOLD(global_(-2147483648))),
        ('the highest global', HOLD(global_(2147483647))), ('global 256', HOLD(global_(256))),
        ('global 65,536', HOLD(global_(65536))), ('local -1', HOLD(local(-1))), ('the lowest local', HOLD(local(-2147483648))),
        ('the highest local', HOLD(local(2147483647))), ('local 65,536', HOLD(local(65536))),
        ('a global at the end of a tree', HOLD(ADD, ADD, LITERAL, global_(0), global_(1))))
] + [
    ('LSET 7 and local 7', GROUND + [LSET(7, local(7))], 'bound 2'),
    ('LSET 0 and local 0', GROUND + [LSET(0, local(0))], 'bound 2'),
    ('any literal', GROUND + [HOLD(ADD, literal(-1), literal(2147483647))], 'bound 2'),
    ('a global without a variable', [BLOCK(), HOLD(global_(0)), CLOSE()], 'refused 8 at the second record'),
    ('a local without a variable', [BLOCK(), HOLD(local(0)), LSET(0, LITERAL)], 'bound 0'),
    ('PUTR of one that is not there, in the middle', GROUND + [PUTR(1), CLOSE()], 'refused 8 at the eighth record'),
    ('a branch to a block that is not there', GROUND + [TRY(branch(1), branch(1), branch(1), branch(2))] + TAIL,
     'refused 8 at the eighth record'),
    ('a branch with a bin that is not there', GROUND + [TRY(branch(1, getR(0)), branch(1, getR(0), getB(1)))] + TAIL,
     'refused 8 at the eighth record'),
    ('WHILE with a sync that is not there', GROUND + [WHILE(1, getS(1))] + TAIL, 'refused 8 at the eighth record'),
    ('a bin by a resource\'s number', [RES(1), RES(1), BIN(1), BLOCK(), REQ(getR(1), getB(1))], 'refused 8 at the last record'),
    ('a sync by a bin\'s number', [BIN(1), BIN(1), SYNC(), BLOCK(), BECOME(1)], 'refused 8 at the last record'),
    ('a variable by a sync\'s number', [SYNC(), SYNC(), VAR(1), BLOCK(), SET(1, LITERAL)], 'refused 8 at the last record'),
    ('a class by a block\'s number', [CLASS(0), BLOCK(), BLOCK(), START(1)], 'refused 8 at the last record'),
    ('the 32nd of each', 32 * [RES(1)] + 32 * [BIN(1)] + 32 * [SYNC()] + 32 * [VAR(1)]
     + [BLOCK(), REQ(getR(31), getB(31), getS(31), condition(31)), SET(31, global_(31)), PUTR(31), PUTB(31), PUTS(31),
        BECOME(31)], 'bound 0'),
    ('resource 32 of 32', 32 * [RES(1)] + [BLOCK(), PUTR(31), PUTR(32)], 'refused 8 at the last record'),
    ('variable 32 of 32', 32 * [VAR(1)] + [BLOCK(), HOLD(global_(32)), HOLD(global_(31))], 'refused 8 at record 34'),
    ('class 64 of 64', 64 * [CLASS(0)] + [BLOCK(), START(63), START(64)], 'refused 8 at the last record'),
    ('block 256 of 256', [BLOCK(), DO(0, 255), DO(0, 256)] + 255 * [BLOCK()], 'refused 8 at the third record'),
    ('two that are not there', GROUND + [PUTR(1), PUTB(1)], 'refused 8 at the eighth record'),
]

# ---- 9 ORDER: DO, TRY or WHILE names a block not greater than its own. Here too the second record is the earliest.

ORDER = [
    ('DO of its own block', [BLOCK(), DO(1, 0)], 'refused 9 at the second record'),
    ('DO 0 of its own block', [BLOCK(), DO(0, 0), CLOSE()], 'refused 9 at the second record'),
    ('DO of an earlier block', [BLOCK(), BLOCK(), DO(1, 0)], 'refused 9 at the last record'),
    ('DO of its own block, the second of three', [BLOCK(), BLOCK(), DO(1, 1), BLOCK()], 'refused 9 at the third record'),
    ('DO of the next block', [BLOCK(), DO(1, 1), BLOCK()], 'bound 0'),
    ('TRY of its own block', [BLOCK(), TRY(branch(0))], 'refused 9 at the second record'),
    ('TRY of an earlier block', [BLOCK(), BLOCK(), TRY(branch(0)), BLOCK()], 'refused 9 at the third record'),
    ('the first branch of two', [BLOCK(), TRY(branch(0), branch(1)), BLOCK()], 'refused 9 at the second record'),
    ('the last branch of two', [BLOCK(), TRY(branch(1), branch(0)), BLOCK()], 'refused 9 at the second record'),
    ('the third branch of four', [BLOCK(), TRY(branch(1), branch(1), branch(0), branch(1)), BLOCK()],
     'refused 9 at the second record'),
    ('the fourth branch of four', [BLOCK(), BLOCK(), TRY(branch(2), branch(2), branch(2), branch(1)), BLOCK()],
     'refused 9 at the third record'),
    ('WHILE of its own block', [BLOCK(), WHILE(0)], 'refused 9 at the second record'),
    ('WHILE of an earlier block', [BLOCK(), BLOCK(), WHILE(0)], 'refused 9 at the last record'),
    ('DO of its own block in the middle', [CLASS(0), BLOCK(), CLOSE(), DO(1, 0), CLOSE(), BLOCK()],
     'refused 9 at the fourth record'),
    ('DO of its own block last', GROUND + [CLOSE(), DO(1, 0)], 'refused 9 at the last record'),
    ('DO of block 255 in block 255', 256 * [BLOCK()] + [DO(1, 255)], 'refused 9 at the last record'),
    ('DO of block 0 in block 255', 256 * [BLOCK()] + [DO(1, 0)], 'refused 9 at the last record'),
    ('WHILE of block 254 in block 255', 256 * [BLOCK()] + [WHILE(254)], 'refused 9 at the last record'),
    ('DO of block 255 in block 254', 255 * [BLOCK()] + [DO(1, 255), BLOCK()], 'bound 0'),
    ('START of its own block is no ORDER', [CLASS(0), BLOCK(), START(0)], 'bound none'),
    ('START of an earlier block is no ORDER', [CLASS(0), BLOCK(), BLOCK(), START(0)], 'bound none'),
    ('two that are out of order', [BLOCK(), BLOCK(), WHILE(1), DO(1, 0)], 'refused 9 at the third record'),
]

# ---- 10 DEEP: a class body nests over 8 blocks, itself included. A CLASS is never the last record of such a model.

DEEP = [
    ('eight blocks deep', [CLASS(0), ENTITY(0)] + chain(8), 'bound 15'),
    ('nine blocks deep', [CLASS(0), ENTITY(0)] + chain(9), 'refused 10 at the first record'),
    ('nine blocks deep, in the middle', [RES(1), CLASS(0), ENTITY(0)] + chain(9), 'refused 10 at the second record'),
    ('nine blocks deep, behind its entity', [ENTITY(0), CLASS(0)] + chain(9), 'refused 10 at the second record'),
    ('nine blocks deep without an entity', [VAR(0), SYNC(), CLASS(0)] + chain(9), 'refused 10 at the third record'),
    ('eight deep through TRY', [CLASS(0), ENTITY(0)] + chain(8, lambda b: TRY(branch(b))), 'bound 15'),
    ('nine deep through TRY', [CLASS(0)] + chain(9, lambda b: TRY(branch(b))), 'refused 10 at the first record'),
    ('eight deep through WHILE', [CLASS(0)] + chain(8, lambda b: WHILE(b)), 'bound none'),
    ('nine deep through WHILE', [CLASS(0)] + chain(9, lambda b: WHILE(b)), 'refused 10 at the first record'),
    ('eight deep through DO 0', [CLASS(0), ENTITY(0)] + chain(8, lambda b: DO(0, b)), 'bound 2'),
    ('nine deep through DO 0', [CLASS(0), ENTITY(0)] + chain(9, lambda b: DO(0, b)), 'refused 10 at the first record'),
    ('nine deep through all three', [CLASS(0)] + chain(9, lambda b: (DO(1, b), TRY(branch(b)), WHILE(b))[b % 3]),
     'refused 10 at the first record'),
    ('nine deep by the last branch',
     [CLASS(0), BLOCK(), TRY(branch(9), branch(9), branch(9), branch(1))] + chain(8, first=1) + [BLOCK()],
     'refused 10 at the first record'),
    ('eight deep by the last branch',
     [CLASS(0), BLOCK(), TRY(branch(8), branch(8), branch(8), branch(1))] + chain(7, first=1) + [BLOCK()],
     'bound 0'),
    ('nine deep by the first branch', [CLASS(0), BLOCK(), TRY(branch(1), branch(9))] + chain(8, first=1) + [BLOCK()],
     'refused 10 at the first record'),
    ('nine deep by the last action', [CLASS(0), BLOCK(), CLOSE(), DO(1, 9), DO(1, 1)] + chain(8, first=1) + [BLOCK()],
     'refused 10 at the first record'),
    ('a short way first, then nine', [CLASS(0), BLOCK(), DO(1, 5), DO(1, 1)] + chain(8, first=1),
     'refused 10 at the first record'),
    ('nine, then a short way', [CLASS(0), BLOCK(), DO(1, 1), DO(1, 5)] + chain(8, first=1), 'refused 10 at the first record'),
    ('a short way first, then eight', [CLASS(0), BLOCK(), DO(1, 5), DO(1, 1)] + chain(7, first=1), 'bound 0'),
    ('nine blocks, two of them side by side', [CLASS(0), BLOCK(), DO(1, 1), DO(1, 8)] + chain(7, first=1) + [BLOCK()],
     'bound 0'),
    ('nine deep, and no class', chain(9), 'bound 0'),
    ('256 deep, and no class', chain(256), 'bound 0'),
    ('256 deep, a class of the last eight', [CLASS(248), ENTITY(0)] + chain(256), 'bound 15'),
    ('256 deep, a class of the last nine', [CLASS(247)] + chain(256), 'refused 10 at the first record'),
    ('256 deep, a class of all', [CLASS(0)] + chain(256), 'refused 10 at the first record'),
    ('the second class is too deep', [CLASS(1), CLASS(0)] + chain(9), 'refused 10 at the second record'),
    ('the first class is too deep', [CLASS(0), CLASS(1)] + chain(9), 'refused 10 at the first record'),
    ('both classes are too deep', [RES(1), CLASS(1), CLASS(0)] + chain(10), 'refused 10 at the second record'),
    ('the 64th class is too deep', 63 * [CLASS(1)] + [CLASS(0)] + chain(9), 'refused 10 at record 64'),
    ('two classes of the last eight blocks', [CLASS(2), CLASS(3), ENTITY(0), ENTITY(1)] + chain(10), 'bound 28'),
    ('START does not nest', [CLASS(b) for b in range(10)] + [ENTITY(0)] + chain(10, lambda b: START(b)), 'bound 19'),
    ('START at the bottom of eight blocks', [CLASS(0), CLASS(8), ENTITY(0)] + chain(8) + [START(1)] + chain(8, first=8),
     'bound 31'),
]

# ---- samplers and draws (document 02, One)

# Lowest and highest that differ by as much as they may, and by one more.
WIDEST = [(0, 1000000), (-1000000, 0), (-2147483648, -2146483648), (2146483647, 2147483647)]
TOO_WIDE = [(0, 1000001), (-1000001, 0), (-500000, 500001), (-2147483648, 2147483647), (-1, 2147483647), (0, 2147483647)]
# A sampler, a class of one entity, and its block: the fifth record is the first action.
DRAWN = [SAMPLER(4, 7), CLASS(0), ENTITY(0), BLOCK()]

SAMPLERS = [
    (f'SAMPLER with seed {seed:,}', [SAMPLER(4, 7, seed), BLOCK()], 'bound 0') for seed in (1, 2, 2147483645, 2147483646)
] + [
    (f'SAMPLER with seed {seed:,}', [RES(1), SAMPLER(4, 7, seed), BLOCK()], 'refused 6 at the second record')
    for seed in (0, 2147483647, 2147483648, 4294967295)
] + [
    (f'SAMPLER of {lowest:,} to {highest:,}', [SAMPLER(lowest, highest)], 'bound 0')
    for lowest, highest in [(7, 7), (-7, -4), (-2147483648, -2147483648), (2147483647, 2147483647)] + WIDEST
] + [
    (f'SAMPLER of {lowest:,} to {highest:,}', [VAR(0), SAMPLER(4, 7), SAMPLER(lowest, highest)], 'refused 6 at the last record')
    for lowest, highest in [(7, 6), (-4, -7), (0, -2147483648), (2147483647, -2147483648)] + TOO_WIDE
] + [
    ('a draw', DRAWN + [HOLD(draw(0))], 'bound 2'),
    ('16 nodes, eight of them draws', DRAWN + [LSET(0, NEGATE, *7 * [ADD, draw(0)], draw(0))], 'bound 2'),
    ('a draw in each action that has an expression',
     [VAR(0)] + DRAWN + [HOLD(draw(0)), PRIO(draw(0)), SET(0, draw(0)), LSET(0, draw(0)), TRACE(draw(0))], 'bound 6'),
    ('the sixteenth of sixteen', 16 * [SAMPLER(4, 7)] + [BLOCK(), HOLD(draw(15))], 'bound 0'),
    ('a draw is a leaf', DRAWN + [HOLD(draw(0), LITERAL)], 'refused 5 at the last record'),
    ('a draw with a draw', DRAWN + [HOLD(draw(0), draw(0)), CLOSE()], 'refused 5 at the fifth record'),
    ('a tree that a draw leaves open', DRAWN + [HOLD(ADD, draw(0))], 'refused 5 at the last record'),
    ('17 draws and sums', DRAWN + [HOLD(*8 * [ADD, draw(0)], draw(0))], 'refused 5 at the last record'),
    ('op 11, and a sampler', DRAWN + [HOLD(node(11))], 'refused 6 at the last record'),
    ('op 266, with the low byte of a draw', DRAWN + [HOLD(node(266)), CLOSE()], 'refused 6 at the fifth record'),
    ('a draw without a sampler', GROUND + [HOLD(draw(0))], 'refused 8 at the last record'),
    ('the seventeenth of sixteen', 16 * [SAMPLER(4, 7)] + [BLOCK(), HOLD(draw(16)), CLOSE()], 'refused 8 at record 18'),
    ('a sampler by a variable\'s number', [VAR(0), VAR(0)] + DRAWN + [SET(1, draw(1))], 'refused 8 at the last record'),
    ('a variable by a sampler\'s number', [SAMPLER(4, 7), VAR(0)] + DRAWN + [SET(0, global_(1))], 'refused 8 at the last record'),
] + [
    (f'a draw of sampler {number:,} in {name}', [VAR(0)] + DRAWN + [action(draw(number))], 'refused 8 at the last record')
    for number, name, action in (
        (1, 'HOLD', HOLD), (1, 'PRIO', PRIO), (1, 'TRACE', TRACE), (1, 'SET', lambda e: SET(0, e)),
        (1, 'LSET', lambda e: LSET(0, e)), (16, 'HOLD', HOLD), (256, 'HOLD', HOLD), (65536, 'HOLD', HOLD), (-1, 'HOLD', HOLD),
        (-2147483648, 'HOLD', HOLD), (2147483647, 'HOLD', HOLD))
] + [
    ('a draw that isn\'t there at the end of a tree', DRAWN + [HOLD(LESSER, draw(0), draw(1)), CLOSE()],
     'refused 8 at the fifth record'),
    ('PLACE before MANY, SIZE and VALUE of a SAMPLER', 16 * [SAMPLER(4, 7)] + [BLOCK(), longer(SAMPLER(7, 4, 0))],
     'refused 3 at the last record'),
    ('MANY before SIZE of a SAMPLER', 16 * [SAMPLER(4, 7)] + [shorter(SAMPLER(4, 7)), BLOCK()], 'refused 4 at record 17'),
    ('MANY before VALUE of a SAMPLER', 16 * [SAMPLER(4, 7)] + [SAMPLER(7, 4, 0)], 'refused 4 at the last record'),
    ('SIZE before VALUE of a SAMPLER', [longer(SAMPLER(7, 4, 0))], 'refused 5 at the first record'),
    ('VALUE of a SAMPLER before NAME of a draw', [SAMPLER(4, 7, 0), BLOCK(), HOLD(draw(1))], 'refused 6 at the first record'),
    ('VALUE of op 11 before NAME of a draw', DRAWN + [HOLD(ADD, draw(1), node(11))], 'refused 6 at the last record'),
]

# ---- which comes first: record by record 1 to 7, then record by record 8 and 9, then class by class 10

PRECEDENCE = [
    ('KIND at 0 before SHORT at 100', [record(0)] + 12 * [RES(1)] + [b'\1'], 'refused 2 at the first record'),
    ('VALUE at the first before KIND at the second', [RES(1000001), record(0)], 'refused 6 at the first record'),
    ('KIND at the second before VALUE at the third', [RES(1), record(0), RES(1000001)], 'refused 2 at the second record'),
    ('TWICE at the second before SHORT at the third', [BLOCK(), REQ(getR(0), getR(0)), b'\0'], 'refused 7 at the second record'),
    ('SIZE at the second before PLACE at the third', [BLOCK(), longer(CLOSE()), RES(1)], 'refused 5 at the second record'),
    ('SHORT before KIND', [cut(record(0, u32(0)))], 'refused 1 at the first record'),
    ('SHORT by its length before KIND', [u16(1) + u16(31)], 'refused 1 at the first record'),
    ('SHORT before PLACE', [cut(HOLD(LITERAL))], 'refused 1 at the first record'),
    ('SHORT before MANY', 32 * [RES(1)] + [cut(RES(1))], 'refused 1 at the last record'),
    ('KIND before PLACE', [record(31, LITERAL), BLOCK()], 'refused 2 at the first record'),
    ('PLACE before MANY', 32 * [RES(1)] + [BLOCK(), RES(1)], 'refused 3 at the last record'),
    ('PLACE before MANY, of classes', 64 * [CLASS(0)] + [BLOCK(), CLASS(0), CLOSE()], 'refused 3 at record 66'),
    ('PLACE before SIZE', [longer(HOLD(LITERAL)), BLOCK()], 'refused 3 at the first record'),
    ('PLACE before SIZE, of a declaration', [BLOCK(), shorter(RES(1))], 'refused 3 at the last record'),
    ('PLACE before VALUE', [PUTR(0, 0), BLOCK()], 'refused 3 at the first record'),
    ('PLACE before VALUE, of a declaration', [BLOCK(), RES(1000001), CLOSE()], 'refused 3 at the second record'),
    ('PLACE before TWICE', [REQ(getR(0), getR(0)), BLOCK()], 'refused 3 at the first record'),
    ('MANY before SIZE', 32 * [RES(1)] + [longer(RES(1))], 'refused 4 at the last record'),
    ('MANY before SIZE, of blocks', 256 * [BLOCK()] + [longer(BLOCK()), CLOSE()], 'refused 4 at record 257'),
    ('MANY before SIZE, of actions', [BLOCK()] + 1024 * [CLOSE()] + [HOLD()], 'refused 4 at the last record'),
    ('MANY before VALUE', 32 * [BIN(1)] + [BIN(1000001)], 'refused 4 at the last record'),
    ('MANY before TWICE', [BLOCK()] + 1024 * [CLOSE()] + [REQ(getR(0), getR(0))], 'refused 4 at the last record'),
    ('SIZE before VALUE', [longer(RES(1000001))], 'refused 5 at the first record'),
    ('SIZE before VALUE, of a count', GROUND + [longer(PUTS(0, 0))], 'refused 5 at the last record'),
    ('SIZE before VALUE, of an item', GROUND + [REQ(getR(0, 0), n=2), CLOSE()], 'refused 5 at the eighth record'),
    ('SIZE before VALUE, of nodes', GROUND + [HOLD(node(11), node(11))], 'refused 5 at the last record'),
    ('SIZE before TWICE', GROUND + [REQ(getR(0), getR(0), n=3)], 'refused 5 at the last record'),
    ('VALUE before TWICE', GROUND + [REQ(getR(0, 0), getR(0, 0))], 'refused 6 at the last record'),
    ('VALUE of a third item before TWICE', GROUND + [REQ(getR(0), getR(0), condition(0, 7))], 'refused 6 at the last record'),
    ('VALUE of n before TWICE', GROUND + [REQ(*5 * [getR(0)])], 'refused 6 at the last record'),
    ('VALUE of a later branch before TWICE', GROUND + [TRY(branch(1, getR(0), getR(0)), branch(1, getB(0, 0)))] + TAIL,
     'refused 6 at the eighth record'),
    ('VALUE of the offset before TWICE', GROUND + [START(0, 1000001, share(0), share(0))], 'refused 6 at the last record'),
    ('PLACE, MANY, SIZE and VALUE at once', 32 * [RES(1)] + [BLOCK(), longer(RES(1000001))], 'refused 3 at the last record'),
    ('MANY, SIZE and VALUE at once', 32 * [RES(1)] + [longer(RES(1000001)), BLOCK()], 'refused 4 at record 33'),
    ('MANY, SIZE, VALUE and TWICE at once', [BLOCK()] + 1024 * [REQ()] + [REQ(*5 * [getR(0)], n=6)],
     'refused 4 at the last record'),
    ('SIZE, VALUE and TWICE at once', [BLOCK()] + 1023 * [REQ()] + [REQ(*5 * [getR(0)], n=6)], 'refused 5 at the last record'),
    ('TWICE before NAME', GROUND + [REQ(getR(9), getR(9))], 'refused 7 at the last record'),
    ('TWICE before NAME of the block', GROUND + [TRY(branch(9, getR(0), getR(0)))], 'refused 7 at the last record'),
    ('TWICE at the last before NAME at the first', [CLASS(9), BLOCK(), REQ(getR(0), getR(0))], 'refused 7 at the last record'),
    ('SHORT at the last before NAME at the first', [CLASS(9), BLOCK(), b'\0'], 'refused 1 at the last record'),
    ('KIND at the last before NAME at the first', [ENTITY(9), BLOCK(), record(0)], 'refused 2 at the last record'),
    ('MANY at the last before NAME at the first', [CLASS(9)] + 33 * [RES(1)], 'refused 4 at the last record'),
    ('VALUE at the last before ORDER at the second', [BLOCK(), DO(1, 0), PUTS(0, 0)], 'refused 6 at the last record'),
    ('SIZE at the last before DEEP at the first', [CLASS(0)] + chain(9) + [longer(CLOSE())], 'refused 5 at the last record'),
    ('ORDER in an earlier record before NAME', [BLOCK(), DO(1, 0), PUTR(9)], 'refused 9 at the second record'),
    ('NAME in an earlier record before ORDER', [BLOCK(), PUTR(9), DO(1, 0)], 'refused 8 at the second record'),
    ('NAME and ORDER in one TRY', [BLOCK(), TRY(branch(0), branch(9))], 'refused 8 at the second record'),
    ('NAME and ORDER in one TRY, NAME first', [BLOCK(), TRY(branch(9), branch(0))], 'refused 8 at the second record'),
    ('ORDER of the block, NAME of an item', [BLOCK(), TRY(branch(0, getR(9)))], 'refused 8 at the second record'),
    ('ORDER of a WHILE, NAME of its item', [BLOCK(), WHILE(0, getS(0)), CLOSE()], 'refused 8 at the second record'),
    ('ORDER in the third, NAME in the second', [CLASS(0), CLASS(7), BLOCK(), DO(1, 0)], 'refused 8 at the second record'),
    ('NAME at the last before DEEP at the first', [CLASS(0)] + chain(9) + [PUTR(0)], 'refused 8 at the last record'),
    ('ORDER at the last before DEEP at the first', [CLASS(0)] + chain(9) + [DO(1, 8)], 'refused 9 at the last record'),
    ('NAME of the second class before DEEP of the first', [CLASS(0), CLASS(9)] + chain(9), 'refused 8 at the second record'),
]

# ---- how long a file may be

LONG = TRY(*4 * [branch(1, *4 * [condition(0)])])  # 150 bytes
HEAD = [VAR(0), CLASS(0), ENTITY(0), BLOCK()]  # 28 bytes
DO_0, HOLD_1 = DO(0, 1), HOLD(LITERAL)  # 8 and 10 bytes

SIZES = [
    # 28 + 436 × 150 + 4 × 8 + 7 × 10 + 4 bytes; 436 TRYs weigh 2 each, the others 1
    ('65,534 bytes', HEAD + 436 * [LONG] + 4 * [DO_0] + 7 * [HOLD_1] + [BLOCK()], 'bound 884'),
    ('65,534 bytes, NAME at the last record', HEAD + 436 * [LONG] + 4 * [DO_0] + [BLOCK()] + 6 * [HOLD_1] + [HOLD(global_(1))],
     'refused 8 at the last record'),
    ('65,534 bytes, VALUE at the last record', HEAD + 436 * [LONG] + 4 * [DO_0] + [BLOCK()] + 6 * [HOLD_1] + [HOLD(node(11))],
     'refused 6 at the last record'),
    ('65,534 bytes, ORDER at the last record', HEAD + 436 * [LONG] + 3 * [DO_0] + 7 * [HOLD_1] + [BLOCK(), DO_0],
     'refused 9 at the last record'),
    ('65,535 bytes: 65,534 and a zero', HEAD + 436 * [LONG] + 4 * [DO_0] + 7 * [HOLD_1] + [BLOCK(), b'\0'],
     'refused 1 at the last record'),
    ('65,535 bytes, a VALUE in front', [RES(1000001)] + 65527 * [b'\0'], 'refused 6 at the first record'),
    ('65,535 zeros', 65535 * [b'\0'], 'refused 1 at the first record'),
    ('65,535 bytes of one SYNC', [u16(65533) + u16(3)] + 65531 * [b'\0'], 'refused 5 at the first record'),
    ('65,535 bytes of one record of kind 0', [u16(65533) + u16(0)] + 65531 * [b'\0'], 'refused 2 at the first record'),
    ('65,535 bytes, the last record one short of its length', [u16(65534) + u16(3)] + 65531 * [b'\0'],
     'refused 1 at the first record'),
    ('65,534 bytes of a BLOCK and a HOLD', [BLOCK(), u16(65528) + u16(16)] + 65526 * [b'\0'], 'refused 5 at the second record'),
    ('65,536 bytes, else in order', HEAD + 436 * [LONG] + 3 * [DO_0] + 8 * [HOLD_1] + [BLOCK()],
     'refused 4 at the first record'),
    ('65,536 bytes of 255', 65536 * [b'\xff'], 'refused 4 at the first record'),
    ('65,536 zeros', 65536 * [b'\0'], 'refused 4 at the first record'),
    ('65,536 bytes, a KIND in front', [record(0)] + 65532 * [b'\0'], 'refused 4 at the first record'),
    ('65,537 zeros', 65537 * [b'\0'], 'refused 4 at the first record'),
    ('69,999 bytes of 6', 69999 * [b'\6'], 'refused 4 at the first record'),
]

# ---- the bound

WEIGHTS = [
    ('an empty file', [], 'bound 0'),
    ('declarations alone', [RES(1), BIN(1), SYNC(), VAR(1)], 'bound 0'),
    ('one BLOCK', [BLOCK()], 'bound 0'),
    ('the example of document 01', [RES(1), CLASS(0), ENTITY(0), ENTITY(0), BLOCK(), REQ(getR(0)), HOLD(literal(3)), PUTR(0)],
     'bound 10'),
    ('a class without an entity', [CLASS(0), BLOCK(), CLOSE()], 'bound 0'),
    ('an entity with an empty body', [CLASS(0), ENTITY(0), BLOCK()], 'bound 1'),
    ('two entities of one class', [CLASS(0), ENTITY(0), ENTITY(0), BLOCK(), CLOSE()], 'bound 4'),
    ('two classes', [CLASS(0), CLASS(1), ENTITY(0), ENTITY(1), BLOCK(), CLOSE(), BLOCK(), CLOSE(), CLOSE()], 'bound 5'),
    ('two classes of one body', [CLASS(0), CLASS(0), ENTITY(1), ENTITY(0), BLOCK(), CLOSE()], 'bound 4'),
    ('a class of the last block', [CLASS(2), ENTITY(0), BLOCK(), CLOSE(), BLOCK(), CLOSE(), BLOCK(), CLOSE(), CLOSE()],
     'bound 3'),
] + [
    (f'{name} weighs 1', GROUND + [action], 'bound 2')
    for name, action in ACTIONS if name in ('HOLD', 'PRIO', 'SET', 'LSET', 'PUTS', 'BECOME', 'REQ', 'TRACE', 'CLOSE')
] + [
    ('PUTR weighs 2', GROUND + [PUTR(0)], 'bound 3'),
    ('PUTB weighs 2', GROUND + [PUTB(0)], 'bound 3'),
    ('every action of no block', GROUND + [a for name, a in ACTIONS if name not in ('DO', 'TRY', 'WHILE', 'START')], 'bound 14'),
    ('DO 0 of an empty block', GROUND + [DO(0, 1)] + TAIL, 'bound 2'),
    ('DO 0 of two actions', GROUND + [DO(0, 1)] + TAIL + [CLOSE(), PUTR(0)], 'bound 2'),
    ('DO 1 of an empty block', GROUND + [DO(1, 1)] + TAIL, 'bound 3'),
    ('DO 3 of an empty block', GROUND + [DO(3, 1)] + TAIL, 'bound 5'),
    ('DO 3 of a block of 2', GROUND + [DO(3, 1)] + TAIL + [PUTR(0)], 'bound 11'),
    ('two DOs of one block', GROUND + [DO(2, 1), DO(3, 1)] + TAIL + [PUTR(0)], 'bound 18'),
    ('DO in a DO', GROUND + [DO(2, 1), BLOCK(), DO(3, 2), BLOCK(), CLOSE()], 'bound 18'),
    ('DO past a block that nobody reaches', GROUND + [DO(2, 2), BLOCK(), DO(9, 2), BLOCK(), CLOSE()], 'bound 6'),
    ('TRY, the largest first', GROUND + [TRY(branch(1), branch(2)), BLOCK(), CLOSE(), CLOSE(), CLOSE(), BLOCK(), CLOSE()],
     'bound 6'),
    ('TRY, the largest last', GROUND + [TRY(branch(2), branch(1)), BLOCK(), CLOSE(), CLOSE(), CLOSE(), BLOCK(), CLOSE()],
     'bound 6'),
    ('TRY, the largest of three in the middle',
     GROUND + [TRY(branch(1), branch(2), branch(3)), BLOCK(), CLOSE(), BLOCK(), PUTR(0), CLOSE(), BLOCK(), PUTB(0)], 'bound 6'),
    ('TRY of four equal branches', GROUND + [TRY(*4 * [branch(1, getR(0))])] + TAIL + [CLOSE(), CLOSE()], 'bound 5'),
    ('TRY of the block after and of one it names', GROUND + [TRY(branch(1), branch(2)), BLOCK(), DO(4, 2), BLOCK(), CLOSE()],
     'bound 12'),
    ('START adds its class', [CLASS(0), CLASS(1), ENTITY(0), BLOCK(), START(1), BLOCK(), CLOSE()], 'bound 4'),
    ('START with a share', [RES(1), CLASS(0), CLASS(1), ENTITY(0), BLOCK(), START(1, 5, share(0)), BLOCK(), CLOSE()], 'bound 4'),
    ('two STARTs', [CLASS(0), CLASS(1), ENTITY(0), BLOCK(), START(1), START(1), BLOCK(), CLOSE()], 'bound 7'),
    ('START, and an entity of its class', [CLASS(0), CLASS(1), ENTITY(0), ENTITY(1), BLOCK(), START(1), BLOCK(), CLOSE()],
     'bound 6'),
    ('START in a DO', [CLASS(0), CLASS(2), ENTITY(0), BLOCK(), DO(3, 1), BLOCK(), START(1), BLOCK()], 'bound 11'),
    ('START of a class that starts another',
     [CLASS(0), CLASS(1), CLASS(2), ENTITY(0), BLOCK(), START(1), BLOCK(), START(2), BLOCK()],
     'bound 5'),
    ('START of a class with a lower number than its block',
     [CLASS(2), CLASS(0), ENTITY(1), BLOCK(), DO(1, 1), BLOCK(), START(0), BLOCK()],
     'bound 5'),
]

NONE = [
    ('WHILE', GROUND + [WHILE(1, condition(0))] + TAIL, 'bound none'),
    ('WHILE in a block that nobody reaches', [CLASS(1), ENTITY(0), BLOCK(), WHILE(1), BLOCK()], 'bound none'),
    ('WHILE without class or entity', [BLOCK(), WHILE(1), BLOCK()], 'bound none'),
    ('WHILE in a block of DO 0', GROUND + [DO(0, 1), BLOCK(), WHILE(2), BLOCK()], 'bound none'),
    ('WHILE as the last action', 255 * [BLOCK()] + 1023 * [CLOSE()] + [WHILE(255), BLOCK()], 'bound none'),
    ('START of its own block', [CLASS(0), ENTITY(0), BLOCK(), START(0)], 'bound none'),
    ('START of an earlier block', [CLASS(0), CLASS(1), ENTITY(1), BLOCK(), BLOCK(), START(0)], 'bound none'),
    ('START of its own block, which nobody reaches', [CLASS(0), CLASS(1), ENTITY(0), BLOCK(), BLOCK(), START(1)], 'bound none'),
    ('START of block 0 in block 255', [CLASS(0)] + 256 * [BLOCK()] + [START(0)], 'bound none'),
    ('START of the body of the DO that it stands in',
     [CLASS(0), CLASS(1), ENTITY(0), BLOCK(), DO(1, 1), BLOCK(), START(1)],
     'bound none'),
    ('START of a block between its class body and its own',
     [CLASS(0), CLASS(1), ENTITY(0), BLOCK(), DO(1, 2), BLOCK(), BLOCK(), START(1)],
     'bound none'),
    ('START of a later class with an earlier body', [CLASS(1), CLASS(0), ENTITY(0), BLOCK(), BLOCK(), START(1)], 'bound none'),
    ('one START of two goes back', [CLASS(0), CLASS(1), ENTITY(0), BLOCK(), START(1), START(0), BLOCK()], 'bound none'),
    ('START of the next block', [CLASS(0), CLASS(1), ENTITY(0), BLOCK(), START(1), BLOCK()], 'bound 3'),
    ('a REQ of conditions alone', GROUND + [REQ(condition(0))], 'bound 2'),
]


def near(less=0, first=0, more=()):
    """Three blocks from the block `first` on, whose first weighs 4,294,967,294 less `less`, and the actions `more`.

    The third is empty; the second weighs 1 + 65,534; the first 1 + 65,535 × 65,536 and 1 + 65,532 - less."""
    return [BLOCK(), DO(65535, first + 1), DO(65532 - less, first + 2), *more, BLOCK(), DO(65534, first + 2), BLOCK()]


def starting(count, starts):
    """The bodies of so many classes, each but the last with so many STARTs of the next.

    With two STARTs a class weighs 3 more than twice the next, so the one n before the last weighs 2^(n + 2) - 3."""
    return [r for b in range(count - 1) for r in [BLOCK()] + starts * [START(b + 1)]] + [BLOCK()]


def classes(count):
    return [CLASS(b) for b in range(count)]


def huge(first=0):
    """Five blocks from the block `first` on; with 1 added, they weigh 2^64, 2^48, 2^32, 2^16 and 1."""
    return [BLOCK(), DO(65535, first + 1), DO(65535, first + 2), DO(65535, first + 3), DO(65531, first + 4),
            BLOCK(), DO(65535, first + 2), DO(65535, first + 3), DO(65532, first + 4),
            BLOCK(), DO(65535, first + 3), DO(65533, first + 4), BLOCK(), DO(65534, first + 4), BLOCK()]


OVER = [
    ('a class of 4,294,967,294', [CLASS(0), ENTITY(0)] + near(1), 'bound 4294967294'),
    ('a class of 4,294,967,295', [CLASS(0), ENTITY(0)] + near(), 'bound 4294967295'),
    ('a class of 4,294,967,296', [CLASS(0), ENTITY(0)] + near(more=[CLOSE()]), 'bound over'),
    ('a class of 4,294,967,297', [RES(1), CLASS(0), ENTITY(0)] + near(more=[PUTR(0)]), 'bound over'),
    ('a class of 4,294,967,295 by its last action', [RES(1), CLASS(0), ENTITY(0)] + near(2, more=[PUTR(0)]), 'bound 4294967295'),
    ('a class of 4,294,967,296 by its last action', [RES(1), CLASS(0), ENTITY(0)] + near(1, more=[PUTR(0)]), 'bound over'),
    ('two entities of 4,294,967,295', [CLASS(0), CLASS(2), ENTITY(0), ENTITY(1)] + near(1), 'bound 4294967295'),
    ('two entities of 4,294,967,295, the small one first', [CLASS(0), CLASS(2), ENTITY(1), ENTITY(0)] + near(1),
     'bound 4294967295'),
    ('two entities of 4,294,967,296', [CLASS(0), CLASS(2), ENTITY(0), ENTITY(1)] + near(), 'bound over'),
    ('three entities of 4,294,967,296', [CLASS(0), CLASS(2), ENTITY(1), ENTITY(0), ENTITY(1)] + near(1), 'bound over'),
    ('two entities of 4,294,967,295 each', [CLASS(0), ENTITY(0), ENTITY(0)] + near(), 'bound over'),
    # 1 + 65,535 × 1,024, 1 + 1,020 and 1: 67,108,863
    ('64 entities of 67,108,863',
     [CLASS(0)] + 64 * [ENTITY(0)] + [BLOCK(), DO(65535, 1), DO(1020, 2), BLOCK(), DO(1022, 2), BLOCK()],
     'bound 4294967232'),
    ('64 entities of 67,108,864',
     [CLASS(0)] + 64 * [ENTITY(0)] + [BLOCK(), DO(65535, 1), DO(1021, 2), BLOCK(), DO(1022, 2), BLOCK()],
     'bound over'),
    ('DO 1 to 4,294,967,295', [CLASS(0), ENTITY(0), BLOCK(), DO(1, 1)] + near(2, 1), 'bound 4294967295'),
    ('DO 1 to 4,294,967,296', [CLASS(0), ENTITY(0), BLOCK(), DO(1, 1)] + near(1, 1), 'bound over'),
    ('TRY to 4,294,967,295', [CLASS(0), ENTITY(0), BLOCK(), TRY(branch(3), branch(1))] + near(2, 1), 'bound 4294967295'),
    ('TRY to 4,294,967,296', [CLASS(0), ENTITY(0), BLOCK(), TRY(branch(1), branch(3))] + near(1, 1), 'bound over'),
    ('START to 4,294,967,295', [CLASS(0), CLASS(1), ENTITY(0), BLOCK(), START(1)] + near(2, 1), 'bound 4294967295'),
    ('START to 4,294,967,296', [CLASS(0), CLASS(1), ENTITY(0), BLOCK(), START(1)] + near(1, 1), 'bound over'),
    ('DO 2 of a block of 2^32 - 1', [CLASS(0), ENTITY(0), BLOCK(), DO(2, 1)] + near(0, 1, [CLOSE()]), 'bound over'),
    ('DO 0 of a block of 2^32 - 1', [CLASS(0), ENTITY(0), BLOCK(), DO(0, 1)] + near(0, 1, [CLOSE()]), 'bound 2'),
    ('DO 0 of a block of 2^32', [CLASS(0), ENTITY(0), BLOCK(), DO(0, 1)] + near(0, 1, [CLOSE(), CLOSE()]), 'bound 2'),
    ('a block of 2^32 that nobody reaches', [CLASS(2), ENTITY(0)] + near(more=[CLOSE(), CLOSE()]), 'bound 1'),
    ('a class of 2^32 + 1 without an entity', [CLASS(0)] + near(more=[CLOSE(), CLOSE()]), 'bound 0'),
    ('a class of 2^32 + 1, and an entity of another', [CLASS(0), CLASS(2), ENTITY(1), ENTITY(1)] + near(more=[CLOSE(), CLOSE()]),
     'bound 2'),
    ('WHILE beside a class of 2^32', [CLASS(0), ENTITY(0)] + near(more=[CLOSE()]) + [WHILE(3), BLOCK()], 'bound none'),
    ('a class of 2^64', [CLASS(0), ENTITY(0)] + huge(), 'bound over'),
    ('a class of 2^64 + 5', [CLASS(0), ENTITY(0), BLOCK(), *5 * [CLOSE()]] + huge()[1:], 'bound over'),
    ('a class of 2^48', [CLASS(1), ENTITY(0)] + huge(), 'bound over'),
    ('a class of 2^32 in a model of 2^64', [CLASS(2), ENTITY(0)] + huge(), 'bound over'),
    ('a class of 2^16 in a model of 2^64', [CLASS(3), ENTITY(0)] + huge(), 'bound 65536'),
    ('DO 0 of a block of 2^64 - 1', [CLASS(0), ENTITY(0), BLOCK(), DO(0, 1)] + huge(1), 'bound 2'),
    ('DO 1 of a block of 2^64 - 1', [CLASS(0), ENTITY(0), BLOCK(), DO(1, 1)] + huge(1), 'bound over'),
    ('eight blocks of DO 65,535', [CLASS(0), ENTITY(0)] + chain(8, lambda b: DO(65535, b)), 'bound over'),
    ('eight blocks of DO 65,535 under DO 0', [CLASS(0), ENTITY(0)] + chain(8, lambda b: DO(65535 if b > 1 else 0, b)),
     'bound 2'),
    ('31 classes of two STARTs', classes(31) + [ENTITY(0)] + starting(31, 2), 'bound 4294967293'),
    ('31 classes of two STARTs, and two more entities', classes(31) + [ENTITY(0), ENTITY(30), ENTITY(30)] + starting(31, 2),
     'bound 4294967295'),
    ('31 classes of two STARTs, and three more entities', classes(31) + [ENTITY(0)] + 3 * [ENTITY(30)] + starting(31, 2),
     'bound over'),
    ('32 classes of two STARTs', classes(32) + [ENTITY(0)] + starting(32, 2), 'bound over'),
    ('32 classes of two STARTs, an entity of the second', classes(32) + [ENTITY(1)] + starting(32, 2), 'bound 4294967293'),
]

# ---- models made to hurt: a program that weighs or measures a block each time that it is named does not end on these


def many(blocks, names):
    """So many blocks, each but the last with four actions that name the next."""
    return [r for b in range(blocks - 1) for r in [BLOCK()] + 4 * [names(b + 1)]] + [BLOCK()]


# 250 blocks of four actions; the body of class k is block 8k, and it nests 8 blocks, whose last starts class k + 1.
FOURS = [CLASS(8 * k) for k in range(32)] + [ENTITY(0)]

HOSTILE = [
    ('255 blocks of four DOs, and no class', many(256, lambda b: DO(1, b)), 'bound 0'),
    ('255 blocks of four DOs, a class of all', [CLASS(0), ENTITY(0)] + many(256, lambda b: DO(1, b)),
     'refused 10 at the first record'),
    # 4 (w + 2) of each block w: 0, 8, 40, 168, 680, 2,728, 10,920, 43,688
    ('255 blocks of four DOs, a class of the last eight', [CLASS(248), ENTITY(0)] + many(256, lambda b: DO(1, b)),
     'bound 43689'),
    ('250 blocks of four DOs, a START after each eighth', FOURS + many(250, lambda b: DO(1, b) if b % 8 else START(b // 8)),
     'bound over'),
    ('250 blocks of four DO 0, a START after each eighth', FOURS + many(250, lambda b: DO(0, b) if b % 8 else START(b // 8)),
     'bound 5'),
    ('250 blocks of four TRYs, a START after each eighth',
     FOURS + many(250, lambda b: TRY(branch(b), branch(b)) if b % 8 else START(b // 8)), 'bound over'),
    ('64 classes of a START each', classes(64) + [ENTITY(0)] + starting(64, 1), 'bound 127'),
    ('64 classes of 16 STARTs each', classes(64) + [ENTITY(0)] + starting(64, 16), 'bound over'),
    ('eight levels of 128 DOs', [CLASS(0), ENTITY(0)] + [r for b in range(7) for r in [BLOCK()] + 128 * [DO(1, b + 1)]]
     + [BLOCK()] + 128 * [CLOSE()], 'bound over'),
    ('eight levels of 128 DO 0', [CLASS(0), ENTITY(0)] + [r for b in range(7) for r in [BLOCK()] + 128 * [DO(0, b + 1)]]
     + [BLOCK()] + 128 * [CLOSE()], 'bound 129'),
    ('eight levels of 128 TRYs of four equal branches', [CLASS(0), ENTITY(0)]
     + [r for b in range(7) for r in [BLOCK()] + 128 * [TRY(*4 * [branch(b + 1)])]] + [BLOCK()] + 128 * [CLOSE()], 'bound over'),
    ('nine levels of 113 TRYs of four equal branches', [CLASS(0), ENTITY(0)]
     + [r for b in range(8) for r in [BLOCK()] + 113 * [TRY(*4 * [branch(b + 1)])]] + [BLOCK()] + 113 * [CLOSE()],
     'refused 10 at the first record'),
]

CASES = (WEIGHTS + NONE + OVER + HOSTILE + SHORT + KIND + PLACE + MANY + SIZE + EXPRESSIONS + CLAIMS + TRIES + VALUE + SHARES
         + TWICE + NAME + ORDER + DEEP + SAMPLERS + PRECEDENCE + SIZES)

# ---- the files

CRATE = pathlib.Path(__file__).resolve().parent.parent / 'crates' / 'try_cases'
ORDINALS = ('first', 'second', 'third', 'fourth', 'fifth', 'sixth', 'seventh', 'eighth', 'ninth', 'tenth')


def line(records, answer):
    """What the program prints of a case: the answer with its record's byte place."""
    if not answer.startswith('refused'):
        return answer
    number, _, which = answer.partition(' at ')
    words = which.split()
    if words[0] == 'record':
        index = int(words[1]) - 1
    else:
        index = len(records) - 1 if words[1] == 'last' else ORDINALS.index(words[1])
    assert index == 0 or index < len(records), answer
    return f'{number} at {sum(map(len, records[:index]))}'


def runs(records):
    """The records as (repeat, bytes): equal neighbours are one run, and so are neighbours that stand once."""
    out = []
    for piece, equal in itertools.groupby(records):
        left = len(list(equal))
        while left:
            repeat = min(left, 65535)
            if repeat == 1 and out and out[-1][0] == 1:
                out[-1] = (1, out[-1][1] + piece)
            else:
                out.append((repeat, piece))
            left -= repeat
    return out


def packed():
    out = u16(len(CASES))
    for _, records, _ in CASES:
        out += u16(len(runs(records))) + b''.join(u16(repeat) + u16(len(piece)) + piece for repeat, piece in runs(records))
    assert len(out) < 131072, 'the program reads no more than 131,071 bytes'
    return out


def main(words):
    lines = [f'{n} {line(records, answer)}\n' for n, (_, records, answer) in enumerate(CASES, 1)]
    files = {CRATE / 'data' / 'cases.bin': packed(), CRATE / 'stdout': ''.join(lines).encode()}
    if words == ['--list']:
        for text, (name, _, _) in zip(lines, CASES):
            print(f'{text.rstrip():28} {name}')
    elif words == ['--check']:
        stale = [str(path) for path, content in files.items() if not path.exists() or path.read_bytes() != content]
        if stale:
            sys.exit('not what tests/cases.py writes: ' + ', '.join(stale))
    elif words[:1] == ['--files']:
        for n, (_, records, _) in enumerate(CASES, 1):
            (pathlib.Path(words[1]) / f'{n}.model').write_bytes(b''.join(records))
    else:
        for path, content in files.items():
            path.parent.mkdir(exist_ok=True)
            path.write_bytes(content)


if __name__ == '__main__':
    main(sys.argv[1:])
