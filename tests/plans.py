"""The twelve plans of document 01, a few other ends of a run, plans that draw and plans that wait, through a program that prints
plans.

    python3 -B tests/plans.py COMMAND ...    runs COMMAND on each model and compares what it prints

What is expected was written from documents 01 and 02 by hand; the second program's own tests have the same plans.
"""
import subprocess
import sys

from records import *


def one(declared, *blocks):
    """One process of class 0, whose body is the first block."""
    return declared + CLASS(0) + ENTITY(0) + b''.join(BLOCK() + block for block in blocks)


def several(declared, *parts):
    """A class and a process for each part: when it enters, and its body."""
    return (declared + b''.join(CLASS(n) for n in range(len(parts)))
            + b''.join(ENTITY(n, time) for n, (time, body) in enumerate(parts))
            + b''.join(BLOCK() + body for time, body in parts))


def barred(priority):
    """X holds A from 0 to 5; Y waits for A and B from 1; Z claims B at 2 with this priority."""
    return several(
        RES(1) + RES(1),
        (0, REQ(getR(0)) + HOLD(literal(5)) + PUTR(0, 1)),
        (1, REQ(getR(0), getR(1)) + HOLD(literal(5)) + PUTR(0, 1) + PUTR(1, 1)),
        (2, PRIO(literal(priority)) + REQ(getR(1)) + HOLD(literal(1)) + PUTR(1, 1)))


def lowest(priority, value):
    return 0, PRIO(literal(priority)) + HOLD(literal(1)) + TRACE(literal(value))


# Variable 0 is 5.
IS_5, IS_NOT_5 = condition(0, 3, 5), condition(0, 4, 5)

EXAMPLE = (RES(1) + CLASS(0) + ENTITY(0) + ENTITY(0)
           + BLOCK() + REQ(getR(0)) + HOLD(literal(3)) + PUTR(0, 1))

PLANS = [
    ('1, an empty file', b'', ['idle 0 bound 0']),
    ('2, the example of 72 bytes', EXAMPLE,
     ['0 1 4 0', '0 2 3 1', '3 1 2 0', '3 1 5 0', '3 2 4 0', '6 2 2 0', '6 2 5 0', 'idle 10 bound 10']),
    ('3, DO 0', one(b'', DO(0, 1), b''), ['0 1 2 0', 'idle 2 bound 2']),
    ('4, DO 3 of an empty block', one(b'', DO(3, 1), b''), ['0 1 2 0', 'idle 5 bound 5']),
    ('5, HOLD -1', one(b'', HOLD(literal(-1))), ['fault 22 0 bound 2']),
    ('6, HOLD to the last time', one(b'', HOLD(literal(2000000000))), ['2000000000 1 2 0', 'idle 2 bound 2']),
    ('6, and one more', one(b'', HOLD(literal(2000000001))), ['fault 23 0 bound 2']),
    ('7 and 9, a part waits and the whole goes first', barred(0),
     ['0 1 4 0', '1 2 3 1', '2 3 3 -1', '5 1 2 0', '5 1 5 0', '5 2 4 0', '10 2 2 0', '10 2 5 0', '10 2 5 1', '10 3 4 0',
      '11 3 2 0', '11 3 5 1', 'idle 18 bound 18']),
    ('8, a higher priority is not barred', barred(1),
     ['0 1 4 0', '1 2 3 1', '2 3 4 0', '3 3 2 0', '3 3 5 1', '5 1 2 0', '5 1 5 0', '5 2 4 0', '10 2 2 0', '10 2 5 0',
      '10 2 5 1', 'idle 18 bound 18']),
    ('10, PRIO -20,000 is -10,000', several(b'', lowest(-20000, 1), lowest(-10000, 2), lowest(-9999, 3)),
     ['1 3 9 3', '1 3 2 0', '1 1 9 1', '1 1 2 0', '1 2 9 2', '1 2 2 0', 'idle 12 bound 12']),
    ('11, giving back 2 of 1 held', one(RES(2), REQ(getR(0)) + PUTR(0, 2)), ['0 1 4 0', 'fault 24 1 bound 4']),
    ('12, ending with 1 held', one(RES(1), REQ(getR(0))), ['0 1 4 0', 'fault 26 1 bound 2']),
    ('closed', one(b'', CLOSE() + HOLD(literal(1))), ['0 1 10 0', 'closed 1 bound 3']),
    ('a bound over 4,294,967,295', one(b'', CLOSE() + DO(65535, 1), DO(65535, 2), b''), ['0 1 10 0', 'closed 1 bound over']),
    ('no bound, and a million steps', one(b'', WHILE(1), b''),
     ['0 1 4 0'] * 500000 + ['limit 1000000 bound none']),
    ('a value below 0', one(b'', TRACE(literal(-2147483648))), ['0 1 9 -2147483648', '0 1 2 0', 'idle 2 bound 2']),
    # The seeds from 1 are 16807, 282475249, 1622650073, 984943658: of 4 to 7 they draw 7, 5, 5, 6.
    ('two jobs that draw from one sampler',
     several(SAMPLER(4, 7), (0, HOLD(draw(0)) + TRACE(CLOCK)), (0, HOLD(draw(0)) + TRACE(SUBTRACT, draw(0), draw(0)))),
     ['5 2 9 -1', '5 2 2 0', '7 1 9 7', '7 1 2 0', 'idle 6 bound 6']),
    ('both sides of a lesser are drawn', one(SAMPLER(4, 7), TRACE(LESSER, draw(0), NEGATE, draw(0)) + TRACE(draw(0))),
     ['0 1 9 -5', '0 1 9 5', '0 1 2 0', 'idle 3 bound 3']),
    ('a draw below 0', one(SAMPLER(-7, -4), HOLD(draw(0))), ['fault 22 0 bound 2']),
    ('a SAMPLER behind a BLOCK', EXAMPLE + SAMPLER(4, 7), ['refused 3 at 72']),
    # 1043618065 is the one number below 2,147,483,647 that leaves 617022 by 1,000,001 and 618065 by 1,000,000.
    ('the 10,000th seed from 1 is 1043618065',
     one(SAMPLER(0, 1000000) + SAMPLER(0, 999999), DO(9999, 1) + TRACE(draw(0)) + TRACE(draw(1)), LSET(0, ADD, draw(0), draw(1))),
     ['0 1 9 617022', '0 1 9 618065', '0 1 2 0', 'idle 20002 bound 20002']),
    ('the first item that is lacking, conditions counted',
     several(RES(1) + RES(1) + BIN(0) + SYNC() + VAR(5),
             (0, REQ(getB(0), getS(0))), (1, REQ(getR(0), IS_NOT_5, getB(0))), (2, REQ(getR(0), IS_5, getS(0))),
             (3, REQ(IS_5, getR(0), getR(1), getB(0)))),
     ['0 1 3 1', '1 2 3 2', '2 3 3 3', '3 4 3 4', 'idle 4 bound 8']),
    # The second and the third are barred by the first, and the third lacks something besides. The fourth lacks item 2 of its
    # first branch. No line tells that the fifth passes on, or that the walk of the last leaves the four blocked.
    ('barred, or what the first branch lacks',
     several(RES(1) + RES(1) + BIN(0) + VAR(5),
             (0, REQ(getR(0, 2), getR(1))), (1, REQ(getR(1))), (2, REQ(IS_NOT_5, getR(0))),
             (3, TRY(branch(6, getR(0), getB(0)), branch(6, getB(0)))), (4, WHILE(6, getR(1)) + WHILE(6, getB(0))),
             (5, SET(0, literal(5)))) + BLOCK(),
     ['0 1 3 1', '1 2 3 -1', '2 3 3 -1', '3 4 3 2', '4 5 2 0', '5 6 2 0', 'idle 9 bound none']),
    # Two licences are free when the third comes, but the second waits for three. The fourth waits for as much as the second and
    # isn't barred by it. The fifth has a higher priority and is barred by nobody.
    ('a smaller amount waits, and the larger one goes first',
     several(RES(3),
             (0, REQ(getR(0)) + HOLD(literal(5)) + PUTR(0)), (1, REQ(getR(0, 3)) + HOLD(literal(1)) + PUTR(0, 3)),
             (2, REQ(getR(0)) + HOLD(literal(1)) + PUTR(0)), (3, REQ(getR(0, 3)) + HOLD(literal(1)) + PUTR(0, 3)),
             (4, PRIO(literal(1)) + REQ(getR(0)) + HOLD(literal(1)) + PUTR(0))),
     ['0 1 4 0', '1 2 3 1', '2 3 3 -1', '3 4 3 1', '4 5 4 0', '5 5 2 0', '5 1 2 0', '5 5 5 0', '5 1 5 0', '5 2 4 0',
      '6 2 2 0', '6 2 5 0', '6 3 4 0', '7 3 2 0', '7 3 5 0', '7 4 4 0', '8 4 2 0', '8 4 5 0', 'idle 26 bound 26']),
    # Behind the first: less of one thing, in another order; less of one and more of the other; the same, twice with a condition;
    # a part, of which it wants more; and one thing more.
    ('amounts held against one another, thing by thing',
     several(RES(2) + RES(2) + BIN(0) + VAR(5),
             (0, REQ(getR(0, 2), getB(0, 3))), (1, REQ(getB(0, 2), getR(0, 2))), (2, REQ(getR(0, 1), getB(0, 4))),
             (3, REQ(getR(0, 2), getB(0, 3))), (4, REQ(IS_5, getR(0, 2), getB(0, 3))),
             (5, REQ(getB(0, 3), condition(0, 6, 4), getR(0, 2))), (6, REQ(getB(0, 9))), (7, REQ(getR(0), getB(0), getR(1)))),
     ['0 1 3 2', '1 2 3 -1', '2 3 3 2', '3 4 3 2', '4 5 3 3', '5 6 3 1', '6 7 3 -1', '7 8 3 2', 'idle 8 bound 16']),
    # The first wants two where there is one, and waits for ever. It covers both branches of the second: one is a part, one has a
    # smaller amount. Of the fourth it covers one branch, and the third the other: so it goes. The first WHILE is barred by
    # amounts of a bin, the second of a resource, though it could be met; the sixth is barred by amounts of a sync.
    ('branches covered by a part and by amounts',
     several(RES(1) + RES(1) + BIN(0) + SYNC(),
             (0, REQ(getR(0, 2), getR(1))), (1, TRY(branch(7, getR(1)), branch(7, getR(1), getR(0)))), (2, REQ(getB(0, 2))),
             (3, TRY(branch(7, getR(0)), branch(7, getB(0)))), (4, WHILE(7, getB(0)) + REQ(getS(0, 2))), (5, REQ(getS(0))),
             (6, WHILE(7, getR(0), getR(1)))) + BLOCK() + PUTR(0),
     ['0 1 3 1', '1 2 3 -1', '2 3 3 1', '3 4 4 0', '3 4 2 0', '3 4 5 0', '4 5 3 1', '5 6 3 -1', '6 7 2 0',
      'idle 13 bound none']),
    ('a refusal', EXAMPLE + BLOCK()[:3], ['refused 1 at 72']),
    ('65,536 bytes', bytes(65536), ['refused 4 at 0']),
    ('more than a model may have', bytes(70000), ['refused 4 at 0']),
]


def main(command):
    failed = 0
    for name, model, expected in PLANS:
        told = subprocess.run(command, input=model, capture_output=True, check=False).stdout.decode().split('\n')
        if told != expected + ['']:
            failed += 1
            print('plan %s: %s prints %s' % (name, command[-1], told[:20]))
    return failed


if __name__ == '__main__':
    sys.exit(1 if main(sys.argv[1:]) else 0)
