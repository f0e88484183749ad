"""Models in which jobs wait, and the desk's words of why, written by hand.

WAITS has of each model the lines in which `desk run` tells why a job waits, and what `desk waits` tells of it.
"""
from plans import one, several
from records import *

LACKS, LACKED = 'waits: the first branch lacks item', 'waits: the first branch lacked item'
BARRED, WAS_BARRED = 'waits: barred by a job ahead', 'waits: it was barred by a job ahead'


def conditions(value, *items):
    """A job for each item, all about variable 0, which has this value."""
    return several(VAR(value), *((0, REQ(item)) for item in items))


def full(item):
    """As many things and jobs as there may be. The last of 64 jobs wants this item, in the eighth block that it is in."""
    return (b''.join(RES(n) for n in range(32)) + b''.join(BIN(100 + n) for n in range(32)) + SYNC() * 32
            + b''.join(VAR(-n) for n in range(32)) + CLASS(0) + CLASS(1) + ENTITY(0) * 63 + ENTITY(1)
            + BLOCK() + BECOME(31)
            + b''.join(BLOCK() + HOLD(literal(0)) + DO(1, block) for block in range(2, 9))
            + BLOCK() + REQ() + REQ(item))


def same_place():
    """Job 1 waits, goes on at 1 and ends; job 4 begins in its place."""
    return (RES(0) * 3 + VAR(0) + CLASS(0) + CLASS(1) + CLASS(2) + CLASS(3) + ENTITY(0) + ENTITY(1) + ENTITY(2, 1)
            + BLOCK() + REQ(condition(0, 5, 1))
            + BLOCK() + REQ(getR(1))
            + BLOCK() + SET(0, literal(1)) + HOLD(literal(0)) + START(3) + REQ(getR(0))
            + BLOCK() + REQ(getR(2, 3)))


def late():
    """Job 4 waits behind 4,206 lines, of which three, the 4,096th to the 4,098th, are of one step. Each hour it calls three jobs
    and lets them go, and they report again."""
    return (SYNC() + BIN(0) + CLASS(0) + CLASS(1) + ENTITY(0) * 3 + ENTITY(1, 1)
            + BLOCK() + DO(601, 2)
            + BLOCK() + TRACE(literal(0)) * 3 + DO(600, 3) + REQ(getB(0, 7))
            + BLOCK() + BECOME(0)
            + BLOCK() + REQ(getS(0, 3)) + PUTS(0, 3) + HOLD(literal(1)))


# 63 jobs that wait 181 times each, for one of 63 that come back each hour: more lines than items are told of.
MANY = 63 * 181
CROWD = (BIN(0) + CLASS(0) + CLASS(1) + ENTITY(0) + ENTITY(1) * 63
         + BLOCK() + DO(180, 2)
         + BLOCK() + DO(10, 3)
         + BLOCK() + HOLD(literal(1)) + PUTB(0, 63)
         + BLOCK() + REQ(getB(0)) * 20)

WAITS = [
    ('nobody', one(RES(1), REQ(getR(0)) + PUTR(0)), [], ['nobody waits', 'IDLE, steps done 4']),
    ('each kind of item',
     several(RES(1) + RES(4) + BIN(0) + BIN(2) + SYNC() + VAR(3), (0, BECOME(0)), (0, REQ(getR(1, 5))), (0, REQ(getB(1, 3))),
             (0, REQ(getS(0, 2))), (0, REQ(condition(0, 5, 5)))),
     ['time 0, job 2 %s 1, 5 of resource 1 (4 free)' % LACKS,
      'time 0, job 3 %s 1, 3 of bin 1 (2 there)' % LACKS,
      'time 0, job 4 %s 1, 2 at sync 0 (1 waiting)' % LACKS,
      'time 0, job 5 %s 1, variable 0 at least 5 (now 3)' % LACKS],
     ['since time 0, job 2 %s 1, 5 of resource 1 (now 4 free)' % LACKED,
      'since time 0, job 3 %s 1, 3 of bin 1 (now 2 there)' % LACKED,
      'since time 0, job 4 %s 1, 2 at sync 0 (now 1 waiting)' % LACKED,
      'since time 0, job 5 %s 1, variable 0 at least 5 (now 3)' % LACKED,
      'IDLE, steps done 5']),
    ('each relation',
     conditions(5, condition(0, 1, 5), condition(0, 2, 4), condition(0, 3, 4), condition(0, 4, 5), condition(0, 5, 6),
                condition(0, 6, 5)),
     ['time 0, job 1 %s 1, variable 0 below 5 (now 5)' % LACKS,
      'time 0, job 2 %s 1, variable 0 at most 4 (now 5)' % LACKS,
      'time 0, job 3 %s 1, variable 0 equal to 4 (now 5)' % LACKS,
      'time 0, job 4 %s 1, variable 0 other than 5 (now 5)' % LACKS,
      'time 0, job 5 %s 1, variable 0 at least 6 (now 5)' % LACKS,
      'time 0, job 6 %s 1, variable 0 above 5 (now 5)' % LACKS],
     ['since time 0, job 1 %s 1, variable 0 below 5 (now 5)' % LACKED,
      'since time 0, job 2 %s 1, variable 0 at most 4 (now 5)' % LACKED,
      'since time 0, job 3 %s 1, variable 0 equal to 4 (now 5)' % LACKED,
      'since time 0, job 4 %s 1, variable 0 other than 5 (now 5)' % LACKED,
      'since time 0, job 5 %s 1, variable 0 at least 6 (now 5)' % LACKED,
      'since time 0, job 6 %s 1, variable 0 above 5 (now 5)' % LACKED,
      'IDLE, steps done 6']),
    ('the lowest value of a variable', conditions(-2147483648, condition(0, 3, 2147483647)),
     ['time 0, job 1 %s 1, variable 0 equal to 2147483647 (now -2147483648)' % LACKS],
     ['since time 0, job 1 %s 1, variable 0 equal to 2147483647 (now -2147483648)' % LACKED, 'IDLE, steps done 1']),
    ('the highest value of a variable', conditions(2147483647, condition(0, 1, -2147483648)),
     ['time 0, job 1 %s 1, variable 0 below -2147483648 (now 2147483647)' % LACKS],
     ['since time 0, job 1 %s 1, variable 0 below -2147483648 (now 2147483647)' % LACKED, 'IDLE, steps done 1']),
    # The first three want the same, the fourth more of it. The last wants a part, and there isn't so much either.
    ('each number of an item, and barred',
     several(RES(2) + BIN(3) + SYNC() + VAR(7),
             (0, REQ(getR(0), getB(0), condition(0, 3, 7), getS(0))),
             (0, REQ(getR(0), getB(0), condition(0, 3, 8), getS(0))),
             (0, REQ(condition(0, 4, 7), getR(0), getB(0), getS(0))),
             (0, REQ(getR(0, 2), getB(0, 4), getS(0), condition(0, 3, 8))),
             (0, REQ(getB(0, 9)))),
     ['time 0, job 1 %s 4, 1 at sync 0 (0 waiting)' % LACKS,
      'time 0, job 2 %s 3, variable 0 equal to 8 (now 7)' % LACKS,
      'time 0, job 3 %s 1, variable 0 other than 7 (now 7)' % LACKS,
      'time 0, job 4 %s 2, 4 of bin 0 (3 there)' % LACKS,
      'time 0, job 5 ' + BARRED],
     ['since time 0, job 1 %s 4, 1 at sync 0 (now 0 waiting)' % LACKED,
      'since time 0, job 2 %s 3, variable 0 equal to 8 (now 7)' % LACKED,
      'since time 0, job 3 %s 1, variable 0 other than 7 (now 7)' % LACKED,
      'since time 0, job 4 %s 2, 4 of bin 0 (now 3 there)' % LACKED,
      'since time 0, job 5 ' + WAS_BARRED, 'IDLE, steps done 5']),
    # Enough is there for the third, but the second waits for more of it; the fourth wants as much as the second.
    ('barred by more of the same',
     several(RES(3), (0, REQ(getR(0)) + HOLD(literal(5))), (1, REQ(getR(0, 3))), (2, REQ(getR(0))), (3, REQ(getR(0, 3))),
             (4, CLOSE())),
     ['time 1, job 2 %s 1, 3 of resource 0 (2 free)' % LACKS, 'time 2, job 3 ' + BARRED,
      'time 3, job 4 %s 1, 3 of resource 0 (2 free)' % LACKS],
     ['since time 1, job 2 %s 1, 3 of resource 0 (now 2 free)' % LACKED, 'since time 2, job 3 ' + WAS_BARRED,
      'since time 3, job 4 %s 1, 3 of resource 0 (now 2 free)' % LACKED, 'CLOSED, steps done 6']),
    ('the first branch of a TRY',
     one(RES(1) + BIN(1) + VAR(0), TRY(branch(1, getR(0), getB(0, 2)), branch(2, condition(0, 5, 1))), b'', b''),
     ['time 0, job 1 %s 2, 2 of bin 0 (1 there)' % LACKS],
     ['since time 0, job 1 %s 2, 2 of bin 0 (now 1 there)' % LACKED, 'IDLE, steps done 1']),
    ('the last resource', full(getR(31, 32)),
     ['time 0, job 64 %s 1, 32 of resource 31 (31 free)' % LACKS],
     ['since time 0, job 64 %s 1, 32 of resource 31 (now 31 free)' % LACKED, 'IDLE, steps done 79']),
    ('the last bin', full(getB(31, 1000000)),
     ['time 0, job 64 %s 1, 1000000 of bin 31 (131 there)' % LACKS],
     ['since time 0, job 64 %s 1, 1000000 of bin 31 (now 131 there)' % LACKED, 'IDLE, steps done 79']),
    ('the last sync', full(getS(31, 64)),
     ['time 0, job 64 %s 1, 64 at sync 31 (63 waiting)' % LACKS],
     ['since time 0, job 64 %s 1, 64 at sync 31 (now 63 waiting)' % LACKED, 'IDLE, steps done 79']),
    ('the last variable', full(condition(31, 6, -31)),
     ['time 0, job 64 %s 1, variable 31 above -31 (now -31)' % LACKS],
     ['since time 0, job 64 %s 1, variable 31 above -31 (now -31)' % LACKED, 'IDLE, steps done 79']),
    # The two SETs write no line.
    ('a variable that changes later',
     several(RES(0) + VAR(3), (0, REQ(condition(0, 5, 5), getR(0))),
             (0, SET(0, literal(4)) + SET(0, literal(6)) + HOLD(literal(2)))),
     ['time 0, job 1 %s 1, variable 0 at least 5 (now 3)' % LACKS],
     ['since time 0, job 1 %s 1, variable 0 at least 5 (now 6)' % LACKED, 'IDLE, steps done 5']),
    ('what was lacking is there, and something else is lacking',
     several(RES(1) + BIN(0), (0, REQ(getR(0)) + HOLD(literal(2)) + PUTR(0)), (1, REQ(getR(0), getB(0)))),
     ['time 1, job 2 %s 1, 1 of resource 0 (0 free)' % LACKS],
     ['since time 1, job 2 %s 1, 1 of resource 0 (now 1 free)' % LACKED, 'IDLE, steps done 6']),
    ('one that waits twice',
     several(RES(1) + BIN(0), (0, REQ(getR(0)) + HOLD(literal(2)) + PUTR(0)),
             (1, REQ(getR(0)) + HOLD(literal(1)) + REQ(getB(0, 2)))),
     ['time 1, job 2 %s 1, 1 of resource 0 (0 free)' % LACKS, 'time 3, job 2 %s 1, 2 of bin 0 (0 there)' % LACKS],
     ['since time 3, job 2 %s 1, 2 of bin 0 (now 0 there)' % LACKED, 'IDLE, steps done 8']),
    ('the order of the blocked list',
     several(RES(0), (0, REQ(getR(0))), (1, PRIO(literal(5)) + REQ(getR(0))), (2, REQ(getR(0, 2)))),
     ['time 0, job 1 %s 1, 1 of resource 0 (0 free)' % LACKS, 'time 1, job 2 %s 1, 1 of resource 0 (0 free)' % LACKS,
      'time 2, job 3 %s 1, 2 of resource 0 (0 free)' % LACKS],
     ['since time 1, job 2 %s 1, 1 of resource 0 (now 0 free)' % LACKED,
      'since time 0, job 1 %s 1, 1 of resource 0 (now 0 free)' % LACKED,
      'since time 2, job 3 %s 1, 2 of resource 0 (now 0 free)' % LACKED, 'IDLE, steps done 4']),
    ('barred, and then closed',
     several(RES(1) + RES(1), (0, REQ(getR(0)) + HOLD(literal(5))), (1, REQ(getR(0), getR(1))), (2, REQ(getR(1))), (3, CLOSE())),
     ['time 1, job 2 %s 1, 1 of resource 0 (0 free)' % LACKS, 'time 2, job 3 ' + BARRED],
     ['since time 1, job 2 %s 1, 1 of resource 0 (now 0 free)' % LACKED, 'since time 2, job 3 ' + WAS_BARRED,
      'CLOSED, steps done 5']),
    ('a fault', several(RES(0), (0, REQ(getR(0))), (0, HOLD(literal(-1)))),
     ['time 0, job 1 %s 1, 1 of resource 0 (0 free)' % LACKS],
     ['since time 0, job 1 %s 1, 1 of resource 0 (now 0 free)' % LACKED, 'FAULT 22 BACK (HOLD below 0), steps done 1']),
    ('one after the other in a place', same_place(),
     ['time 0, job 1 %s 1, variable 0 at least 1 (now 0)' % LACKS, 'time 0, job 2 %s 1, 1 of resource 1 (0 free)' % LACKS,
      'time 1, job 3 %s 1, 1 of resource 0 (0 free)' % LACKS, 'time 1, job 4 %s 1, 3 of resource 2 (0 free)' % LACKS],
     ['since time 0, job 2 %s 1, 1 of resource 1 (now 0 free)' % LACKED,
      'since time 1, job 3 %s 1, 1 of resource 0 (now 0 free)' % LACKED,
      'since time 1, job 4 %s 1, 3 of resource 2 (now 0 free)' % LACKED, 'IDLE, steps done 8']),
    ('behind many lines', late(),
     ['time 601, job 4 %s 1, 7 of bin 0 (0 there)' % LACKS],
     ['since time 601, job 4 %s 1, 7 of bin 0 (now 0 there)' % LACKED, 'IDLE, steps done 6011']),
]
