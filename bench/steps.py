"""How fast `plan` makes a million steps, beside the second program on the same models in the same run.

    python3 -B bench/steps.py [ENGINE ...]     ENGINE runs the engine's plan; without it bin/run target/bin/plan

Both read each model from standard input; that they print the same is checked. Prints, as a table for docs/FIGURES.md, the least
processor time of nine runs of each, in turn, and their ratio. It asserts no time. It needs target/bin/plan (`bin/prove plan`) and
cargo.
"""
import pathlib
import resource
import subprocess
import sys
import tempfile

ROOT = pathlib.Path(__file__).resolve().parent.parent
sys.path.insert(0, str(ROOT / 'tests'))
from records import *


def jobs():
    """30 jobs over 8 resources."""
    claims = ((0, 1, 2), (2, 3, 4), (5, 6, 7, 0))
    return (b''.join(RES(2) for _ in range(8)) + b''.join(CLASS(n) for n in range(3))
            + b''.join(ENTITY(n % 3, n) for n in range(30))
            + b''.join(BLOCK() + DO(65535, n + 3) for n in range(3))
            + b''.join(BLOCK() + REQ(*(getR(i) for i in claim)) + HOLD(literal(len(claim)))
                       + b''.join(PUTR(i, 1) for i in claim) for claim in claims))


def tries():
    """63 wait at TRYs of four branches of four items each, which can't be met, and one walks past them at each step."""
    branches = [branch(2, *(getR(4 * k + i, 2) for i in range(4))) for k in range(4)]
    return (b''.join(RES(1) for _ in range(16)) + VAR(0) + CLASS(0) + CLASS(1) + ENTITY(1, 0)
            + b''.join(ENTITY(0, 1) for _ in range(63))
            + BLOCK() + TRY(*branches)
            + BLOCK() + HOLD(literal(5)) + DO(65535, 3)
            + BLOCK()
            + BLOCK() + DO(60, 4)
            + BLOCK() + SET(0, literal(1)))


def syncs():
    """Eight that report for work again and again, and eight that claim one of them each."""
    return (SYNC() + CLASS(0) + CLASS(1) + b''.join(ENTITY(n % 2, 0) for n in range(16))
            + BLOCK() + WHILE(2) + BLOCK() + WHILE(3)
            + BLOCK() + BECOME(0)
            + BLOCK() + REQ(getS(0)) + HOLD(literal(1)) + PUTS(0, 1))


def amounts():
    """60 wait for the same four things: 30 want most of one of them, one wants more than the 29 behind it, who could be met but
    for that. One puts into a bin again and again, and at each return every one of the 29 is held against those ahead."""
    wanted = [(5, 1, 1, 1), (1, 5, 1, 1), (1, 1, 5, 1), (2, 2, 2, 5), (2, 2, 2, 2), (2, 2, 2, 3)]
    jobs = [n % 3 for n in range(30)] + [3] + [4 + n % 2 for n in range(29)]
    return (RES(4) * 4 + BIN(0) + b''.join(CLASS(n) for n in range(len(wanted) + 1))
            + b''.join(ENTITY(n) for n in jobs) + ENTITY(len(wanted), 1)
            + b''.join(BLOCK() + REQ(*(getR(i, n) for i, n in enumerate(claim))) for claim in wanted)
            + BLOCK() + DO(20000, len(wanted) + 1)
            + BLOCK() + PUTB(0) + HOLD(literal(1)))


def nested(action):
    return CLASS(0) + ENTITY(0) + BLOCK() + DO(65535, 1) + BLOCK() + DO(10, 2) + BLOCK() + action


MODELS = [
    ('a loop of HOLDs', nested(HOLD(literal(1)))),
    ('DO loops with SET', VAR(0) + nested(SET(0, literal(1)))),
    ('DO loops with TRACE, a line each', nested(TRACE(literal(1)))),
    ('30 jobs over 8 resources', jobs()),
    ('63 waiting TRYs', tries()),
    ('60 waiting for the same, 20,000 returns', amounts()),
    ('syncs', syncs()),
]

RUNS = 9


def timed(command, model):
    """The processor time in milliseconds, by a clock of microseconds, and what was printed."""
    with tempfile.TemporaryFile() as out:
        before = resource.getrusage(resource.RUSAGE_CHILDREN)
        subprocess.run(command, input=model, stdout=out, check=True)
        after = resource.getrusage(resource.RUSAGE_CHILDREN)
        out.seek(0)
        return 1000 * (after.ru_utime - before.ru_utime + after.ru_stime - before.ru_stime), out.read()


def main(words):
    engine = words or [str(ROOT / 'bin' / 'run'), str(ROOT / 'target' / 'bin' / 'plan')]
    subprocess.run(['cargo', 'build', '--release', '--offline', '--quiet'], cwd=ROOT / 'reference', check=True)
    second = [str(ROOT / 'reference' / 'target' / 'release' / 'plan')]
    print('| Model | Engine, ms | Second program, ms | Ratio |')
    print('|---|---|---|---|')
    for name, model in MODELS:
        runs = [(timed(engine, model), timed(second, model)) for _ in range(RUNS)]
        assert all(ours[1] == theirs[1] for ours, theirs in runs), name
        a, b = min(ours[0] for ours, _ in runs), min(theirs[0] for _, theirs in runs)
        print(f'| {name} | {a:.1f} | {b:.1f} | {a / b:.2f} |')


if __name__ == '__main__':
    main(sys.argv[1:])
