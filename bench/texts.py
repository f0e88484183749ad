"""How fast the desk reads texts, long and hostile ones, beside the second program on the same texts in the same run.

    python3 -B bench/texts.py [COMMAND ...]     COMMAND reads a text from standard input; without it target/desk/desk records -

Both must print the same. Prints, as a table for docs/FIGURES.md, the least processor time of nine runs of each, in turn, their
ratio, and the time for four times the text as a ratio to the time for the text: a few passes over it are 4 or less. It asserts no
time. It needs target/desk/desk (`make -C desk`) and cargo.
"""
import pathlib
import resource
import subprocess
import sys
import tempfile

ROOT = pathlib.Path(__file__).resolve().parent.parent
MEGABYTE = 1 << 20
RUNS = 9


def longest():
    """Near the longest file that a text can write: 620 sums of eight names, each looked for among 32."""
    names = ['v%015d' % n for n in range(32)]
    things = ''.join('var(%s, 0);\n' % name for name in names)
    line = '%s := %s;\n' % (names[31], ' + '.join(names[-8:]))
    return (things + 'class c {\n' + line * 620 + '}\nentity(c, 0);\n').encode()


TEXTS = [
    ('620 sums of eight names, 32 names known', longest()),
    ('a megabyte of comments', b'# nothing is said here, and at length\n' * (MEGABYTE // 38)),
    ('a megabyte of blanks', b' ' * MEGABYTE),
    ('a megabyte of names', b'class c { ' + b'name ' * (MEGABYTE // 5)),
    ('one name of a megabyte', b'a' * MEGABYTE),
    ('one number of a megabyte', b'res(a, ' + b'0' * MEGABYTE + b'1);'),
    ('a megabyte of (', b'class c { hold(' + b'(' * MEGABYTE),
    ('a megabyte of {', b'class c ' + b'{' * MEGABYTE),
    ('a megabyte of no token', b'\xff' * MEGABYTE),
    ('a megabyte of class lines', b''.join(b'class c%07d;\n' % n for n in range(MEGABYTE // 16))),
]


def used(command, file):
    """Seconds of the processor, and what is printed."""
    before = resource.getrusage(resource.RUSAGE_CHILDREN)
    with open(file, 'rb') as text:
        said = subprocess.run(command, stdin=text, stdout=subprocess.PIPE, stderr=subprocess.DEVNULL, check=False).stdout
    after = resource.getrusage(resource.RUSAGE_CHILDREN)
    return after.ru_utime + after.ru_stime - before.ru_utime - before.ru_stime, said


def least(commands, text):
    """The least seconds of each command, run in turn, on this text; both must say the same."""
    with tempfile.NamedTemporaryFile() as file:
        file.write(text)
        file.flush()
        runs = [[used(command, file.name) for command in commands] for _ in range(RUNS)]
    if len({said for run in runs for _, said in run}) != 1:
        sys.exit('the two differ on %r ..' % text[:60])
    return [min(run[k][0] for run in runs) for k in range(len(commands))]


def main(words):
    subprocess.run(['cargo', 'build', '--release', '--offline', '--quiet'], cwd=ROOT / 'reference', check=True)
    commands = [words or [str(ROOT / 'target' / 'desk' / 'desk'), 'records', '-'],
                [str(ROOT / 'reference' / 'target' / 'release' / 'records')]]
    nothing = least(commands, b'')
    print('| Text | Bytes | Desk, ms | Second program, ms | Ratio | Four times the text |')
    print('|---|---|---|---|---|---|')
    for name, text in TEXTS:
        desk, second = (max(one - start, 1e-6) for one, start in zip(least(commands, text), nothing))
        four = max(least(commands[:1], text * 4)[0] - nothing[0], 1e-6)
        print(f'| {name} | {len(text):,} | {1000 * desk:.1f} | {1000 * second:.1f} | {desk / second:.2f} | {four / desk:.1f} |')


if __name__ == '__main__':
    main(sys.argv[1:])
