"""What check and bound cost on the files made to hurt and the longest ones, as a ratio to reading the same file once.

    python3 -B bench/check.py     prints a table for docs/FIGURES.md

It needs target/bin/try_cases (`bin/prove try_cases`), an x86-64 machine and valgrind: on another machine valgrind would count the
instructions of the emulator.

The program is run on one file many times over, in three forms: the file; the file behind a record whose kind isn't in the table,
which is refused at once, so that only reading it is left; and that record alone. The program does a check and a bound of each
file, and the bound checks again. Reading takes a millionth of a second, too little for a clock: so the ratio is one of
instructions, which valgrind counts. The time is the processor's, the least of five runs.
"""
import pathlib
import platform
import re
import resource
import shutil
import subprocess
import sys
import tempfile

ROOT = pathlib.Path(__file__).resolve().parent.parent
sys.path.insert(0, str(ROOT / 'tests'))
from cases import HOSTILE, line, runs
from records import BLOCK, CLASS, CLOSE, ENTITY, HOLD, LITERAL, NEGATE, RES, TRY, branch, getR, u16

TIMES = 300
COUNT = ['valgrind', '--tool=callgrind', '--callgrind-out-file=/dev/null']
# A record whose kind isn't in the table.
UNKNOWN = u16(2) + u16(9)
ONE = [CLASS(0), ENTITY(0), BLOCK()]
LONGEST = [
    ('433 TRYs of four branches, four items each',
     4 * [RES(1)] + ONE + 433 * [TRY(*4 * [branch(1, *map(getR, range(4)))])] + [BLOCK()], 'bound 867'),
    ('650 HOLDs of 16 nodes', ONE + 650 * [HOLD(*15 * [NEGATE], LITERAL)], 'bound 651'),
    ('64 classes, 64 entities, 256 blocks, 1,024 actions',
     [CLASS(b) for b in range(64)] + [ENTITY(c) for c in range(64)] + 256 * ([BLOCK()] + 4 * [CLOSE()]), 'bound 320'),
]


def packed(records):
    body = runs(records)
    return u16(len(body)) + b''.join(u16(repeat) + u16(len(piece)) + piece for repeat, piece in body)


def used(command, folder):
    """Seconds of the processor, and what the program prints."""
    before = resource.getrusage(resource.RUSAGE_CHILDREN)
    said = subprocess.run(command, cwd=folder, stdout=subprocess.PIPE, check=True).stdout.decode()
    after = resource.getrusage(resource.RUSAGE_CHILDREN)
    return after.ru_utime + after.ru_stime - before.ru_utime - before.ru_stime, said


def counted(command, folder):
    """Instructions."""
    said = subprocess.run(COUNT + command, cwd=folder, capture_output=True, check=True).stderr.decode()
    return int(re.search(r'Collected : (\d+)', said)[1])


def once(command, records, times):
    """Seconds and instructions for one of so many equal files, and the answer."""
    with tempfile.TemporaryDirectory() as folder:
        pathlib.Path(folder, 'cases.bin').write_bytes(u16(times) + times * packed(records))
        runs_of_it = [used(command, folder) for _ in range(5)]
        seconds = min(second for second, _ in runs_of_it)
        return seconds / times, counted(command, folder) / times, runs_of_it[0][1].splitlines()[0].partition(' ')[2]


def main():
    if platform.machine() != 'x86_64' or not shutil.which('valgrind'):
        sys.exit('bench/check.py: this needs an x86-64 machine with valgrind: apt-get install valgrind')
    command = [str(ROOT / 'target' / 'bin' / 'try_cases')]
    print('| File | Bytes | Check and bound, ms | Instructions | Reading once | Ratio |')
    print('|---|---|---|---|---|---|')
    for name, records, answer in HOSTILE + LONGEST:
        size = sum(map(len, records))
        if size < 5000:
            continue
        # the program reads no more than 131,071 bytes
        times = min(TIMES, 130000 // len(packed(records)))
        least, nothing, _ = once(command, [UNKNOWN], times)
        _, unknown, _ = once(command, [UNKNOWN] + records, times)
        most, whole, said = once(command, records, times)
        assert said == line(records, answer), (name, said)
        cost, reading = whole - unknown, unknown - nothing
        print(f'| {name} | {size:,} | {1000 * (most - least):.1f} | {cost:,.0f} | {reading:,.0f} | {cost / reading:.0f} |')


if __name__ == '__main__':
    main()
