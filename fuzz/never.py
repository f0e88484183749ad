"""The counters that no input meets, by function and line.

    python3 -B fuzz/never.py [FOLDER ...]    the inputs; where no folder is named, the fuzzer's corpus and its seeds

The fuzzer is compiled for this as its sources stand, with nothing inlined and sums not tested (fuzz/build.sh, NEVER=1), so that
each counter is that of one place in a source. Left out are those of a panic, which would stop the fuzzer; those of the standard
library's code, and of a derived `Eq`, which is never called; and those whose block the compiler dropped. Needs objdump and
llvm-symbolizer.
"""
import collections
import os
import pathlib
import re
import subprocess
import sys

ROOT = pathlib.Path(__file__).resolve().parent.parent
FUZZ = ROOT / 'target' / 'fuzz'
PROGRAM = FUZZ / 'never' / 'fuzz'
# The sources in which counters are counted, by a part of their path.
SOURCES = ('parts/engine.rs', 'reference/src/', 'driver/src/')
DERIVED = 'assert_fields_are_eq'
# What a dropped block has for an address.
DROPPED = 1
CALLS = ('bl', 'call')
JUMPS = ('b', 'jmp')
ENDS = re.compile(r'b\.|cb|tb|j|ret|br|ud')
PANICS = re.compile(r'panic|_fail')
TARGET = re.compile(r'([0-9a-f]+) <')


def said(words, text=''):
    words = [str(word) for word in words]
    return subprocess.run(words, input=text, stdout=subprocess.PIPE, text=True, check=True, cwd=ROOT).stdout


def counters(folders):
    """The address of each counter, and whether it is met."""
    files = [str(path) for folder in folders for path in sorted(pathlib.Path(folder).iterdir())]
    rows = [line.split() for line in said([PROGRAM], '\n'.join(files) + '\n').splitlines()]
    return [(int(address, 16), met == '1') for met, address in rows]


class Code:
    """The instructions of the program: from each address the operation, what it is done to, and the address behind."""

    def __init__(self):
        found = re.findall(r'(?m)^ +([0-9a-f]+):\t(\S+) *\t?(.*)$', said(['objdump', '-d', '--no-show-raw-insn', PROGRAM]))
        at = [int(address, 16) for address, _, _ in found]
        self.rows = {address: (op, on, after) for address, (_, op, on), after in zip(at, found, at[1:] + [0])}

    def panics(self, address):
        """Whether the block there does nothing but panic."""
        for _ in range(200):
            op, on, after = self.rows.get(address, ('ret', '', 0))
            if op in CALLS and 'trace_pc_guard' not in on:
                return bool(PANICS.search(on))
            if op in JUMPS:
                after = int(TARGET.search(on)[1], 16)
            elif op not in CALLS and ENDS.match(op):
                return False
            address = after
        return False


def sources(addresses):
    """The function, the file and the line of each."""
    told = said(['llvm-symbolizer', '--obj=%s' % PROGRAM, '--no-inlines', '--demangle'], '\n'.join(map(hex, addresses)) + '\n')
    for block in told.strip().split('\n\n'):
        function, place = block.split('\n')[:2]
        file, line, _ = place.rsplit(':', 2)
        yield re.sub(r'::h[0-9a-f]{16}$', '', function), file, int(line)


def text_at(file, line):
    return pathlib.Path(file).read_text().split('\n')[line - 1].strip()


def main(folders):
    subprocess.run(['bash', 'fuzz/build.sh', PROGRAM], cwd=ROOT, env={**os.environ, 'NEVER': '1'}, check=True)
    code = Code()
    rows = [row for row in counters(folders or [FUZZ / 'unedited' / 'corpus', FUZZ / 'seeds']) if row[0] != DROPPED]
    shown = collections.Counter()
    for (address, met), (function, file, line) in zip(rows, sources([address for address, _ in rows])):
        source = next((part for part in SOURCES if part in file), None)
        if source and DERIVED not in function and not code.panics(address):
            shown[source, met] += 1
            if not met:
                print('%s: %s' % (function, text_at(file, line)))
    for source in SOURCES:
        print('%s: %d met, %d never' % (source, shown[source, True], shown[source, False]))


if __name__ == '__main__':
    main(sys.argv[1:])
