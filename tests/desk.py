"""The C program desk on good and bad files: what it tells and its exit status.

    python3 -B tests/desk.py COMMAND ...    runs the program, e.g. target/desk/desk, or bin/run and a program for x86-64

What it must tell of a model is known elsewhere as numbers: examples/*.plan, tests/plans.py and tests/cases.py. So its words are
turned back into the lines of `plan`. The words themselves, WORDS and KINDS, were copied from document 01 by hand. What it tells
of a lacking item is held against tests/claims.py, and against texts that were written by hand: tests/waits.py, docs/MODEL.md.
What it tells of a mistake in a text is tests/mistakes.py's.
"""
import pathlib
import re
import subprocess
import sys
import tempfile

import cases
import claims
import examples
import mistakes
import plans
import waits
from records import *

WORDS = {
    1: 'SHORT (bytes end inside a record, or length under 2)',
    2: 'KIND (kind not in the table)',
    3: 'PLACE (declaration after a BLOCK, action before any)',
    4: 'MANY (one more than a limit)',
    5: 'SIZE (body, claim or expression not exactly its size)',
    6: 'VALUE (field outside its stated set)',
    7: 'TWICE (a claim names one resource, bin or sync twice, or a START list one resource twice)',
    8: 'NAME (number of a thing not declared, or a local not in 0..7)',
    9: 'ORDER (DO, TRY or WHILE names a block not greater than its own)',
    10: 'DEEP (a class body nests over 8 blocks, itself included)',
    21: "SUM (a node's value leaves the i32 range)",
    22: 'BACK (HOLD below 0)',
    23: 'LATE (a time over 2,000,000,000)',
    24: 'HELD (PUTR or a START list gives more than is held)',
    25: 'OWNED (PUTS frees more than are owned)',
    26: 'OWING (a process ends with a resource or a slave)',
    27: 'FULL (START with 64 living, or number 2,147,483,647 already given)',
    28: 'BIN (a bin would pass 1,000,000,000)',
    29: 'NOTICES (a 65th return waiting)',
}
KINDS = {
    'started, class': 1, 'ended': 2, 'granted, branch': 4, 'resource returned, resource': 5, 'bin returned, bin': 6,
    'waiting as slave, sync': 7, 'freed, sync': 8, 'TRACE, value': 9, 'closed': 10,
}
# Each fault but 20 and 30: a fresh run never gives 20, and the program never shows 30.
FAULTS = {
    21: plans.one(b'', TRACE(ADD, literal(2147483647), literal(1))),
    22: plans.one(b'', HOLD(literal(-1))),
    23: plans.one(b'', HOLD(literal(2000000001))),
    24: plans.one(RES(1), PUTR(0)),
    25: plans.one(SYNC(), PUTS(0)),
    26: plans.one(RES(1), REQ(getR(0))),
    27: plans.one(b'', DO(64, 1), START(0, 1)),
    28: plans.one(BIN(1000000), DO(1000, 1), PUTB(0, 1000000) + HOLD(literal(1))),
    29: plans.one(BIN(0), DO(65, 1), PUTB(0)),
}


MOVED = '''time 0, process 1: granted, branch 0
time 0, job 2 waits: the first branch lacks item 1, 1 of resource 0 (0 free)
time 3, process 1: ended
time 3, process 1: resource returned, resource 0
time 3, process 2: granted, branch 0
LIMIT, steps done 6, clock 3
time 6, process 2: ended
time 6, process 2: resource returned, resource 0
IDLE, steps done 4, clock 6
'''


class Desk:
    """The program, on files of a folder of its own; it counts what was tried and prints what was wrong."""

    def __init__(self, command, folder):
        self.command = command
        self.file = pathlib.Path(folder, 'model')
        self.tried = self.failed = 0

    def asks(self, *words):
        done = subprocess.run([*self.command, *words], capture_output=True, check=False)
        return done.returncode, done.stdout.decode(), done.stderr.decode(errors='replace')

    def tells(self, command, model):
        """The status, and what was told of these bytes."""
        self.file.write_bytes(model)
        return self.asks(command, str(self.file))[:2]

    def same(self, name, found, expected):
        self.tried += 1
        if found != expected:
            self.failed += 1
            print('desk %s: %.500s\n  and not %.500s' % (name, found, expected))


def refusal(text):
    """`refused N at P` of what was told, if its words are N's."""
    found = re.fullmatch(r'refused (\d+) (.*): the record at byte (\d+)(, the file has over 65,535 bytes)?\n', text)
    if not found or WORDS.get(int(found[1])) != found[2]:
        return text
    return 'refused %s at %s' % (found[1], found[3])


def bounded(text):
    found = re.fullmatch(r'bound (?:(\d+)|(NONE|OVER) \(.*\))\n', text)
    return 'bound ' + (found[1] or found[2].lower()) if found else refusal(text)


def plan_line(text):
    found = re.fullmatch(r'time (\d+), process (\d+): ([A-Za-z ]+(?:, [a-z]+)?)(?: (-?\d+))?', text)
    if not found or found[3] not in KINDS:
        return text
    return '%s %s %d %s' % (found[1], found[2], KINDS[found[3]], found[4] or '0')


def wait_line(text, claimed):
    """The line of one that waits, if it is barred, or an item that it may lack is lacking."""
    found = re.fullmatch(r'time (\d+), job (\d+) waits: (barred by a job ahead|the first branch lacks item (\d), (.*))', text)
    if not found or (found[4] and not claimed.lacks(int(found[2]), int(found[4]), found[5])):
        return text
    return '%s %s 3 %s' % (found[1], found[2], found[4] or '-1')


def plan_lines(texts, model):
    """The lines that were told of this model, each as `plan` prints it if its words are right, and else as it was told."""
    claimed = claims.Claims(model)
    for text in texts:
        line = wait_line(text, claimed) if ' waits: ' in text else plan_line(text)
        started = re.fullmatch(r'\d+ (\d+) 1 (\d+)', line)
        if started:
            claimed.starts(*map(int, started.groups()))
        yield line


def ending(text):
    found = re.fullmatch(r'(CLOSED|IDLE|LIMIT|FAULT (\d+) (.*)), steps done (\d+)', text)
    if not found or (found[2] and WORDS.get(int(found[2])) != found[3]):
        return text
    return '%s %s' % ('fault ' + found[2] if found[2] else found[1].lower(), found[4])


def run_and_bound(desk, name, model, expected):
    """`desk run` and `desk bound` together tell what `plan` prints."""
    status, told = desk.tells('run', model)
    lines = told.rstrip('\n').split('\n')
    bound = bounded(desk.tells('bound', model)[1])
    if bound.startswith('refused'):
        desk.same('run of ' + name, [refusal(told)], expected)
    else:
        desk.same('run of ' + name, [*plan_lines(lines[:-1], model), ending(lines[-1]) + ' ' + bound], expected)
    desk.same('run of %s, its status' % name, status, 1 if expected[-1].startswith(('refused', 'fault')) else 0)


def runs(desk):
    for example in examples.EXAMPLES:
        model, _, _, _, plan = examples.files(example)
        run_and_bound(desk, model.name, model.read_bytes(), plan.read_text().rstrip('\n').split('\n'))
    for name, model, expected in plans.PLANS:
        run_and_bound(desk, 'plan ' + name, model, expected)
    for number, model in FAULTS.items():
        status, told = desk.tells('run', model)
        desk.same('fault %d' % number, (status, ending(told.split('\n')[-2]).split()[:2]), (1, ['fault', str(number)]))


def moves(desk):
    """A run that is moved on so many steps at a time tells the lines of the whole run, its answer, and its steps in parts. The
    endless one writes what it draws, and fills many a journal."""
    endless = plans.one(SAMPLER(4, 7, 1), WHILE(1), TRACE(draw(0)))
    for model in [example() for example in examples.EXAMPLES] + list(FAULTS.values()) + [endless]:
        status, whole = desk.tells('run', model)
        for steps in (1, 7, 100000, 4294967295) if model != endless else (100000, 4294967295):
            moved, told, _ = desk.asks('moves', str(desk.file), str(steps))
            lines = whole.split('\n')
            desk.same('moves, its lines', re.findall('^time .*', told, re.M), lines[:-2])
            parts = [ending(text).rsplit(' ', 1) for text in re.findall(r'^([A-Z].*), clock \d+$', told, re.M)]
            answer, total = ending(lines[-2]).rsplit(' ', 1)
            desk.same('moves, its answers', [word for word, _ in parts], (len(parts) - 1) * ['limit'] + [answer])
            desk.same('moves, its steps', (moved, sum(int(many) for _, many in parts)), (status, int(total)))
    desk.same('moves of two jobs', desk.asks('moves', str(examples.HERE / 'two-jobs.model'), '6'), (0, MOVED, ''))
    desk.same('moves of a bad file', desk.tells('check', b'x'), desk.asks('moves', str(desk.file), '6')[:2])


def waiting(desk):
    """Why each job waits, in the lines of a run and of one that is moved on, and when the run has stopped."""
    for name, model, lines, last in waits.WAITS:
        fault = 1 if last[-1].startswith('FAULT') else 0
        desk.same('waits, ' + name, desk.tells('waits', model), (fault, '\n'.join(last) + '\n'))
        for words in (['run', str(desk.file)], ['moves', str(desk.file), '3']):
            status, told, _ = desk.asks(*words)
            desk.same('%s, %s' % (words[0], name), (status, re.findall('^.* waits: .*', told, re.M)), (fault, lines))
    desk.same('waits with a limit', desk.asks('waits', str(examples.HERE / 'two-jobs.model'), '2'), (
        0, 'nobody waits\nLIMIT, steps done 2\n', ''))
    desk.same('waits of a bad file', desk.tells('check', b'x'), desk.tells('waits', b'x'))
    status, told = desk.tells('run', waits.CROWD)
    named = 'the first branch lacks item 1'
    desk.same('run of a crowd', (status, re.findall('waits: (.*)', told)), (
        0, [named + ', 1 of bin 0 (0 there)'] * 10000 + [named] * (waits.MANY - 10000)))
    moved = desk.asks('moves', str(desk.file), '5000')[1]
    desk.same('moves of a crowd', re.findall('^time .*', moved, re.M), re.findall('^time .*', told, re.M))


def page(desk):
    """What docs/MODEL.md says that is told: in each of its blocks a command, and then that."""
    root = examples.HERE.parent
    blocks = re.findall(r'(?ms)^```told\ndesk (.*?) (.*?) (.*?)\n(.*?)^```$', (root / 'docs' / 'MODEL.md').read_text())
    desk.same('blocks of docs/MODEL.md', [command for command, _, _, _ in blocks], ['run', 'waits'])
    for command, model, limit, told in blocks:
        desk.same('%s of docs/MODEL.md' % command, desk.asks(command, str(root / model), limit), (0, told, ''))


def draws(desk):
    """From seed 1 the 10,000th seed is 1,043,618,065: what is drawn shows its remainders by two numbers, and no other seed has
    both."""
    for values in (1000000, 1000001):
        model = plans.one(SAMPLER(0, values - 1, 1), DO(10000, 1) + TRACE(local(0)), LSET(0, draw(0)))
        traced = plan_line(desk.tells('run', model)[1].split('\n')[0])
        desk.same('the 10,000th draw of %d values' % values, traced, '0 1 9 %d' % (1043618065 % values))


def checks(desk):
    """Every case: each refusal at its place from both commands, and each bound. A file without a 0 among its first four bytes is
    taken for a text, and refused as one; an empty file is accepted either way."""
    seen = set()
    for name, records, answer in cases.CASES:
        expected = cases.line(records, answer)
        refused = expected.startswith('refused')
        model = b''.join(records)
        if model and 0 not in model[:4]:
            desk.same('check of ' + name, (refused, desk.tells('check', model)[1][:10]), (True, 'refused 51'))
            continue
        seen |= {int(expected.split()[1])} if refused else set()
        status, told = desk.tells('check', model)
        desk.same('check of ' + name, (status, refusal(told)), (1, expected) if refused else (0, 'accepted\n'))
        status, told = desk.tells('bound', model)
        desk.same('bound of ' + name, (status, bounded(told)), (1 if refused else 0, expected))
    desk.same('refusals tried', seen, set(range(1, 11)))


def usage(desk):
    """Limits, and what is said of bad words and of files that can't be read."""
    grade = str(examples.HERE / 'grade.model')
    desk.same('run with a limit', desk.asks('run', grade, '2'), (
        0, 'time 0, process 1: granted, branch 0\nLIMIT, steps done 2\n', ''))
    desk.same('run of no steps', desk.asks('run', grade, '0'), (0, 'LIMIT, steps done 0\n', ''))
    desk.same('check of a file that is too long', desk.tells('check', bytes(65536)), (
        1, 'refused 4 MANY (one more than a limit): the record at byte 0, the file has over 65,535 bytes\n'))
    desk.same('run with the greatest limit', desk.asks('run', grade, '4294967295'), desk.asks('run', grade))
    for words in ([], ['check'], ['run'], ['plan', grade], ['check', grade, '1'], ['bound', grade, '1'],
                  ['run', grade, '1', '1'], ['run', grade, ''], ['run', grade, '-1'], ['run', grade, '1x'],
                  ['moves', grade], ['moves', grade, '0'], ['run', grade, '4294967296'], ['run', grade, '99999999999999999999'],
                  ['waits'], ['waits', grade, '-1'], ['waits', grade, '1', '1'], ['records'], ['records', grade, '1']):
        status, told, complaint = desk.asks(*words)
        desk.same('words %s' % words, (status, told, complaint[:6]), (2, '', 'usage:'))
    for name, reason in ((str(desk.file) + '.none', 'No such file or directory'), (str(desk.file.parent), 'Is a directory')):
        for command in ('check', 'bound', 'run', 'waits'):
            desk.same(command + ' of what is no file', desk.asks(command, name), (
                2, '', "desk: %s can't be read: %s\n" % (name, reason)))


def texts(desk):
    """A text is taken by every command, and gives what its records give; `records` writes them. A mistake is told in words."""
    for example in examples.EXAMPLES:
        model = examples.files(example)[0]
        text = model.with_suffix('.text')
        for words in (['check'], ['bound'], ['run'], ['waits', '60']):
            desk.same('%s of %s' % (words[0], text.name), *(desk.asks(words[0], str(file), *words[1:]) for file in (text, model)))
        done = subprocess.run([*desk.command, 'records', str(text)], capture_output=True, check=False)
        desk.same('records of ' + text.name, (done.returncode, done.stdout, done.stderr), (0, model.read_bytes(), b''))
    for text, told, said in mistakes.told(str(desk.file)):
        desk.file.write_bytes(text)
        for command in ('records', 'check', 'run'):
            done = subprocess.run([*desk.command, command, str(desk.file)], capture_output=True, check=False)
            desk.same('%s of %r' % (command, text), (done.returncode, done.stdout, done.stderr), (1, told, said))


def main(words):
    with tempfile.TemporaryDirectory() as folder:
        desk = Desk(words, folder)
        runs(desk)
        moves(desk)
        waiting(desk)
        page(desk)
        draws(desk)
        checks(desk)
        texts(desk)
        usage(desk)
    print('desk: %d told as they should, %d not' % (desk.tried - desk.failed, desk.failed))
    return desk.failed


if __name__ == '__main__':
    sys.exit(1 if main(sys.argv[1:]) else 0)
