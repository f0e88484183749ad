"""docs/ANSWERS.md: for each public function the law by which its contract admits one answer.

    python3 -B tests/answers.py     fails if a public function of crates/*/src has no line there, or a line stands for nothing; if
                                    the lines are not in order; if a law isn't public in the files named beside it; if a name in
                                    the form, or the end of a memory lent to be written, isn't in the function's `ensures`; if
                                    what an `ensures` takes as given isn't what the `requires` asks for
"""
import pathlib
import re
import sys

ROOT = pathlib.Path(__file__).resolve().parent.parent
PAPER = ROOT / 'docs' / 'ANSWERS.md'
ROW = re.compile(r'^\| `(\w+(?:::\w+)+)` \| (.*) \| (.*) \| (.*) \|$', re.M)
# A function up to its body: its parameters and what it answers, then its clauses. One of a trait has no `pub` and may have no body.
HEAD = re.compile(r'^( *)(pub )?(?:extern "C" )?fn (\w+)(.*?)(?:^\1\{|(?<= \});$)', re.M | re.S)
# Where the methods of a type or of a public trait stand.
HOLDER = re.compile(r'^(?:impl(?:<.*?>)? (?:[\w:]+(?:<.*?>)? for )?|(pub )trait )(\w+).*?^\}', re.M | re.S)
LENT = re.compile(r"(\w+): &(?:'\w+ )?mut |&(?:'\w+ )?mut (self)\b")
CODE = re.compile(r'`([^`]+)`')
# What is short for "given what the `requires` asks for", and that.
SHORT = {'Done': 'Doing', 'PutBack': 'PuttingBack'}
# An `ensures` may speak of each of these where its form says `of all`: its law shows that there is one.
EACH = {'List Process', 'Process', 'Model', 'Lent'}


class Contract:
    """The memories lent to a function to be written, and its clauses, with what is meant at the call written as in `requires`."""

    def __init__(self, head):
        takes, *clauses = re.split(r'^ +(?=requires|ensures)', head, flags=re.M)
        self.lent = [one or other for one, other in LENT.findall(takes)]
        self.asks, self.says = (' '.join(' '.join(clause for clause in clauses if clause.startswith(kind)).split())
                                for kind in ('requires', 'ensures'))

    def given(self):
        for found in re.finditer(r'\(\w+ : ', self.says):
            depth, end = 1, found.end()
            while depth:
                depth += {'(': 1, ')': -1}.get(self.says[end], 0)
                end += 1
            yield self.says[found.end():end - 1]
        for short, whole in SHORT.items():
            yield from (f'{whole} {rest}' for rest in re.findall(rf'\b{short} (.*?) \w+\.new', self.says))


def contracts():
    for path in sorted((ROOT / 'crates').glob('*/src/**/*.rt')):
        text = path.read_text()
        holders = [(m.start(), m.end(), m[1], m[2]) for m in HOLDER.finditer(text)]
        for m in HEAD.finditer(text):
            within = [(trait, holder) for start, end, trait, holder in holders if start < m.start() < end]
            if m[2] or any(trait for trait, _ in within):
                module = [] if within or path.name in ('lib.rt', 'main.rt') else [path.stem]
                name = '::'.join([path.relative_to(ROOT).parts[1]] + module + [holder for _, holder in within] + [m[3]])
                yield name, Contract(m[4])


def stands(law, files):
    return any(re.search(r'^ *pub %s :' % re.escape(law), (ROOT / 'crates' / file).read_text(), re.M)
               for file in files if (ROOT / 'crates' / file).is_file())


def faults(code, rows):
    names = [row[0] for row in rows]
    yield from (f'{name}: no line' for name in sorted(set(code) - set(names)))
    yield from (f'{name}: no public function' for name in names if name not in code)
    if names != sorted(set(names)):
        yield 'the lines are not in order, each once'
    for name, form, laws, files in rows:
        if not CODE.findall(laws):
            yield f'{name}: no law'
        yield from (f'{name}: {law} is not in {files}' for law in CODE.findall(laws) if not stands(law, files.split(', ')))
        if name in code:
            yield from (f'{name}: {fault}' for fault in unsaid(code[name], form))


def unsaid(contract, form):
    """What a contract does not say, for its form or for the memories lent."""
    yield from (f'its `ensures` has no {part}' for part in CODE.findall(form) if not re.search(rf'\b{part}\b', contract.says))
    yield from (f'its `ensures` leaves {memory} open' for memory in contract.lent
                if not re.search(rf'\b{memory}\.new\b', contract.says))
    yield from (f'its `requires` does not ask for {record}' for record in contract.given()
                if record not in contract.asks and not (record in EACH and form.startswith('of all')))


def main():
    code, rows = dict(contracts()), ROW.findall(PAPER.read_text())
    wrong = list(faults(code, rows))
    if wrong:
        sys.exit('\n'.join(wrong))
    print(len(rows), 'public functions, each with the law of its one answer')


if __name__ == '__main__':
    main()
