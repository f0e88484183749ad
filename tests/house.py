"""The house in order: what crates.txt and docs/ARCHITECTURE.md say of the sources is so.

    python3 -B tests/house.py           fails if crates.txt lists for a crate something else than what it uses, or a crate that
                                        stands below it in the list; if docs/ARCHITECTURE.md lacks a crate, or has one that isn't
                                        there; if a name of its glossary doesn't stand in the file that is given with it; or if a
                                        literal above 9 stands in code, or in specs and contracts, that its tables of exceptions
                                        don't have
    python3 -B tests/house.py write     writes the lists of crates.txt, in the order of its lines

A crate uses another if its sources, specs or proofs name it, or if it holds a value of a type that the other declares (REACHED).
Code is a source without comments, contracts and constants. A constant of the specs is an abbrev of type ℕ.
"""
import pathlib
import re
import sys

import native

ROOT = native.ROOT
LIST = ROOT / 'crates.txt'
PAPER = ROOT / 'docs' / 'ARCHITECTURE.md'
KIT = ['arrayvec', 'itoa']
# Types that a crate holds without naming them; `rt` says where one is missing.
REACHED = {'desk_c': ['run_by_value', 'row_struct']}
# Crates whose specs and contracts still have numbers without a name.
UNNAMED = ['semantics', 'promises', 'text_promises', 'text_agrees', 'text_answers']
# Crates with laws in proofs that would stand in specs if no must-fail edit made them fall: what is said there is tested, too.
FALLING = ['file_actions', 'text_reader']
ROW = re.compile(r'(?m)^\| `(\w+)` \| (.*?) \|')


def sources(crate):
    return sorted((ROOT / 'crates' / crate / 'src').glob('*.rt'))


def used(crate, known):
    """The crates and kit libraries that it names, in the order of `known`."""
    named = set(REACHED.get(crate, []))
    for path in (ROOT / 'crates' / crate).rglob('*'):
        if path.suffix in ('.rt', '.antt'):
            text = path.read_text()
            named |= set(re.findall(r'\bRattle\.(\w+)(?=\.)', text))
            if path.suffix == '.rt':
                named |= set(re.findall(r'\b([a-z]\w*)::', re.sub(r'//.*', '', text)))
    return [name for name in known if name in named - {crate}]


def lists(table):
    """The lines of crates.txt as they should be."""
    known = list(table) + KIT
    for line in LIST.read_text().splitlines():
        crate = line.partition(':')[0]
        name = crate.split()[0] if crate else ''
        yield ' '.join([crate + ':'] + used(name, known)) if name in table else line


def code(text):
    """A source without comments, contracts, constants, bytes and texts."""
    text = re.sub(r'//.*', '', native.without_contracts(text))
    text = re.sub(r'(?ms)^ *(pub )?const .*?;$', '', text)
    return re.sub(r"b'(\\.|[^'])'|b\"[^\"]*\"", '', text)


def contracts(text):
    """What `requires` and `ensures` of a source say."""
    clause = r'(?ms)^\s*(?:requires|ensures)\*?(?:\s+\w+)?\s*\{(.*?)\}\n(?=\s*(?:requires|ensures|\{|;))'
    return '\n'.join(re.findall(clause, re.sub(r'//.*', '', text)))


def spec(text):
    """A file of specs without comments, texts and constants."""
    text = re.sub(r'"[^"]*"', '', re.sub(r'--.*', '', text))
    return re.sub(r'(?m)^abbrev (pub )?([\w-]+) : ℕ\n\2 = .*$', '', text)


def above_nine(text):
    numbers = re.findall(r"(?<![\w.'-])(\d[\d_]*)(?:[ui](?:8|16|32|64|size))?(?![\w'])", text)
    return {int(number) for number in numbers if int(number) > 9}


def literals(crate):
    return above_nine(''.join(code(path.read_text()) for path in sources(crate)))


def said(crate):
    """The literals of its specs and contracts."""
    parts = ['specs', 'proofs'] if crate in FALLING else ['specs']
    texts = [spec(path.read_text()) for part in parts for path in (ROOT / 'crates' / crate / part).glob('*.antt')]
    return above_nine('\n'.join(texts + [contracts(path.read_text()) for path in sources(crate)]))


def excepted(part):
    """The literals that a table of exceptions has, crate by crate."""
    return {crate: {int(number.replace(',', '')) for number in re.findall(r'[\d,]*\d', cell)}
            for crate, cell in ROW.findall(part)}


def misplaced(paper):
    """What of the glossary isn't so: each word has, in brackets at its end, names and the file in crates in which they stand."""
    part = paper.partition('## Words')[2].partition('\n## ')[0].replace('\n  ', ' ')
    for line in re.findall(r'(?m)^- .*', part):
        *names, file = re.search(r'\(([^()]*)\)$', line)[1].split(', ')
        path = ROOT / 'crates' / file
        if not path.exists():
            yield f'docs/ARCHITECTURE.md: there is no {file}'
            continue
        for name in names:
            if not re.search(r'(?<![\w-])%s(?![\w-])' % re.escape(name.strip('`')), path.read_text()):
                yield f'docs/ARCHITECTURE.md: {name} does not stand in {file}'


def faults():
    table, paper = native.listed(), PAPER.read_text()
    if LIST.read_text() != '\n'.join(lists(table)) + '\n':
        yield 'crates.txt does not list what each crate uses: python3 -B tests/house.py write'
    order = list(table)
    for at, crate in enumerate(order):
        for name in table[crate]:
            if name in order[at:]:
                yield f'{crate} stands above {name} in crates.txt, and uses it'
    told = set(re.findall(r'(?m)^\| `(\w+)` \|', paper.partition('## The floors')[2].partition('\n## ')[0]))
    yield from (f'docs/ARCHITECTURE.md does not say what {crate} is' for crate in order if crate not in told)
    yield from (f'docs/ARCHITECTURE.md speaks of {crate}' for crate in sorted(told - set(order)) if not crate.endswith('_'))
    yield from misplaced(paper)
    part = paper.partition('## Literals that stay')[2].partition('\n## ')[0]
    in_code, _, in_specs = part.partition('In specs and contracts')
    for found, where, stays in ((literals, 'code', excepted(in_code)), (said, 'specs and contracts', excepted(in_specs))):
        for crate in order:
            numbers = set() if found is said and crate in UNNAMED else found(crate)
            if numbers != stays.get(crate, set()):
                yield f'{crate}: literals {sorted(numbers)} in {where}, docs/ARCHITECTURE.md has {sorted(stays.get(crate, []))}'


def main(words):
    if words == ['write']:
        LIST.write_text('\n'.join(lists(native.listed())) + '\n')
        return
    wrong = list(faults())
    if wrong:
        sys.exit('\n'.join(wrong))
    print(len(native.listed()), 'crates: what each uses, what it is, and no number in code, specs and contracts without a name')


if __name__ == '__main__':
    main(sys.argv[1:])
