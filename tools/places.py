#!/usr/bin/env python3
"""Lists the places in crates/*/src that docs/DESIGN-PASS.md counts, point by point.

Run from the project's root: python3 tools/places.py [POINT] [--counts]
POINT is 1 to 8; without one all are listed. Each line is `POINT kind crate:line what`. --counts prints
how many places each kind has, in all and floor by floor. A place is found by its form alone, so that
the same command finds the same places again; whether one is changed or stays is for the page to say.
"""
import collections
import pathlib
import re
import sys

ROOT = pathlib.Path(__file__).resolve().parent.parent
NAME = r'[A-Za-z_]\w*'
COUNTS = {'len', 'n', 'm', 'l', 'height', 'levels', 'size', 'count', 'at', 'end', 'left', 'many', 'start', 'next', 'e', 'p'}
STEP = re.compile(rf'\b({NAME}) (?:\+= 1|-= 1|= \1 [+-] 1);')
CODES = re.compile(r'^pub mod (refusal|fault|answer|line|kind|item|notice|group|column|tail|op|part|branch|mark|symbol|sort)\b')


class Function:
    """One function of a source file: its head up to the contract, its contract and its body."""

    def __init__(self, crate, line, name, head, contract, body):
        self.crate, self.line, self.name = crate, line, name
        self.head, self.contract, self.body = head, contract, body
        inside = head[head.index('(') + 1:head.rindex(')')] if ')' in head else ''
        self.parameters = [p.strip() for p in split(inside) if p.strip()]
        self.result = head.rpartition('->')[2].strip() if '->' in head else ''


def split(text):
    """The parts between the commas that stand in no bracket."""
    parts, depth, part = [], 0, ''
    for c in text:
        depth += (c in '([{<') - (c in ')]}>')
        if c == ',' and depth == 0:
            parts.append(part)
            part = ''
        else:
            part += c
    return parts + [part]


def functions(crate, path):
    lines = path.read_text().split('\n')
    k = 0
    while k < len(lines):
        found = re.match(rf'(\s*)(?:pub )?(?:const )?(?:unsafe )?(?:extern "C" )?fn ({NAME})', lines[k])
        if not found:
            k += 1
            continue
        indent, first = found[1], k
        head, contract, body = [], [], []
        while not re.match(rf'{indent}\s*(requires|ensures|invariant|decreases)', lines[k]) and not lines[k].endswith('{'):
            if lines[k].endswith(';'):
                break
            head.append(lines[k].strip())
            k += 1
        if lines[k].endswith(';'):
            k += 1
            continue
        while lines[k] != indent + '{' and not (not contract and re.match(rf'{indent}\S.*\{{$', lines[k])):
            contract.append(lines[k].strip())
            k += 1
            # A function of a trait may have no body.
            if contract[-1].endswith('};'):
                break
        if contract and contract[-1].endswith('};'):
            continue
        if lines[k] != indent + '{':
            head.append(lines[k].strip().rstrip('{'))
        k += 1
        while k < len(lines) and lines[k] != indent + '}':
            body.append(re.sub(r'\s*//.*', '', lines[k]))
            k += 1
        yield Function(crate, first + 1, found[2], ' '.join(head), contract, body)


def sources():
    for path in sorted(ROOT.glob('crates/*/src/*.rt')):
        yield path.parent.parent.name, path


def loops(function):
    """The while loops of a function, each as its lines."""
    for k, line in enumerate(function.body):
        found = re.match(r"(\s*)(?:'\w+: )?while ", line)
        if found:
            body = []
            for inner in function.body[k + 1:]:
                if inner == found[1] + '}':
                    break
                body.append(inner.strip())
            yield k, line.strip(), body


def shape(function):
    """The body with names put for names and numbers for numbers, and the types of the head likewise."""
    names, out = {}, []
    for token in re.findall(r'[A-Za-z_]\w*|\d\w*|\S', ' '.join(function.body)):
        if token[0].isdigit():
            out.append('#')
        elif token[0].isalpha() or token[0] == '_':
            out.append(str(names.setdefault(token, len(names))))
        else:
            out.append(token)
    return ' '.join(out)


def point_1(every):
    for crate, path in sources():
        text = path.read_text()
        for found in re.finditer(rf'(?m)^(?:pub )?(struct|enum) ({NAME})[^\n]*\{{\n(.*?)^\}}', text, re.S):
            line = text.count('\n', 0, found.start()) + 1
            kind, name, body = found.groups()
            if kind == 'struct' and re.search(r'\b(ok|whole|fits|known|over|lacks): bool|\b(number|fault|trouble): u32|\banswer: u32', body):
                yield 'flag or number beside a value', crate, line, name
            if kind == 'enum' and re.search(r'Refused\(|Fault\(u32\)', body):
                yield 'own enum like Result', crate, line, name
        for k, line in enumerate(text.split('\n'), 1):
            if CODES.match(line) and not line.endswith(';'):
                yield 'numbers for kinds', crate, k, CODES.match(line)[1]
        if path.name in ('mark.rt', 'symbol.rt', 'sort.rt'):
            yield 'numbers for kinds', crate, 1, path.stem
    for f in every:
        if re.fullmatch(r'u8|u16|u32|u64|usize', f.result):
            above = comment(f)
            if re.search(r'\b0 where|, or 0\b|; 0 of|where (there is )?none|where no |number of (the|a) (trouble|refusal)|or 0;', above):
                yield 'answer with a number for none', f.crate, f.line, f.name


def comment(f):
    """The comment right above a function."""
    lines = next(p for c, p in sources() if c == f.crate and len(p.read_text().split('\n')) >= f.line
                 and re.search(rf'fn {f.name}\b', p.read_text().split('\n')[f.line - 1])).read_text().split('\n')
    k, out = f.line - 2, []
    while k >= 0 and (lines[k].strip().startswith('//') or lines[k].strip().startswith('#[')):
        out.append(lines[k].strip())
        k -= 1
    return ' '.join(reversed(out))


def point_2(every):
    groups = collections.defaultdict(list)
    for f in every:
        if len([l for l in f.body if l.strip()]) >= 2:
            groups[shape(f)].append(f)
    for group in groups.values():
        for f in group[1:]:
            yield 'same shape as another', f.crate, f.line, f'{f.name} ~ {group[0].crate}::{group[0].name}'


def point_3(every):
    for f in every:
        for k, head, body in loops(f):
            counted = [l for l in body if STEP.search(l)]
            sliced = [l for l in body if re.search(r'rest = &', l)]
            kind = 'counted by hand' if counted else 'cut by hand' if sliced else 'other while'
            if any('file_reader::next' in l or 'file_reader::read' in l for l in body):
                kind = 'over the records of a file'
            yield kind, f.crate, f.line, f'{f.name}: {head}'


def point_4(every):
    for f in every:
        body = [l.strip() for l in f.body if l.strip()]
        text = ' '.join(body)
        if re.fullmatch(rf'\(?{NAME}(\[\w+\])? as (u8|u16|u32|u64|usize)\)?', text):
            yield 'conversion', f.crate, f.line, f.name
        elif re.fullmatch(rf'if ({NAME}) <=? ({NAME}) \{{ (\1|\2) \}} else \{{ (\1|\2) \}}', text):
            yield 'least or greatest', f.crate, f.line, f.name
        elif re.search(rf'\w+\[(\w+ \+ )?i\] = \w+\[(\w+ \+ )?i\];', text):
            yield 'copying', f.crate, f.line, f.name
        elif re.search(r'!= \w+\[(\w+ \+ )?i\]', text):
            yield 'comparing', f.crate, f.line, f.name
        elif re.search(rf"b'0' \+|/= BASE", text):
            yield 'printing', f.crate, f.line, f.name
        elif f.name in ('number_of', 'bound_word', 'state_of', 'told'):
            yield 'conversion', f.crate, f.line, f.name


def point_5(every):
    for f in every:
        if len(f.parameters) >= 6:
            yield 'six parameters or more', f.crate, f.line, f'{f.name} ({len(f.parameters)})'
    facts = collections.defaultdict(list)
    for f in every:
        seen = set()
        for clause in f.contract:
            found = re.match(rf'requires \w*\s*\{{ ([A-Z]\w*(?:\.\w+)?)', clause)
            if found:
                seen.add(found[1])
        for fact in seen:
            facts[f.crate, fact].append(f)
    for (crate, fact), where in sorted(facts.items()):
        if len(where) >= 3:
            yield 'fact in three contracts or more', crate, where[0].line, f'{fact} ({len(where)})'


def point_6(every):
    for f in every:
        names = {p.split(':')[0].replace('mut ', '').strip() for p in f.parameters if ':' in p}
        lists = [p for p in f.parameters if re.search(r'\[(u8|u16|u32|u64|usize|bool)', p)]
        if lists and names & COUNTS:
            yield 'buffer with a number beside it', f.crate, f.line, f.name
    for crate, path in sources():
        text = path.read_text()
        for found in re.finditer(rf'(?m)^(?:pub )?struct ({NAME})[^\n]*\{{\n(.*?)^\}}', text, re.S):
            arrays = collections.Counter(re.findall(r'\[\w+; ([^\]]+)\]', found[2]))
            if any(n > 1 for n in arrays.values()):
                yield 'parallel arrays', crate, text.count('\n', 0, found.start()) + 1, found[1]


def point_7(every):
    for f in every:
        text = '\n'.join(f.body)
        arms = re.findall(r'^\s*[a-z_]+::[A-Z_]+ => .*\(', text, re.M)
        if len(arms) >= 2:
            yield 'switch by a number', f.crate, f.line, f.name
        if any(re.match(r'(test|share|sort|tail): ', p) for p in f.parameters):
            yield 'told by a number or a flag what to run', f.crate, f.line, f.name


def point_8(every):
    for path in sorted(ROOT.glob('crates/*/proofs/**/Answers.antt')):
        crate = path.relative_to(ROOT / 'crates').parts[0]
        yield 'answer file', crate, 1, str(path.relative_to(ROOT / 'crates' / crate))


def main():
    asked = [a for a in sys.argv[1:] if a != '--counts']
    every = [f for crate, path in sources() for f in functions(crate, path)]
    points = [point_1, point_2, point_3, point_4, point_5, point_6, point_7, point_8]
    for number, point in enumerate(points, 1):
        if asked and str(number) not in asked:
            continue
        places = list(point(every))
        if '--counts' in sys.argv:
            for kind in dict.fromkeys(p[0] for p in places):
                these = [p for p in places if p[0] == kind]
                floors = collections.Counter(p[1].split('_')[0] for p in these)
                print(f'{number} {kind}: {len(these)} (' + ', '.join(f'{a} {b}' for a, b in floors.items()) + ')')
            print(f'{number} in all: {len(places)}')
        else:
            for kind, crate, line, what in places:
                print(f'{number} {kind} | {crate}:{line} {what}')


main()
