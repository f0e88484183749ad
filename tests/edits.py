"""The must-fail edits: each is a wrong answer that a contract rules out, or a wrong rule in a definition.

    python3 -B tests/edits.py           fails if docs/EDITS.md isn't up to date, a public function has fewer than two edits, or
                                        an edit is not refused for itself; tries those that were not tried on this machine yet
    python3 -B tests/edits.py NAME..    the same for the edits of these crates alone
    python3 -B tests/edits.py write     writes docs/EDITS.md

A file crates/NAME/must-fail/*.edit has an edit to a paragraph: `# `, its name and what would be wrong, then `file:` and pairs
`old:`, `new:`. The gate makes all edits of a file in one copy of the crate and checks that once, which is refused if one of them
is; so all that the check says is read here (tests/tries.py). Edits of one file are in functions of which none comes to another,
and each function's own proof must be refused at a fact: not because something else was refused, nor because a proof names what
the edited code no longer has, as far as the words of the check tell. A step of a proof is named after the test in the code; so an
edit of a test may carry these names along, by pairs of the function's proof that change names alone. An edit of a contract or a
definition has a file to itself, and a fact refused anywhere in its crate will do.

An edit of a function or a constant that isn't public is one of every public function that comes to it inside its crate; where
none does, it is one of that function alone. The methods of a public trait are public, and come to those of each `impl` of it.
"""
import pathlib
import re
import sys

import tries

ROOT = pathlib.Path(__file__).resolve().parent.parent
PAPER = ROOT / 'docs' / 'EDITS.md'
SOURCE, PROGRAM = 'src/lib.rt', 'src/main.rt'
HEAD = '''# Must-fail edits

One wrong answer each. The gate applies the edits of a file to a copy of its crate, and passes only if the check then refuses the
proof of each function whose code was edited, at a fact; or, of an edited contract or definition, some fact. Every public
function has two or more. `python3 -B tests/edits.py write` writes this page from `crates/*/must-fail`; the head of that script
says how the edits of one file are kept apart.
'''
# A function, a method or a constant, with the attributes above it.
ITEM = re.compile(r'^((?: *#\[[^\[\]]*\]\n)*) *(pub )?(?:extern "C" )?(fn|const) (\w+)', re.M)
# Where the methods of a type or of a trait stand: they are called TYPE::NAME here. An `impl` has its trait before it.
HOLDER = re.compile(r'^(?:impl(?:<.*?>)? (?:([\w:]+)(?:<.*?>)? for )?|(pub )?trait )(\w+).*?^\}', re.M | re.S)
# The name of a cycle of calls, whose proofs have one folder.
CYCLE = re.compile(r'#\[cycle\((\w+)\)\]')
# A name of a step or a goal.
DASHED = r'\w+(?:-\w+)+'
# What the check says of a fact or a term, and where; and what it says where only something else was refused, or a name is
# missing.
SAID = re.compile(r'^(?:note: )?(.+?):(\d+):\d+: (?:error: |(it is not proved ))(.*)$', re.M)
BESIDE = re.compile(r'was not admitted|was rejected')
MISSING = re.compile(r'has no field|is not in scope|has no `|\(nearest: ')
# What it says of a goal without an answer, if it found values at which that is false.
FALSE = 'allow values at which this goal is false'


class Edit:
    """A paragraph: a name, what would be wrong, the file that is changed, and the texts in turn, old and new. Pairs of another
    file, a proof of the function, only carry names along."""

    def __init__(self, path, text):
        first, *lines = text.split('\n')
        first = first.removeprefix('# ')
        self.crate, self.tried = path.parent.parent.name, path.stem
        self.name, _, self.says = first.partition(': ')
        self.file = lines[0].partition('file: ')[2]
        texts = {}
        for line in lines:
            if line[:6] == 'file: ':
                pairs = texts.setdefault(line[6:], [])
            elif line[:4] in ('old:', 'new:'):
                pairs.append(line[5:])
        self.pairs, self.carried = texts.pop(self.file, []), texts
        if not re.fullmatch(r'\w+', self.name) or any(not pairs or len(pairs) % 2 for pairs in (self.pairs, *texts.values())):
            sys.exit(f'{path}: not an edit: {first}')

    def made(self, text):
        for old, new in zip(self.pairs[::2], self.pairs[1::2]):
            if text.count(old) != 1:
                sys.exit(f'{self.crate}/{self.name}: {text.count(old)} times in {self.file}: {old}')
            text = text.replace(old, new)
        return text


def edits_of(crate):
    for path in sorted((ROOT / 'crates' / crate / 'must-fail').glob('*.edit')):
        for text in path.read_text().strip('\n').split('\n\n'):
            yield Edit(path, text)


def crates():
    lines = (ROOT / 'crates.txt').read_text().splitlines()
    return [line.split(':')[0].split()[0] for line in lines if line and line[0] != '#']


def uses(body, name, module):
    """Whether a body, which stands in this module, calls a function of its crate, or names a constant of it. A method goes by its
    name, whatever it is called on; a type parameter has one letter."""
    holder, _, name = name.rpartition('::')
    holder = holder.rpartition('::')[2]
    before = rf'(?:\.|\b(?:Self|[A-Z]|{holder})::)' if holder not in ('', module) else r'(?<![:.\w])'
    return re.search(before + name + (r'\b' if name.isupper() else r'(?:::<.*?>)?\('), body)


class Source:
    """The functions and constants of a crate's sources, and which of them come to which. One of a module's file has its name."""

    def __init__(self, crate):
        folder = ROOT / 'crates' / crate
        self.file = PROGRAM if (folder / PROGRAM).exists() else SOURCE
        self.texts = {str(path.relative_to(folder)): path.read_text() for path in sorted((folder / 'src').glob('*.rt'))}
        self.items, self.public, self.constants, self.cycles, self.bodies = [], set(), set(), {}, {}
        self.impls, self.modules = [], {}
        for file in sorted(self.texts, key=lambda file: (file != self.file, file)):
            self.read(file, self.texts[file])
        self.names = {name: {other for other in self.bodies
                             if other != name and uses(re.sub(r'//.*', '', body), other, self.modules[name])}
                      for name, body in self.bodies.items()}
        for method, name in self.impls:
            self.names.get(method, set()).add(name)

    def read(self, file, text):
        module = [] if file == self.file else [pathlib.Path(file).stem]
        holders = [(m.start(), m.end(), m[1], m[2], m[3]) for m in HOLDER.finditer(text)]
        found = list(ITEM.finditer(text))
        for m, end in zip(found, [m.start() for m in found[1:]] + [len(text)]):
            held = [holder for start, stop, *holder in holders if start < m.start() < stop]
            name = '::'.join(module + [holder for _, _, holder in held] + [m[4]])
            self.items.append((file, m.start(), name))
            self.bodies[name] = text[m.start():end]
            self.impls += [('::'.join(module + [trait, m[4]]), name) for trait, _, _ in held if trait]
            self.modules[name] = ''.join(module)
            if m[2] or any(public for _, public, _ in held):
                self.public.add(name)
            if m[3] == 'const':
                self.constants.add(name)
            for cycle in CYCLE.findall(m[1]):
                self.cycles.setdefault(cycle, set()).add(name)

    def item_at(self, file, at):
        return [name for where, start, name in self.items if where == file and start <= at][-1]

    def item_on(self, file, line):
        return self.item_at(file, len(''.join(self.texts[file].splitlines(True)[:line])) - 1)

    def item_of(self, edit, old):
        return self.item_at(edit.file, self.texts[edit.file].index(old))

    def in_code(self, edit):
        """Whether all that it changes is code, and no contract."""
        for old in edit.pairs[::2]:
            body = self.bodies[self.item_of(edit, old)]
            begun = re.search(r'^ *\{$', body, re.M)
            if begun and old not in body[begun.start():]:
                return False
        return True

    def shown_in(self, edit):
        """The functions whose own proofs an edit of code must break: those that it changes, or that name what it changes."""
        items = {self.item_of(edit, old) for old in edit.pairs[::2]}
        return items - self.constants | {name for name in self.bodies if self.names[name] & items & self.constants}

    def proved_in(self, file):
        """The functions whose proof a file is part of."""
        found = re.fullmatch(r'proofs/([\w/+]+)/\w+\.antt', file)
        name = found[1].replace('/', '::') if found else ''
        cycle = name.rpartition('+')[2]
        return self.cycles.get(cycle, {name.replace('+', '')}) if name else set()

    def come_to(self, name):
        met, rest = set(), {name}
        while rest:
            met |= rest
            rest = set().union(*(self.names[other] for other in rest)) - met
        return met

    def public_over(self, name):
        """The public functions that come to an item, itself among them."""
        met, rest = set(), {name}
        while rest:
            met |= rest
            rest = {other for other, named in self.names.items() if named & rest} - met - self.public
        over = met | {other for other, named in self.names.items() if named & (met - self.public)}
        return [other for _, _, other in self.items if other in over & self.public]

    def told_of(self, edit):
        """The functions that an edit is one of. Where no public one comes to what it changes, as in a program, it is that one."""
        name = self.item_of(edit, edit.pairs[0])
        return self.public_over(name) or [name]


class Log:
    """What the check said of a copy of a crate with the edits of a file: in the proofs of which functions it refused a fact.

    A goal without an answer that isn't proved counts if it is shown false; or if no name is missing in the function's proofs, since
    then it was proved as the code was. Where names are missing it may only lack the answer that it had under another name.
    """

    def __init__(self, text, source):
        self.refused, lacking, unproved = set(), set(), set()
        for place, line, goal, said in SAID.findall(text):
            of = self.functions(place.removeprefix('./'), int(line), source)
            if MISSING.search(said):
                lacking |= of
            elif goal and FALSE not in said:
                unproved |= of
            elif not BESIDE.search(said):
                self.refused |= of
        self.refused |= unproved - lacking

    def functions(self, file, line, source):
        """Those that a file of the copy speaks of; an empty name for a file that speaks of none."""
        return {source.item_on(file, line)} if file in source.texts else source.proved_in(file) or {''}


def together(source, edits):
    """Faults of the edits of one file: those that could hide behind one another."""
    if len(edits) == 1:
        return []
    wrong = [f'{edit.name}: not of code alone' for edit in edits if edit.file not in source.texts or not source.in_code(edit)]
    for i, edit in enumerate(edits if not wrong else []):
        for other in edits[i + 1:]:
            pairs = [(f, g) for f in source.shown_in(edit) for g in source.shown_in(other)]
            if any(f in source.come_to(g) or g in source.come_to(f) for f, g in pairs):
                wrong.append(f'{edit.name} and {other.name}: one function comes to the other')
    return wrong


def carried(source, edit):
    """Faults of the pairs that carry names along: they are of a proof of a function that the edit changes, and change names alone,
    each to one and the same that doesn't stand there."""
    for file, pairs in edit.carried.items():
        olds, news = pairs[::2], pairs[1::2]
        names = dict(both for old, new in zip(olds, news) for both in zip(re.findall(DASHED, old), re.findall(DASHED, new)))
        changed = {old: new for old, new in names.items() if old != new}
        standing = set(re.findall(DASHED, (ROOT / 'crates' / edit.crate / file).read_text()))
        is_of_it = source.proved_in(file) & source.shown_in(edit)
        is_new = len(set(changed.values()) - standing) == len(changed)
        is_alone = [re.sub(DASHED, lambda found: names.get(found[0], found[0]), old) for old in olds] == news
        if not (is_of_it and is_new and is_alone):
            yield f'{edit.name}: what is carried along in {file} is more than names'


def refused(source, edits, said):
    """Faults of the edits of one file as they were tried: those that were not refused for themselves."""
    log = Log(said, source)
    if len(edits) == 1 and (edits[0].file not in source.texts or not source.in_code(edits[0])):
        return [] if log.refused else [f'{edits[0].name}: refused at no fact']
    return [f'{edit.name}: not refused in its own proof, or not at a fact' for edit in edits
            if not log.refused & source.shown_in(edit)]


def rows():
    """Crate by crate: its source, and its edits in the order of what they change, each with its public functions."""
    for crate in crates():
        source = Source(crate)
        edits = sorted(edits_of(crate), key=lambda edit: (source.texts.get(edit.file) or '').find(edit.pairs[0]))
        yield crate, source, [(edit, source.told_of(edit) if edit.file in source.texts else []) for edit in edits]


def few(source, told):
    """Public functions with fewer than two edits. One of specs/ alone may be of any of them."""
    beside = sum(1 for _, over in told if not over)
    for name in sorted(source.public - source.constants):
        if sum(name in over for _, over in told) + beside < 2:
            yield f'{name}: fewer than two edits'


def faults(crate, source, told, tried):
    for name in sorted({edit.tried for edit, _ in told}):
        edits = [edit for edit, _ in told if edit.tried == name]
        yield from (fault for edit in edits for fault in carried(source, edit))
        yield from together(source, edits) or refused(source, edits, tried.log(crate, name))


def listed(names):
    told = [f'`{name}`' for name in names[:2]] + ([f'{len(names) - 2} more'] if len(names) > 2 else [])
    return ', '.join(told) or 'definitions'


def paper(table):
    lines = [HEAD]
    for crate, _, told in table:
        if told:
            lines.append(f'## {crate}\n\n| Edit | What would be wrong | Of |\n|---|---|---|')
            lines += [f'| `{edit.name}` | {edit.says} | {listed(over)} |' for edit, over in told]
            lines.append('')
    return '\n'.join(lines)


def main(words):
    table = list(rows())
    if words == ['write']:
        PAPER.write_text(paper(table))
        return
    for name in set(words) - {row[0] for row in table}:
        sys.exit(f'no crate {name}')
    if PAPER.read_text() != paper(table):
        sys.exit('docs/EDITS.md is not up to date: python3 -B tests/edits.py write')
    wrong = [f'{crate}: {fault}' for crate, source, told in table for fault in few(source, told)]
    wanted = [row for row in table if not words or row[0] in words]
    tried = tries.Tries([crate for crate, _, _ in wanted])
    wrong += tried.bad + [f'{crate}: {fault}' for crate, source, told in wanted for fault in faults(crate, source, told, tried)]
    if wrong:
        sys.exit('\n'.join(wrong))
    print(sum(len(told) for _, _, told in wanted), 'must-fail edits in', tried.files, 'files, each refused for itself;', tried.tried,
          'files were tried in this run, the others earlier on this machine, with all that they rest on as it is now')


if __name__ == '__main__':
    main(sys.argv[1:])
