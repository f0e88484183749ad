"""docs/MODEL.md held against the definitions and the programs.

    python3 -B tests/model.py                  its tables against crates/semantics/specs and crates/base_numbers
    python3 -B tests/model.py COMMAND ...      its examples, and each record of its tables, through COMMAND, which prints plans
    python3 -B tests/model.py --desk FOLDER    its C program, linked with the library in FOLDER, on the example that it names

A record, refusal, fault, kind of line or limit that the definitions have and the page hasn't is a difference, and so is one
that only the page has. An example is a block that begins with ```KIND NAME. Its kind is model (in each line a place, bytes and
words), python (it writes a model), plan (what is printed of that model), journal (its first lines as bytes) or desk (what the C
program prints of it).
"""
import pathlib
import re
import struct
import subprocess
import sys
import tempfile

ROOT = pathlib.Path(__file__).resolve().parent.parent
PAGE = (ROOT / 'docs' / 'MODEL.md').read_text()
TYPES = {'u16': '<H', 'u32': '<I', 'i32': '<i'}
# The first kind of an action; those below are declarations and BLOCK.
ACTIONS = 16
# What follows the fields of a record: the bytes before its parts, how the page counts these, and the shortest that is right.
TAILS = {
    'nothing': (0, '', b''),
    'expression': (0, ' + 6 × nodes', bytes(6)),
    'claim': (2, ' + 8 × items', bytes(2)),
    'shares': (2, ' + 6 × shares', bytes(2)),
    'branches': (2, ' + 4 × branches + 8 × items', struct.pack('<HHH', 1, 1, 0)),
}


def number(text):
    return int(re.sub('[,_]', '', text))


# ---- what the page says


def table(*head):
    """The rows of the table whose first columns are these, each a list of cells."""
    found = re.search(r'(?m)^\| %s \|.*\n\|[-|]+\|\n((?:\|.*\n)+)' % r' \| '.join(map(re.escape, head)), PAGE)
    if not found:
        sys.exit('docs/MODEL.md has no table %s' % ' | '.join(head))
    return [[cell.strip() for cell in line.strip('|').split('|')] for line in found[1].rstrip('\n').split('\n')]


def numbered(*head):
    """A table whose first two columns are a number and a name: the number by its name."""
    return {row[1]: int(row[0]) for row in table(*head)}


def limits():
    return {row[2].strip('`'): number(row[1]) for row in table('What', 'Number', 'Name')}


def fields(cell):
    """`2 u32 offset, 0..1,000,000` is (2, 'u32', '0..1,000,000')."""
    parts = [] if cell == 'none' else [part.split(' ', 2) for part in cell.split('; ')]
    return [(int(at), kind, rest.partition(', ')[2]) for at, kind, rest in parts]


def records():
    """By its name each record's kind, how many there may be, its fields, what follows them, and its bytes."""
    rows = {row[1]: (int(row[0]), int(row[2]), fields(row[3]), 'nothing', row[4]) for row in table('Kind', 'Name', 'At most')}
    most = limits()['most_actions']
    rows.update({row[1]: (int(row[0]), most, fields(row[2]), row[3], row[4]) for row in table('Kind', 'Name', 'Fields', 'Then')})
    return rows


def steps():
    """By its name, of each thing that a step can be: its faults in order, the kinds of its lines, and whether it walks."""
    return {row[0]: ([int(n) for n in re.findall(r'\b2\d\b', row[1])],
                     [int(n) for n in re.findall(r'\d+', row[2])], row[4] == 'yes')
            for row in table('What', 'Faults, in this order')}


def weights():
    """By its name each action's own weight, and whether something is added to it."""
    return {name: (int(row[1].split()[0]), '+' in row[1]) for row in table('Action', 'Weight') for name in row[0].split(', ')}


def examples(kind):
    return dict(re.findall(r'(?ms)^```%s ([\w-]+)\n(.*?)^```$' % kind, PAGE))


# ---- what the definitions say


def spec(name):
    return (ROOT / 'crates' / 'semantics' / 'specs' / (name + '.antt')).read_text()


def constants(text):
    found = re.findall(r'(?m)^(\w+) = (negsuc )?([\d_]+)', text)
    return {name: -number(digits) - 1 if below else number(digits) for name, below, digits in found}


def words(name):
    """A name of the definitions as the page writes it: `resource_returned` is `resource returned`."""
    return name.replace('_', ' ')


def defined():
    """Refusals, faults, kinds of lines, the value of one that is barred, limits."""
    marks = ['-- 20 to 30 are faults.', '-- The kinds of a journal line.', '-- The value of a line of kind 3',
             '-- At most, of a model file']
    return [constants(part) for part in re.split('|'.join(marks), spec('Numbers'))]


ROW = re.compile(
    r'(?:declares|acts) K\.(?P<name>\w+) (?:No\.(?P<most>\w+) )?(?P<head>\d+) (?P<field>any_value|of_sampler|\(.*?\)) '
    r'(?P<naming>nameless|\(.*?\)) (?:(?P<tail>nothing|expression|claim|branches|shares) )?\(λ bs\. (?P<says>.*)\)$')


def between(stated, most):
    return '%s..%s' % (stated[1], format(most[stated[2]], ','))


def of_sampler(at, most):
    """What `sampler_valid` asks of the field of a sampler that begins here."""
    text = spec('Record')
    name = re.search(r'sampler_of bs = record \{.*?(\w+) = [ui]32 bs %d\b' % at, text)[1]
    asks = re.search(r'(?s)\nsampler_valid x =\n(.*?)\n\n', text)[1]
    above = re.search(r'le_z x\.%s x\.(\w+)' % name, asks)
    spread = re.search(r'le_z \(x\.%s -ℤ x\.(\w+)\) \(pos No\.(\w+)\)' % name, asks)
    stated = re.search(r'within (\d+) No\.(\w+) x\.%s' % name, asks)
    if above:
        return 'up to ' + above[1]
    return 'up to %s + %s' % (spread[1], format(most[spread[2]], ',')) if spread else between(stated, most)


def defined_field(row, at, kind, most):
    stated = re.match(r'\(%s_in %d (\d+) No\.(\w+)\)' % (kind, at), row['field'])
    naming = re.match(r'\(names(?: K\.(\w+)|_local) %d\)' % at, row['naming'])
    if row['field'] == 'of_sampler':
        return at, kind, of_sampler(at, most)
    if stated:
        return at, kind, between(stated, most)
    return at, kind, 'a ' + (naming[1] or 'local') if naming else ''


def defined_records():
    """The table of Record.antt, as `records` gives that of the page."""
    text, kinds, most = spec('Record'), constants(spec('Kinds')), defined()[-1]
    whole = dict(re.findall(r'(?m)^((?:entity|sampler)_of bs) = (record .*)', text))
    rows = {}
    for line in text.partition('\ntable =\n')[2].partition('∷ []')[0].strip().split('\n'):
        row = ROW.match(line.strip().removeprefix('∷ ')).groupdict()
        says = re.sub(r'\w+_of bs', lambda found: whole[found[0]], row['says'])
        read = re.findall(r'\b([ui]\d+) bs (\d+)', says)
        tail = row['tail'] or 'nothing'
        size = '%d%s' % (4 + int(row['head']) + TAILS[tail][0], TAILS[tail][1])
        found = [defined_field(row, int(at), kind, most) for kind, at in read]
        rows[row['name']] = (kinds[row['name']], most[row['most'] or 'most_actions'], found, tail, size)
        assert int(row['head']) == sum(int(kind[1:]) // 8 for kind, _ in read), line
    assert set(rows) == set(kinds) - {'ACTION', 'groups'}, 'Kinds.antt and the table of Record.antt differ'
    return rows


def defined_steps():
    _, faults, kinds, _, _ = defined()
    parts = re.split(r'(?m)^ *unfoldable pub (\w+) :', spec('Step'))
    code = {name: re.sub(r'(?m)^ *(unfolding|--).*$', '', body) for name, body in zip(parts[1::2], parts[2::2])}
    rows = {}
    for name, doer in re.findall(r'(?m)^  act \(?(\w+)[^=]*= (\w+)', code['act']) + [('end of a block', 'ends'),
                                                                                     ('return notice', 'occurs')]:
        body = code[doer] + ''.join(code[other] for other in ('notify', 'free_all') if other + ' ' in code[doer])
        needs = ['SUM'] * ('← worth' in body) + re.findall(r'need No\.(\w+)', body)
        lines = {kinds[kind] for kind in re.findall(r'No\.(\w+)', body) if kind in kinds}
        rows[name] = ([faults[need] for need in needs], sorted(lines), 'walk m' in body)
    return rows


def defined_weights():
    kinds = constants(spec('Kinds'))
    own = re.search(r'own_weights = ((?:\d+ ∷ )+)', spec('Bound'))[1].split(' ∷ ')
    beside = re.findall(r'(?m)^beside m w \(?(\w+).*?= (.*)$', spec('Bound'))
    return {name: (int(own[kinds[name] - kinds['HOLD']]), more != '0') for name, more in beside if name != 'WHILE'}


def base(module, *but):
    """The numbers of a module of base_numbers by their names."""
    text = (ROOT / 'crates' / 'base_numbers' / 'src' / 'lib.rt').read_text()
    body = re.search(r'(?ms)^pub mod %s \{\n(.*?)^\}' % module, text)[1]
    return {name: int(digits) for name, digits in re.findall(r'const (\w+): \w+ = (\d+);', body) if name not in but}


def tables():
    refusals, faults, lines, barred, most = defined()
    relations = re.search(r'relation_of r = get_or \(\w+ ∷ ((?:\w+ ∷ )+)', spec('Record'))[1].split(' ∷ ')[:-1]
    return [
        ('records', records(), defined_records()),
        ('refusals', numbered('No.', 'Refusal'), refusals),
        ('faults', numbered('No.', 'Fault'), faults),
        ('kinds of lines', numbered('Kind', 'Name', 'Process'), {words(name): kind for name, kind in lines.items()}),
        ('values of kind 3', {int(row[0]): True for row in table('Value', 'Why it waits')},
         {value: True for value in [barred['barred'], *range(1, most['most_items'] + 1)]}),
        ('limits', limits(), most),
        ('steps', steps(), defined_steps()),
        ('weights', weights(), defined_weights()),
        ('ops', {name.upper(): op for name, op in numbered('Op', 'Name').items()}, base('op', 'MANY', 'NODE_BYTES')),
        ('items', {name.replace('get', 'GET_').upper(): kind for name, kind in numbered('Kind', 'Item').items()},
         base('item', 'BYTES', 'LAST_RELATION')),
        ('relations', numbered('Relation'), {words(name): at + 1 for at, name in enumerate(relations)}),
    ]


def compare_draws():
    """The draws worked out by hand, and the 10,000th seed, by the numbers of Generator.antt."""
    numbers = constants(spec('Generator'))
    multiplier, modulus = numbers['multiplier'], numbers['modulus']
    low, high, seed = map(int, re.search(r'\(lowest (\d+), highest (\d+), .*\) and the seed (\d+):', PAGE).groups())
    for row in table('Draw', 'Seed', '%s × seed' % format(multiplier, ',')):
        product = multiplier * seed
        said = [seed, product, product % modulus, product % modulus % (high - low + 1)]
        said.append(low + said[-1])
        if [number(cell) for cell in row[1:]] != said:
            yield 'the %s draw is %s' % (row[0], said)
        seed = said[2]
    seed = 1
    for _ in range(10000):
        seed = multiplier * seed % modulus
    if 'From seed 1 the 10,000th seed is\n%s.' % format(seed, ',') not in PAGE:
        yield 'from seed 1 the 10,000th seed is %d' % seed


def compare_tables():
    for name, said, meant in tables():
        for key in sorted(set(said) | set(meant)):
            if said.get(key) != meant.get(key):
                yield '%s: of %s the page has %s, and the definitions %s' % (name, key, said.get(key), meant.get(key))


# ---- the records of the page, tried


def record(kind, body=b''):
    return struct.pack('<HH', 2 + len(body), kind) + body


def lowest(rest, kind):
    """A value that a field may have. A block that an action names is block 1; a class's body is block 0."""
    return int(rest.partition('..')[0]) if '..' in rest else int(rest == 'a BLOCK' and kind >= ACTIONS)


def body_of(row, other=None, value=0):
    """The shortest right body of a record; or with this value in one of its fields."""
    kind, _, parts, tail, _ = row
    packed = [struct.pack(TYPES[form], value if at == other else lowest(rest, kind)) for at, form, rest in parts]
    return b''.join(packed) + TAILS[tail][2]


def wrong_fields(row, declared):
    """Each field with a value next to its set, or the number of what isn't there, and the refusal of that."""
    for at, _, rest in row[2]:
        if '..' in rest:
            low, high = map(number, rest.split('..'))
            yield from ((at, value, 6) for value in [low - 1] * (low > 0) + [high + 1])
        elif rest.startswith('up to '):
            yield at, number('0' + rest.partition(' + ')[2]) + 1, 6
        elif rest:
            yield at, declared[rest.removeprefix('a ')], 8
            if rest == 'a BLOCK' and row[0] >= ACTIONS:
                yield at, 0, 9


def tried():
    """Files made of the page's records, each with the words that its plan begins with."""
    rows = records()
    things = ['RES', 'BIN', 'SYNC', 'VAR', 'CLASS']
    ground = b''.join(record(rows[name][0], body_of(rows[name])) for name in things)
    declared = dict({name: 1 for name in things}, BLOCK=2, local=limits()['locals'])
    block = record(rows['BLOCK'][0])
    for name, row in rows.items():
        kind, most = row[:2]
        before, behind = (ground, block * 2) if kind < ACTIONS else (ground + block, block)
        known = int(name in things)
        right = body_of(row)
        refused = 'refused %d at ' + str(len(before))
        yield name, before + record(kind, right) + behind, ''
        yield name + ', a byte more', before + record(kind, right + b'\0') + behind, refused % 5
        if right:
            yield name + ', a byte less', before + record(kind, right[:-1]) + behind, refused % 5
        for at, value, wrong in wrong_fields(row, declared):
            changed = record(kind, body_of(row, at, value))
            yield '%s with %d at %d' % (name, value, at), before + changed + behind, refused % wrong
        last = 'refused 4 at %d' % (len(before) + (most - known) * len(record(kind, right)))
        yield name + ', one too many', before + record(kind, right) * (most - known + 1), last
    for kind in set(range(40)) - {row[0] for row in rows.values()}:
        yield 'kind %d' % kind, record(kind), 'refused 2 at 0'


# ---- the examples


def model_bytes(name, text):
    data = b''
    for line in text.splitlines():
        place, said = re.match(r' *(\d+)  ((?:[0-9A-F]{2} {1,2})+)', line).groups()
        assert int(place) == len(data), '%s: %s' % (name, line)
        data += bytes.fromhex(said)
    return data


def models():
    """The models that the page gives, as bytes or as a script."""
    found = {name: model_bytes(name, text) for name, text in examples('model').items()}
    for name, text in examples('python').items():
        found[name] = subprocess.run([sys.executable, '-c', text], capture_output=True, check=True).stdout
    return found


def repeated(text):
    """Bytes; behind `n ×` they stand n times."""
    once, times, more = re.fullmatch(r'(.*?)(?:(\d+) × (.*))?', text).groups()
    return bytes.fromhex(once) + bytes.fromhex(more or '') * int(times or 0)


def journal_lines(text):
    for line in text.splitlines():
        length, kind, time, process, value = struct.unpack('<HHIIi', bytes.fromhex(line))
        assert length == 14, line
        yield '%d %d %d %d\n' % (time, process, kind, value)


def compare_header():
    """The functions of desk/desk.h as the page lists them, and the words of an open run."""
    header = (ROOT / 'desk' / 'desk.h').read_text()
    declared = re.findall(r'(?m)^(uint\d+_t desk_\w+)\(((?:[^)])*)\);', header)
    found = {'`%s(%s)`' % (name, ', '.join(re.findall(r'(\w+)(?:,|$)', given))) for name, given in declared}
    listed = {row[0] for row in table('Function', 'Answer')}
    yield from ('only one of desk.h and the page has %s' % name for name in sorted(found ^ listed))
    words = format(int(re.search(r'#define DESK_WORDS (\d+)u', header)[1]), ',')
    if 'a row of %s words (`DESK_WORDS`)' % words not in PAGE:
        yield 'an open run has %s words' % words


def compare_files():
    """The examples against one another and against the folder examples."""
    given, plans = models(), examples('plan')
    if set(given) != set(plans) or len(examples('model')) < 2 or not examples('python'):
        yield 'each model of the page has its plan: %s, %s' % (sorted(given), sorted(plans))
    for name in plans:
        model = ROOT / 'examples' / (name + '.model')
        if model.exists() and (model.read_bytes() != given[name] or model.with_suffix('.plan').read_text() != plans[name]):
            yield '%s is another one in examples/' % name
    if not (ROOT / 'examples' / 'two-jobs.model').exists() or 'two-jobs' not in examples('model'):
        yield 'the worked example is not there'
    for name, text in examples('journal').items():
        if not plans[name].startswith(''.join(journal_lines(text))):
            yield 'the journal of %s is not that of its plan' % name
    quoted = re.findall(r'`([\d -]+)`\s+of\s+`examples/([\w-]+)\.plan`', PAGE)
    for line, name in quoted:
        if line not in (ROOT / 'examples' / (name + '.plan')).read_text().splitlines():
            yield '%s is no line of %s' % (line, name)
    if [line.split()[2:] for line, _ in quoted] != [['3', '1'], ['3', '-1'], ['3', '-1']]:
        yield 'of examples one that lacks its first item and two that are barred: %s' % quoted
    told = {int(row[1].split()[1]) for row in table('File', 'Prints')}
    if told != set(range(1, 10)):
        yield 'one refused file for each number from 1 to 9: %s' % sorted(told)


def compare_runs(command):
    cases = [(name, data, examples('plan')[name]) for name, data in models().items()]
    cases += [(row[2], repeated(row[0].strip('`')), row[1] + '\n') for row in table('File', 'Prints')]
    for name, data, expected in cases:
        ran = subprocess.run(command, input=data, capture_output=True, check=False)
        if ran.stdout.decode() != expected or ran.returncode != 0:
            yield '%s: %s prints, with status %d,\n%s' % (name, command[-1], ran.returncode, ran.stdout.decode())
    for name, data, begins in tried():
        said = subprocess.run(command, input=data, capture_output=True, check=False).stdout.decode()
        if said.startswith('refused') != bool(begins) or not said.startswith(begins):
            yield '%s: %s prints %s, and not %s' % (name, command[-1], said.strip(), begins or 'a plan')


def compare_desk(folder):
    """The C program, built and run."""
    source = re.search(r'(?ms)^```c\n(.*?)^```$', PAGE)[1]
    with tempfile.TemporaryDirectory() as place:
        path = pathlib.Path(place)
        (path / 'desk.c').write_text(source)
        subprocess.run(['gcc', '-std=c11', '-Wall', '-Wextra', '-Werror', '-I', ROOT / 'desk', path / 'desk.c',
                        pathlib.Path(folder) / 'libdesk_c.a', '-lpthread', '-ldl', '-lm', '-o', path / 'desk'], check=True)
        for name, expected in examples('desk').items():
            said = subprocess.run([path / 'desk'], input=models()[name], capture_output=True, check=True).stdout.decode()
            if said != expected:
                yield 'the C program prints of %s\n%s' % (name, said)


def main(words):
    if words[:1] == ['--desk']:
        said, wrong = 'its C program prints what it says', list(compare_desk(words[1]))
    elif words:
        said, wrong = words[-1] + ' prints what it says', list(compare_runs(words))
    else:
        said, wrong = 'its tables are those of the definitions', [
            *compare_tables(), *compare_draws(), *compare_header(), *compare_files()]
    if wrong:
        sys.exit('\n'.join(['docs/MODEL.md:'] + wrong))
    print('docs/MODEL.md:', said)


if __name__ == '__main__':
    main(sys.argv[1:])
