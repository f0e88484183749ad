"""Models as text: examples/NAME.text is the text of NAME.model, and docs/TEXT.md says of its own texts what is so.

    python3 -B tests/texts.py COMMAND ...    reads each text by COMMAND, which writes records or prints `refused N at P`

Each examples/*.text must be read to the very bytes of the .model beside it, and each .model has a .text. Of the page, each text
with a `^` in a table must be refused with the number of its row at that place; the text of section 1 and each text fenced as
```text NAME must be read to the bytes that are worked out here by hand (WORKED). It fails as well if a file, a row or a fenced
text is missing.
"""
import pathlib
import re
import subprocess
import sys

from records import *

ROOT = pathlib.Path(__file__).resolve().parent.parent
EXAMPLES = ROOT / 'examples'
PAGE = (ROOT / 'docs' / 'TEXT.md').read_text()


def studio_day():
    """Section 1. Blocks: 0 feature, 1 its do, 2 trailer, 3 and 4 its branches."""
    return (RES(2) + RES(1) + VAR(0) + SAMPLER(4, 7, 1) + CLASS(2) + CLASS(0) + ENTITY(1, 0) + ENTITY(0, 2)
            + BLOCK() + DO(3, 1) + START(0, 0)
            + BLOCK() + REQ(getR(0, 1), getR(1, 1)) + LSET(0, ADD, local(0), literal(1))
            + HOLD(ADD, draw(0), MULTIPLY, literal(2), local(0)) + PUTR(1, 1) + PUTR(0, 1)
            + BLOCK() + TRY(branch(3, getR(0, 1), condition(0, 1, 5)), branch(4, condition(0, 5, 5)))
            + BLOCK() + HOLD(draw(0)) + PUTR(0, 1) + SET(0, ADD, global_(0), literal(1))
            + BLOCK() + CLOSE())


def nested():
    """Section 8, the table of blocks."""
    return (VAR(3) + CLASS(0) + ENTITY(0, 0)
            + BLOCK() + DO(2, 1) + TRACE(MULTIPLY, NEGATE, global_(0), literal(2))
            + BLOCK() + SET(0, SUBTRACT, SUBTRACT, global_(0), literal(1), literal(1))
            + TRY(branch(2, condition(0, 1, 0)), branch(3))
            + BLOCK() + CLOSE()
            + BLOCK())


WORKED = {
    'studio-day': studio_day(),
    'two-jobs': (EXAMPLES / 'two-jobs.model').read_bytes(),
    'nested': nested(),
}


# ---- what is held


def examples():
    """Each example: its name, its text, and the records that it must give."""
    models, texts = ({path.stem for path in EXAMPLES.glob('*.' + ending)} for ending in ('model', 'text'))
    if models != texts or not models:
        sys.exit('examples: %s have no .model or no .text' % sorted(models ^ texts))
    for name in sorted(models):
        yield 'examples/%s.text' % name, *((EXAMPLES / (name + ending)).read_bytes() for ending in ('.text', '.model'))


def worked():
    """Each text of the page that is read: its name, its text, and its records."""
    texts = dict(re.findall(r'(?ms)^```text ([\w-]+)\n(.*?)^```$', PAGE))
    first = re.search(r'(?m)^## 1\..*\n((?:    .*\n|\n)+)', PAGE)
    if first:
        texts['studio-day'] = first[1]
    if set(texts) != set(WORKED):
        sys.exit('docs/TEXT.md: its texts are %s, and worked out are %s' % (sorted(texts), sorted(WORKED)))
    return [('docs/TEXT.md, ' + name, text.encode(), WORKED[name]) for name, text in texts.items()]


def refused():
    """Each text of the page that is refused: its row, its text, and what is printed."""
    rows = re.findall(r'(?m)^\| (.*\^.*) \| (\d+)\b.*\|$', PAGE)
    numbers = {number for _, number in rows}
    if not {'51', '52', '53', '54'} <= numbers:
        sys.exit('docs/TEXT.md: rows of refusals with numbers %s' % sorted(numbers))
    for cell, number in rows:
        texts = re.findall('`([^`]*)`', cell)
        if not texts or any(text.count('^') != 1 for text in texts):
            sys.exit('docs/TEXT.md: a row without one ^ in each text: %s' % cell)
        for text in texts:
            printed = 'refused %s at %d\n' % (number, text.index('^'))
            yield 'docs/TEXT.md, `%s`' % text, text.replace('^', '').encode(), printed.encode()


def main(command):
    groups = [list(examples()), list(worked()), list(refused())]
    failed = 0
    for name, text, expected in sum(groups, []):
        given = subprocess.run(command, input=text, capture_output=True, check=False).stdout
        if given != expected:
            failed += 1
            print('%s\n  gives    %r\n  and not  %r' % (name, given, expected))
    told = (len(groups[0]), len(groups[1]), len(groups[2]), failed)
    print('texts: %d examples; of docs/TEXT.md %d read and %d refused; %d wrong' % told)
    return failed


if __name__ == '__main__':
    sys.exit(1 if main(sys.argv[1:]) else 0)
