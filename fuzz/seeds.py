"""Inputs to begin with, and the words that libFuzzer may put in (FOLDER.words).

    python3 -B fuzz/seeds.py judge FOLDER    the models of the tests, each behind a head (fuzz/head.rs)
    python3 -B fuzz/seeds.py texts FOLDER    the texts of the tests, each with room for any records

The models are the examples, the plans, one for each fault, the files of tests/cases.py and those of bench/steps.py, as far as
they have at most 4,096 bytes, and one that is too long for a model. A head has the greatest limits and rooms, and two calls. Of
the examples the row is then handed in changed, in some ways. The texts are the examples and those of docs/TEXT.md, whose keywords and signs are the words.
"""
import hashlib
import pathlib
import re
import struct
import sys

ROOT = pathlib.Path(__file__).resolve().parent.parent
sys.path[:0] = [str(ROOT / 'tests'), str(ROOT / 'bench')]

import cases     # noqa: E402: these are from the folders of the tests and of the benchmarks
import desk      # noqa: E402
import examples  # noqa: E402
import plans     # noqa: E402
import steps     # noqa: E402
import texts     # noqa: E402

MOST = 4096
TOO_LONG = 65536
CALLS = 2
WORDS = 10712
SEEDS = 10696
# Rows handed in that no call left so, each as its length (0: as it should be) and its changes, a word's place and the word.
CHANGED = [(0, [(0, 2 * 10 ** 9)]), (0, [(0, 2 * 10 ** 9 + 1)]), (0, [(1, 1)]), (0, [(2, 2 ** 31 - 1)]), (0, [(3, 1)]),
           (0, [(7, 1)]), (0, [(SEEDS, 0)]), (0, [(SEEDS, 1)]), (0, [(SEEDS, 2 ** 31 - 1)]), (0, [(WORDS - 1, 1)]),
           (0, [(WORDS, 0)]), (0, [(WORDS, 2 ** 64 - 1)]), (1, []), (WORDS, []), (WORDS + 2, [])]


def models():
    yield from (example() for example in examples.EXAMPLES)
    yield from (model for _, model, _ in plans.PLANS)
    yield from desk.FAULTS.values()
    yield from (b''.join(records) for _, records, _ in cases.CASES)
    yield from (model for _, model in steps.MODELS)


def head(length, changes):
    first = struct.pack('<HHBHB', 65535, 65535, CALLS, length, len(changes))
    return first + b''.join(struct.pack('<HQ', *one) for one in changes)


def of_models():
    yield from (head(0, []) + model for model in models() if len(model) <= MOST)
    yield head(0, []) + bytes(TOO_LONG)
    yield from (head(*changed) + example() for example in examples.EXAMPLES for changed in CHANGED)


def of_texts():
    for _, text, _ in [*texts.examples(), *texts.worked(), *texts.refused()]:
        yield struct.pack('<H', 65535) + text


def words():
    """Each keyword and sign of the grammar."""
    grammar = re.search(r'(?ms)^```ebnf\n(.*?)^```$', texts.PAGE)[1]
    return sorted(set(re.findall(r'"([^"]+)"', grammar)))


def main(judge, folder):
    folder = pathlib.Path(folder)
    folder.mkdir(parents=True, exist_ok=True)
    for one in of_texts() if judge == 'texts' else of_models():
        (folder / hashlib.sha1(one).hexdigest()).write_bytes(one)
    pathlib.Path(str(folder) + '.words').write_text(''.join('"%s"\n' % word for word in words() if judge == 'texts'))
    print('%d seeds' % len(list(folder.iterdir())))


if __name__ == '__main__':
    main(*sys.argv[1:])
