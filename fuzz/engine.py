"""The engine's source as Rust, for a compiler that counts coverage: every crate that `desk_c` stands on is a module of one file.

    python3 -B fuzz/engine.py OUT [EDIT]    writes OUT; EDIT is a must-fail edit of the source, CRATE/NAME, and is made first

It goes the way of tests/native.py: the source without its contracts, nothing else changed. It proves nothing. The
functions of `desk_c` keep their names as plain functions, so that they stand beside those of the proved library.
"""
import pathlib
import re
import sys

ROOT = pathlib.Path(__file__).resolve().parent.parent
sys.path.insert(0, str(ROOT / 'tests'))

import edits  # noqa: E402: from the folder above
import native  # noqa: E402


def edited(texts, name):
    """The sources with the edit made."""
    crate = name.partition('/')[0]
    for edit in edits.edits_of(crate):
        if crate in texts and name == '%s/%s' % (crate, edit.name) and edit.file.startswith('src/'):
            return {**texts, crate: edit.made(texts[crate])}
    sys.exit('%s: not an edit of the source' % name)


def inside(text):
    """The modules with all but `desk_c` for these alone: what is called nowhere has no counters then."""
    return re.sub(r'(?m)^pub mod (?!desk_c )', 'pub(crate) mod ', text)


def main(out, edit=None):
    texts = native.sources('desk_c')
    pathlib.Path(out).write_text(inside(native.modules(edited(texts, edit) if edit else texts)))


if __name__ == '__main__':
    main(*sys.argv[1:])
