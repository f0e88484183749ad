"""The engine as Rust, for a machine on which what Rattle builds can't run, or runs under an emulator only.

    python3 -B tests/native.py         the program `plan`: target/native/plan/target/release/plan
    python3 -B tests/native.py desk    the desk's C functions: target/native/desk/target/release/libdesk_c.a

The source of each crate that is needed is taken as it is, as a module, without its contracts; the `main` of `plan`, which takes a
reader and a writer from Rattle's runtime, is written out below, and tests/native_kit.rs stands in for the crates of Rattle's kit.
It proves nothing: it is there for bench/steps.py and tests/changed.py, and stands in for the proved library where that can't be
linked. Sums are checked in the library, and a panic there is told as an answer of all ones.
"""
import pathlib
import re
import subprocess
import sys

ROOT = pathlib.Path(__file__).resolve().parent.parent
CRATES = ROOT / 'crates'
NATIVE = ROOT / 'target' / 'native'
KIT = ROOT / 'tests' / 'native_kit.rs'

# The program's `main`, in place of the one over the runtime.
RUNTIME = 'fn main(rt: HostRuntime)'
MAIN = '''
fn main() -> io::Result<()> {
    let mut writer = io::stdout().lock();
    run(&mut io::stdin().lock(), &mut writer)?;
    writer.flush()
}
'''

# What desk/desk.h declares, over the functions of crate `desk_c`: a slice is a pointer and a length.
DESK = '''
use std::panic::{catch_unwind, AssertUnwindSafe};
use std::slice::{from_raw_parts, from_raw_parts_mut};

#[no_mangle]
pub unsafe extern "C" fn desk_check(file: *const u8, length: usize) -> u32 {
    let file = from_raw_parts(file, length);
    catch_unwind(|| desk_c::desk_check(file)).unwrap_or(u32::MAX)
}

#[no_mangle]
pub unsafe extern "C" fn desk_text(text: *const u8, length: usize, records: *mut u8, room: usize, place: *mut usize) -> u32 {
    let (text, records) = (from_raw_parts(text, length), from_raw_parts_mut(records, room));
    catch_unwind(AssertUnwindSafe(|| desk_c::desk_text(text, records, &mut *place))).unwrap_or(u32::MAX)
}

#[no_mangle]
pub unsafe extern "C" fn desk_bound(file: *const u8, length: usize) -> u64 {
    let file = from_raw_parts(file, length);
    catch_unwind(|| desk_c::desk_bound(file)).unwrap_or(u64::MAX)
}

#[no_mangle]
pub unsafe extern "C" fn desk_run(file: *const u8, length: usize, limit: u32, journal: *mut u8, room: usize) -> u64 {
    let (file, journal) = (from_raw_parts(file, length), from_raw_parts_mut(journal, room));
    catch_unwind(AssertUnwindSafe(|| desk_c::desk_run(file, limit, journal))).unwrap_or(u64::MAX)
}

#[no_mangle]
pub unsafe extern "C" fn desk_open(file: *const u8, length: usize, run: *mut u64, words: usize) -> u32 {
    let (file, run) = (from_raw_parts(file, length), from_raw_parts_mut(run, words));
    catch_unwind(AssertUnwindSafe(|| desk_c::desk_open(file, run))).unwrap_or(u32::MAX)
}

#[no_mangle]
pub unsafe extern "C" fn desk_move(
    file: *const u8, length: usize, run: *mut u64, words: usize, limit: u32, journal: *mut u8, room: usize,
) -> u64 {
    let (file, run) = (from_raw_parts(file, length), from_raw_parts_mut(run, words));
    let journal = from_raw_parts_mut(journal, room);
    catch_unwind(AssertUnwindSafe(|| desk_c::desk_move(file, run, limit, journal))).unwrap_or(u64::MAX)
}
'''

# One unit, so that what is measured doesn't hang on how a change elsewhere makes rustc cut the whole into units.
CARGO = ('[package]\nname = "%s"\nversion = "0.1.0"\nedition = "2021"\n%s\n'
         '[profile.release]\nopt-level = 3\ncodegen-units = 1\n%s\n[workspace]\n')


# Where what only the prover reads begins: an item, a field or a clause of a contract.
GHOST = re.compile(r'\n\s*(ghost|requires|ensures)\b')
ATTRIBUTES = re.compile(r'(?m)^ *#!?\[(tactic|cycle)\([^\[\]]*\]\n')


def past_ghost(text, at, ends):
    """The place behind what only the prover reads: behind the first of `ends` that stands in no braces."""
    depth = 0
    while True:
        depth += {'{': 1, '}': -1}.get(text[at], 0)
        at += 1
        if not depth and text[at - 1] in ends:
            return at


def without_contracts(text):
    """The source without ghost items and fields, `requires` and `ensures`, and without what else only the prover reads."""
    text = ATTRIBUTES.sub('', '\n' + text)
    kept, at = [], 0
    while found := GHOST.search(text, at):
        kept.append(text[at:found.start()])
        at = past_ghost(text, found.end(), ';,' if found[1] == 'ghost' else '}')
    return ''.join(kept + [text[at:]])[1:]


def module(text):
    text = re.sub(r'(?m)^//.*\n', '', without_contracts(text))
    text = re.sub(r'(?m)^use std::marker::Model;\n|^impl(<.*>)? Model for .* \{\s*\}\n', '', text)
    inside = '|'.join(['super', 'std'] + re.findall(r'(?m)^(?:pub )?mod (\w+)', text))
    text = re.sub(r'(?m)^( *)use (?!(?:%s)\b)([a-z0-9_]+)::' % inside, r'\1use crate::\2::', text)
    text = re.sub(r'(?m)^#\[unsafe\(no_mangle\)\]\npub extern "C" ', 'pub ', text)
    # A clone can't fail there.
    text = re.sub(r'(?m)^use std::alloc::AllocError;\n', '', text)
    text = re.sub(r'(fn clone\(&self\)) -> Result<Self, AllocError> (\{\s*)Ok\(\*self\)', r'\1 -> Self \2*self', text)
    # What Rust drops by itself.
    return re.sub(r'(?m)^ *#\[derive\(Drop\)\]\n|, Drop(?=\)\]$)', '', text)


def listed():
    """What each crate uses, as crates.txt lists it."""
    rows = [line.partition(':') for line in (ROOT / 'crates.txt').read_text().split('\n') if line and line[0] != '#']
    return {name.split()[0]: below.split() for name, _, below in rows}


def named(*crates):
    """These crates and all that they stand on, each once, in the order of crates.txt."""
    rows, wanted, rest = listed(), set(), set(crates)
    while rest:
        wanted |= rest
        rest = set().union(*(rows.get(name, []) for name in rest)) - wanted
    return [name for name in rows if name in wanted]


def whole(path):
    """The source of a crate, with each other file of it in place of the line that names it."""
    def file_of(line):
        text = (path.parent / (line[2] + '.rt')).read_text()
        return '%smod %s {\nuse super::*;\n%s\n}\n' % (line[1] or '', line[2], text)
    return re.sub(r'(?m)^(pub )?mod (\w+);\n', file_of, path.read_text())


def sources(*crates):
    """The source of each, by its crate; a program's own source is not among them."""
    paths = [CRATES / name / 'src' / 'lib.rt' for name in named(*crates)]
    return {path.parent.parent.name: whole(path) for path in paths if path.exists()}


def modules(texts):
    return '\n'.join(['#![allow(warnings)]', KIT.read_text()] + [
        'pub mod %s {\nuse crate::*;\n%s\n}' % (name, module(text)) for name, text in texts.items()])


def build(folder, name, text, library='', profile=''):
    (folder / 'src').mkdir(parents=True, exist_ok=True)
    (folder / 'Cargo.toml').write_text(CARGO % (name, library, profile))
    (folder / 'src' / ('lib.rs' if library else 'main.rs')).write_text(text)
    subprocess.run(['cargo', 'build', '--release', '--offline', '--quiet'], cwd=folder, check=True)


def program(folder=NATIVE / 'plan'):
    main = module((CRATES / 'plan' / 'src' / 'main.rt').read_text().partition(RUNTIME)[0])
    build(folder, 'plan', modules(sources('plan')) + main + MAIN)


def library(folder=NATIVE / 'desk', texts=None, kind='staticlib'):
    """The library of these sources, a static or a shared one; the folder that it is in."""
    crate_type = '\n[lib]\ncrate-type = ["%s"]\n' % kind
    build(folder, 'desk_c', modules(texts or sources('desk_c')) + DESK, crate_type, 'overflow-checks = true\n')
    return folder / 'target' / 'release'


if __name__ == '__main__':
    library() if sys.argv[1:] == ['desk'] else program()
