//! A mutator that knows records: it drops, doubles, swaps and moves whole ones, changes a field, or writes new ones. Then it
//! mostly drops what the second program refuses, so that there is something to run, and changes the row of the run that is
//! handed in. Plain changes of bytes are left to libFuzzer.

use crate::chance::Chance;
use crate::head::{Head, CALLS};
use crate::input::{i32_bytes, kind_of, record, Input, REQ};
use crate::rows::{change_word, forget_unsound, turn_state};
use crate::write::{write_all, write_new};
use handed::row::WORDS;

/// Inputs are made no longer than this: among the seeds there is one that is, for the file that is too long.
const MOST_BYTES: usize = 8192;

/// Where the items of a REQ begin, and how many bytes each has.
const CLAIM: usize = 6;
const ITEM: usize = 8;

extern "C" {
    fn LLVMFuzzerMutate(data: *mut u8, size: usize, most: usize) -> usize;
}

/// Another number in place of two or four bytes at an even place of a body, where all fields stand.
fn change_field(body: &mut [u8], chance: &mut Chance) {
    let at = 2 * chance.below(body.len() / 2);
    let number = chance.number() as i32;
    let size = if chance.one_in(2) { 2 } else { 4 };
    for (to, from) in body[at..].iter_mut().take(size).zip(number.to_le_bytes()) {
        *to = from;
    }
}

/// libFuzzer's own change of one body, whose length is put right.
fn change_body(input: &mut Input, chance: &mut Chance, at: usize) {
    let kind = kind_of(&input.records[at]);
    let mut body = input.records[at][4..].to_vec();
    let size = body.len();
    body.resize(size + 16, 0);
    // SAFETY: it changes at most `body.len()` bytes in place and says how many there are then.
    let size = unsafe { LLVMFuzzerMutate(body.as_mut_ptr(), size, body.len()) };
    input.records[at] = record(
        if chance.one_in(16) {
            chance.below(32) as u16
        } else {
            kind
        },
        &body[..size],
    );
}

/// A body that ends too early, whose length is put right.
fn cut_body(cut: &mut Vec<u8>, chance: &mut Chance) {
    let size = chance.below(cut.len() - 3);
    *cut = record(kind_of(cut), &cut[4..4 + size]);
}

/// A REQ once more, somewhere else and with another amount: who makes the one may be barred by who waits at the other.
fn add_rival(input: &mut Input, chance: &mut Chance) {
    let first = input.first_block();
    let is_asked = |record: &&Vec<u8>| kind_of(record) == REQ && record.len() > CLAIM;
    let asked: Vec<_> = input.records[first..].iter().filter(is_asked).collect();
    if asked.is_empty() {
        return;
    }
    let mut rival = asked[chance.below(asked.len())].clone();
    let item = chance.below((rival.len() - CLAIM).div_ceil(ITEM));
    let amount = i32_bytes(1 + chance.below(4) as i64);
    for (to, from) in rival[CLAIM + ITEM * item..].iter_mut().skip(4).zip(amount) {
        *to = from;
    }
    let at = first + 1 + chance.below(input.records.len() - first);
    input.records.insert(at, rival);
}

/// Another limit or room, of a whole run or of four calls; other calls; a row of another length.
fn change_head(head: &mut Head, chance: &mut Chance) {
    let number = chance.number() as u16;
    let four = chance.below(1 << 16) as u16;
    match chance.below(6) {
        0 => head.limit = number,
        1 => head.limit = four,
        2 => head.room = number,
        3 => head.room = four,
        4 => head.calls = chance.below(CALLS + 1) as u8,
        _ if chance.one_in(2) => head.length = 0,
        _ => head.length = [1, 2, 100, WORDS, WORDS + 2][chance.below(5)] as u16,
    }
}

/// Another row: one change more or less, or none.
fn change_row(input: &mut Input, chance: &mut Chance) {
    let many = input.head.changes.len();
    match chance.below(8) {
        0 => input.head.changes.clear(),
        1 if many > 0 => drop(input.head.changes.remove(chance.below(many))),
        2..=5 => turn_state(input, chance),
        _ => change_word(input, chance),
    }
}

fn change(input: &mut Input, chance: &mut Chance) {
    let many = input.records.len();
    let (one, other) = (chance.below(many), chance.below(many));
    match chance.below(if many == 0 { 4 } else { 17 }) {
        0..=2 => write_new(input, chance),
        3 => change_head(&mut input.head, chance),
        4 => input.head = Head::most(),
        5 => drop(input.records.remove(one)),
        6 => write_all(input, chance),
        7 => input.records.insert(one, input.records[one].clone()),
        8 => input.records.swap(one, other),
        9 => {
            let moved = input.records.remove(one);
            input.records.insert(other, moved);
        }
        10 | 11 => change_body(input, chance, one),
        12 => cut_body(&mut input.records[one], chance),
        13 => add_rival(input, chance),
        _ => change_field(&mut input.records[one][4..], chance),
    }
}

/// Drops the record that is refused, again and again, until none is or too many were.
fn mend(input: &mut Input) {
    for _ in 0..64 {
        let Err(refusal) = reference::check(&input.model()) else {
            return;
        };
        let mut place = 0;
        match input.records.iter().position(|record| {
            place += record.len();
            place > refusal.place
        }) {
            Some(at) => drop(input.records.remove(at)),
            None => input.rest.clear(),
        }
    }
}

/// Another model, mostly, and at times another row of its run. The row is changed as the calls on this very model leave it, so
/// behind all else.
fn change_all(input: &mut Input, chance: &mut Chance) {
    let same_model = chance.one_in(4);
    if !same_model {
        (0..1 + chance.below(4)).for_each(|_| change(input, chance));
        if !chance.one_in(4) {
            mend(input);
        }
    }
    if !chance.one_in(4) {
        forget_unsound(input);
    }
    if same_model || chance.one_in(2) {
        (0..1 + chance.below(2)).for_each(|_| change_row(input, chance));
    }
}

/// # Safety
/// libFuzzer lends `most` bytes at `data`, of which the first `size` are the input.
#[no_mangle]
pub unsafe extern "C" fn LLVMFuzzerCustomMutator(
    data: *mut u8,
    size: usize,
    most: usize,
    seed: u32,
) -> usize {
    let mut chance = Chance::new(seed);
    let most = most.min(MOST_BYTES.max(size));
    if chance.one_in(10) {
        return LLVMFuzzerMutate(data, size, most);
    }
    let lent = std::slice::from_raw_parts_mut(data, most);
    let mut input = Input::read(&lent[..size]);
    change_all(&mut input, &mut chance);
    let bytes = input.bytes();
    let size = bytes.len().min(most);
    lent[..size].copy_from_slice(&bytes[..size]);
    size
}
