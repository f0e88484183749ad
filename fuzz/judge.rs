//! What libFuzzer calls: check, bound and run of the library desk, and of its source as Rust, are judged by the second program;
//! and so is a run that is opened, moved on in calls, changed, and handed in again.
//!
//! An input is a head (`head.rs`) and a model file. Any difference in a refusal, its place, a bound, an answer, its steps or a
//! byte of what was lent is told, and the program aborts.

mod chance;
#[allow(dead_code)] // texts are judged by texts.rs
mod desks;
mod head;
mod input;
mod lent;
mod mutate;
mod rows;
mod second;
mod write;

use desks::{Desk, DESKS};
use handed::row::{part, WORDS};
use head::{Head, LONGEST};
use lent::Lent;
use second::{Call, Judgement, UNTOUCHED, UNTOUCHED_WORD};
use std::cell::RefCell;
use std::fmt::Debug;

const IN_FRONT: usize = 64;
const FRONT_WORDS: usize = IN_FRONT / 8;
const MOST_BYTES: usize = 1 << 20;

/// What is lent to those who are judged.
struct Bench {
    file: Lent,
    journal: Lent,
    run: Lent,
}

impl Bench {
    fn new() -> Bench {
        Bench {
            file: Lent::new(MOST_BYTES),
            journal: Lent::new(IN_FRONT + usize::from(u16::MAX)),
            run: Lent::new(8 * (FRONT_WORDS + LONGEST)),
        }
    }
}

/// A journal of this room that is untouched, with 64 bytes in front of it.
fn untouched(journal: &mut Lent, room: usize) -> &mut [u8] {
    let journal = journal.last(IN_FRONT + room);
    journal.fill(UNTOUCHED);
    journal
}

fn same<T: Debug + PartialEq>(desk: &Desk, what: &str, found: T, expected: T) {
    if found != expected {
        eprintln!(
            "DIFFERENCE in {what}: {} gives {found:x?}, the second program {expected:x?}",
            desk.name
        );
        std::process::abort();
    }
}

/// Two rows of bytes; where they differ, the first place is told.
fn same_bytes(desk: &Desk, what: &str, found: &[u8], expected: &[u8]) {
    if found != expected {
        let both = found.iter().zip(expected).enumerate();
        both.for_each(|(at, (one, other))| same(desk, what, (at, one), (at, other)));
    }
}

/// Two rows of a run; of the first word that differs it is told what it says.
fn same_row(desk: &Desk, what: &str, found: &[u64], expected: &[u64]) {
    if found != expected {
        let mut both = found.iter().zip(expected).enumerate();
        let differs = both.find(|(_, (one, other))| one != other);
        let (at, (one, other)) = differs.expect("rows of one length");
        let what = format!("{} after {what}", part(at as isize));
        same(desk, &what, one, other);
    }
}

/// That the journal holds the lines told and nothing else was written.
fn same_journal(desk: &Desk, what: &str, found: &[u8], lines: &[u8]) {
    let mut left = vec![UNTOUCHED; found.len()];
    left[IN_FRONT..IN_FRONT + lines.len()].copy_from_slice(lines);
    let what = format!("the journal, with 64 bytes in front of it, after {what}");
    same_bytes(desk, &what, found, &left);
}

fn judge(desk: &Desk, head: &Head, expected: &Judgement, file: &[u8], journal: &mut Lent) {
    same(desk, "check", (desk.check)(file), expected.check);
    same(desk, "bound", (desk.bound)(file), expected.bound);
    let few = head.whole();
    let journal = untouched(journal, few.room);
    let told = (desk.run)(file, few.limit, &mut journal[IN_FRONT..]);
    same(desk, "run", told, expected.run.word);
    same_journal(desk, "run", journal, &expected.run.journal);
}

/// Opening in a row of this length, and what it leaves there.
fn judge_open(desk: &Desk, told: u32, left: &[u64], file: &[u8], run: &mut [u64]) {
    run.fill(UNTOUCHED_WORD);
    same(desk, "open", (desk.open)(file, run), told);
    same_row(desk, "open", run, left);
}

/// These calls on the row as it is.
fn judge_calls(desk: &Desk, calls: &[Call], file: &[u8], run: &mut [u64], journal: &mut Lent) {
    for call in calls {
        let journal = untouched(journal, call.few.room);
        let told = (desk.move_on)(file, run, call.few.limit, &mut journal[IN_FRONT..]);
        same(desk, "move on", told, call.told.word);
        same_journal(desk, "move on", journal, &call.told.journal);
        same_row(desk, "move on", run, &call.row);
    }
}

/// The words in front of a row, which may not be written, and the row of so many words.
fn with_front(run: &mut Lent, words: usize) -> (&mut [u64], &mut [u64]) {
    let (front, row) = run
        .last_words(FRONT_WORDS + words)
        .split_at_mut(FRONT_WORDS);
    front.fill(UNTOUCHED_WORD);
    (front, row)
}

fn same_front(desk: &Desk, front: &[u64]) {
    let untouched = &[UNTOUCHED_WORD; FRONT_WORDS][..];
    same(desk, "the words in front of a row", front, untouched);
}

fn judge_opened(
    desk: &Desk,
    expected: &Judgement,
    file: &[u8],
    run: &mut Lent,
    journal: &mut Lent,
) {
    let (front, row) = with_front(run, WORDS);
    judge_open(desk, expected.check, &expected.opened, file, row);
    judge_calls(desk, &expected.calls, file, row, journal);
    same_front(desk, front);
}

fn judge_handed(
    desk: &Desk,
    expected: &Judgement,
    file: &[u8],
    run: &mut Lent,
    journal: &mut Lent,
) {
    let (front, row) = with_front(run, expected.handed.len());
    if row.len() != WORDS {
        let untouched = vec![UNTOUCHED_WORD; row.len()];
        judge_open(desk, expected.no_room, &untouched, file, row);
    }
    row.copy_from_slice(&expected.handed);
    judge_calls(desk, &expected.handed_calls, file, row, journal);
    same_front(desk, front);
}

fn judge_all(model: &[u8], head: &Head, expected: &Judgement, bench: &mut Bench) {
    let Bench { file, journal, run } = bench;
    let file = file.last(model.len());
    for desk in DESKS {
        file.copy_from_slice(model);
        judge(desk, head, expected, file, journal);
        judge_opened(desk, expected, file, run, journal);
        judge_handed(desk, expected, file, run, journal);
        same_bytes(desk, "the file, which may not be written", file, model);
    }
}

thread_local! {
    static BENCH: RefCell<Bench> = RefCell::new(Bench::new());
}

/// # Safety
/// libFuzzer lends `size` bytes at `data`.
#[no_mangle]
pub unsafe extern "C" fn LLVMFuzzerTestOneInput(data: *const u8, size: usize) -> i32 {
    let Some((head, model)) = Head::read(std::slice::from_raw_parts(data, size)) else {
        return 0;
    };
    let expected = second::judgement(model, &head);
    BENCH.with_borrow_mut(|bench| judge_all(model, &head, &expected, bench));
    0
}
