//! What libFuzzer calls for texts: what the library desk reads from a text, and its source as Rust, is judged by the second
//! program.
//!
//! An input is a u16, how many bytes are lent for the records, and a text. Any difference in the number, the place or a byte of
//! what was lent is told, and the program aborts.

#[allow(dead_code)] // models are judged by judge.rs
mod desks;
#[allow(dead_code)]
mod lent;

use desks::{Desk, DESKS};
use lent::Lent;
use reference::text::read_text;
use std::cell::RefCell;

/// What is lent to be written holds this byte everywhere, and so do the bytes in front of it.
const UNTOUCHED: u8 = 0xa5;
const IN_FRONT: usize = 64;
const MOST_BYTES: usize = 1 << 20;

/// What is lent to those who are judged.
struct Bench {
    text: Lent,
    records: Lent,
}

/// What is answered, and all that was lent for the records, with the bytes in front of it.
#[derive(PartialEq, Debug)]
struct Told {
    number: u32,
    place: usize,
    lent: Vec<u8>,
}

fn second(text: &[u8], room: usize) -> Told {
    let mut lent = vec![UNTOUCHED; IN_FRONT + room];
    let (number, place) = match read_text(text, room) {
        Ok(file) => {
            lent[IN_FRONT..IN_FRONT + file.len()].copy_from_slice(&file);
            (0, file.len())
        }
        Err(refused) => (refused.number, refused.place),
    };
    Told { number, place, lent }
}

fn judged(desk: &Desk, text: &[u8], room: usize, records: &mut Lent) -> Told {
    let records = records.last(IN_FRONT + room);
    records.fill(UNTOUCHED);
    let mut place = usize::MAX;
    let number = (desk.text)(text, &mut records[IN_FRONT..], &mut place);
    Told { number, place, lent: records.to_vec() }
}

fn judge_all(given: &[u8], room: usize, bench: &mut Bench) {
    let expected = second(given, room);
    let text = bench.text.last(given.len());
    for desk in DESKS {
        text.copy_from_slice(given);
        let found = judged(desk, text, room, &mut bench.records);
        if found != expected || text != given {
            eprintln!("DIFFERENCE: {} gives {found:x?}, the second program {expected:x?}", desk.name);
            eprintln!("the text is {}", if text == given { "as it was" } else { "written" });
            std::process::abort();
        }
    }
}

thread_local! {
    static BENCH: RefCell<Bench> = RefCell::new(Bench {
        text: Lent::new(MOST_BYTES),
        records: Lent::new(IN_FRONT + usize::from(u16::MAX)),
    });
}

/// # Safety
/// libFuzzer lends `size` bytes at `data`.
#[no_mangle]
pub unsafe extern "C" fn LLVMFuzzerTestOneInput(data: *const u8, size: usize) -> i32 {
    if let [low, high, text @ ..] = std::slice::from_raw_parts(data, size) {
        let room = usize::from(u16::from_le_bytes([*low, *high]));
        BENCH.with_borrow_mut(|bench| judge_all(text, room, bench));
    }
    0
}
