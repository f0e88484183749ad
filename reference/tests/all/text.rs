//! Models as text: what is read, written and refused. Every expected value is worked out from TEXT.md and MODEL.md.

mod expressions;
mod faults;
mod grammar;
mod hostile;
mod limits;
mod names;
mod page;
mod program;
mod random;
mod tokens;

use crate::build::*;
use reference::text::{read_text, Refused};

/// Room for any record file.
const ROOM: usize = 65_535;

/// One thing of each kind, each with number 0.
const HOUSE: &str = "res(r, 1); bin(b, 1); sync(s); var(x, 0); sampler(g, 4, 7, 1); ";

fn house() -> Vec<Vec<u8>> {
    vec![res(1), bin(1), sync(), var(0), sampler(4, 7, 1)]
}

fn writes(text: &str, records: &[Vec<u8>]) {
    let found = read_text(text.as_bytes(), ROOM);
    assert_eq!(found, Ok(model(records)), "{text}");
}

fn is_right(text: &str) {
    let found = read_text(text.as_bytes(), ROOM);
    assert!(found.is_ok(), "{found:?} of {text}");
}

/// `^` stands before the place.
fn refused(number: u32, marked: &str) {
    let place = marked.find('^').expect("a mark");
    refused_at(number, place, &marked.replacen('^', "", 1));
}

fn refused_at(number: u32, place: usize, text: &str) {
    let found = read_text(text.as_bytes(), ROOM);
    assert_eq!(found, Err(Refused { number, place }), "{text}");
}

/// A class `c` with these actions, in the house.
fn in_body(actions: &str) -> String {
    [HOUSE, "class c { ", actions, " }"].concat()
}

/// The class is written with body block 0, and then come the actions of block 0, 1, ..
fn body_writes(actions: &str, blocks: &[&[Vec<u8>]]) {
    let mut records = house();
    records.push(class(0));
    for actions in blocks {
        records.push(block());
        records.extend_from_slice(actions);
    }
    writes(&in_body(actions), &records);
}

fn body_is_right(actions: &str) {
    is_right(&in_body(actions));
}

fn body_refused(number: u32, marked: &str) {
    refused(number, &in_body(marked));
}
