//! Makes a model smaller for as long as a test still holds of it: first records, then things and blocks, then what is in them.

use crate::records::*;

/// No more tries than this, so that a large model doesn't take for ever.
const TRIES: usize = 6_000;

pub fn shrink(bytes: Vec<u8>, holds: impl FnMut(&[u8]) -> bool) -> Vec<u8> {
    let mut shrinking = Shrinking { best: bytes, holds, tries: 0 };
    loop {
        let before = shrinking.best.clone();
        shrinking.records();
        shrinking.things();
        shrinking.parts();
        if shrinking.best.len() < 600 {
            shrinking.bytes();
        }
        if shrinking.best == before || shrinking.tries >= TRIES {
            return shrinking.best;
        }
    }
}

struct Shrinking<F> {
    best: Vec<u8>,
    holds: F,
    tries: usize,
}

impl<F: FnMut(&[u8]) -> bool> Shrinking<F> {
    /// Takes the candidate if the test holds of it.
    fn offer(&mut self, candidate: Vec<u8>) -> bool {
        if candidate == self.best || self.tries >= TRIES {
            return false;
        }
        self.tries += 1;
        let taken = (self.holds)(&candidate);
        if taken {
            self.best = candidate;
        }
        taken
    }

    /// Without some records in a row: half of them, a quarter, and so on to one.
    fn records(&mut self) {
        let mut many = cut(&self.best).len().div_ceil(2);
        while many > 0 {
            let mut at = 0;
            loop {
                let mut records = cut(&self.best);
                if at >= records.len() {
                    break;
                }
                let to = (at + many).min(records.len());
                records.drain(at..to);
                if !self.offer(records.concat()) {
                    at += many;
                }
            }
            many /= 2;
        }
    }

    /// Without one thing or block with its actions, and those behind it numbered anew.
    fn things(&mut self) {
        for kind in [BLOCK, CLASS, RES, BIN, SYNC, VAR, SAMPLER] {
            let mut number = 0;
            while let Some(smaller) = without(&cut(&self.best), kind, number) {
                if !self.offer(smaller.concat()) {
                    number += 1;
                }
            }
        }
    }

    /// Each record with less in it.
    fn parts(&mut self) {
        let mut at = 0;
        while at < cut(&self.best).len() {
            let records = cut(&self.best);
            let taken = smaller(&records[at]).into_iter().any(|record| {
                let mut changed = records.clone();
                changed[at] = record;
                self.offer(changed.concat())
            });
            at += usize::from(!taken);
        }
    }

    /// Without some bytes in a row.
    fn bytes(&mut self) {
        for many in [8, 4, 2, 1] {
            let mut at = 0;
            while at + many <= self.best.len() {
                let mut bytes = self.best.clone();
                bytes.drain(at..at + many);
                if !self.offer(bytes) {
                    at += 1;
                }
            }
        }
    }
}

fn without(records: &[Record], kind: u16, number: u16) -> Option<Vec<Record>> {
    let mut seen = 0;
    let mut kept = Vec::new();
    let mut inside = false;
    for record in records {
        if kind_of(record) == kind {
            inside = seen == number;
            seen += 1;
        } else if kind != BLOCK {
            inside = false;
        }
        if !inside {
            kept.push(renumbered(record, kind, number));
        }
    }
    (number < seen).then_some(kept)
}

fn renumbered(record: &Record, kind: u16, number: u16) -> Record {
    let mut record = record.clone();
    for name in names(&record) {
        let old = u16_at(&record, name.at).unwrap_or(0);
        if name.of == kind && old > number {
            put_u16(&mut record, name.at, old - 1);
        }
    }
    record
}

fn with_length(mut record: Record) -> Record {
    let length = record.len() as u16 - 2;
    put_u16(&mut record, 0, length);
    record
}

/// The record with an item, a share, a branch or an expression less, or with a lower number.
fn smaller(record: &Record) -> Vec<Record> {
    let mut found = Vec::new();
    let mut expression = |from: usize| {
        if record.len() > from + 6 {
            found.push(with_length([&record[..from], &literal(0)].concat()));
            found.push(with_length([&record[..from], &literal(1)].concat()));
        }
    };
    match kind_of(record) {
        HOLD | PRIO | TRACE => expression(4),
        SET | LSET => expression(6),
        REQ => found.extend(one_fewer(record, 4, 8)),
        WHILE => found.extend(one_fewer(record, 6, 8)),
        START => found.extend(one_fewer(record, 10, 6)),
        TRY => found.extend(branch_fewer(record)),
        _ => {}
    }
    for at in (4..record.len().saturating_sub(1)).step_by(2) {
        let old = u16_at(record, at).unwrap_or(0);
        for new in [0, 1, old / 2] {
            if new < old {
                let mut lower = record.clone();
                put_u16(&mut lower, at, new);
                found.push(lower);
            }
        }
    }
    found
}

/// Without each of the parts of `size` bytes that are counted at `at`.
fn one_fewer(record: &Record, at: usize, size: usize) -> Vec<Record> {
    let many = usize::from(u16_at(record, at).unwrap_or(0));
    let ends = |i: usize| at + 2 + size * (i + 1);
    (0..many)
        .filter(|i| ends(*i) <= record.len())
        .map(|i| {
            let mut fewer = record.clone();
            fewer.drain(ends(i) - size..ends(i));
            put_u16(&mut fewer, at, many as u16 - 1);
            with_length(fewer)
        })
        .collect()
}

/// A TRY without each of its branches.
fn branch_fewer(record: &Record) -> Vec<Record> {
    let many = u16_at(record, 4).unwrap_or(0);
    let mut at = 6;
    let mut found = Vec::new();
    for _ in 0..many {
        let items = usize::from(u16_at(record, at + 2).unwrap_or(u16::MAX));
        let end = at + 4 + 8 * items;
        if end > record.len() {
            break;
        }
        let mut fewer = record.clone();
        fewer.drain(at..end);
        put_u16(&mut fewer, 4, many - 1);
        found.push(with_length(fewer));
        at = end;
    }
    found
}
