//! Damaged models: good and odd ones with bytes flipped, cut, doubled and spliced, and records made wrong in one point.

use crate::random::Random;
use crate::records::*;

/// The bytes of `records`, damaged in one place or some; `other` is the model that pieces come from.
pub fn damaged(random: &mut Random, mut records: Vec<Record>, other: &[Record]) -> Vec<u8> {
    let times = random.pick(&[1, 1, 1, 1, 2, 3]);
    for _ in 0..times {
        if !records.is_empty() && !random.one_in(4) {
            damage_record(random, &mut records, other);
        }
    }
    let mut bytes = records.concat();
    if random.one_in(3) {
        damage_bytes(random, &mut bytes, &other.concat());
    }
    bytes
}

fn damage_record(random: &mut Random, records: &mut Vec<Record>, other: &[Record]) {
    let at = random.below(records.len());
    match random.below(13) {
        0 => drop(records.remove(at)),
        1 => records.insert(random.below(records.len()), records[at].clone()),
        2 => {
            let moved = records.remove(at);
            records.insert(random.below(records.len() + 1), moved);
        }
        3 => put_u16(&mut records[at], 2, random.pick(&[0, 1, 3, 6, 7, 8, 9, 15, 16, 30, 31, 257, 262, 264, 65_535])),
        4 => {
            let length = records[at].len() as u16 - 2;
            let wrong = [0, 1, 2, length.wrapping_sub(1), length + 1, length + 4, u16::MAX];
            put_u16(&mut records[at], 0, random.pick(&wrong));
        }
        5 => resize(random, &mut records[at]),
        6 | 7 => rename(random, records),
        8 => revalue(random, &mut records[at]),
        9 => name_twice(random, records),
        10 => nest(random, records),
        11 => draw_wrong(random, records),
        _ => {
            if !other.is_empty() {
                records.insert(at, other[random.below(other.len())].clone());
            }
        }
    }
}

/// Some bytes more or fewer of body, with the length put right.
fn resize(random: &mut Random, record: &mut Record) {
    let body = record.len() as i64 - 4;
    let by = random.pick(&[-8, -6, -4, -2, -1, 1, 2, 4, 6, 8]);
    record.resize(4 + (body + by).max(0) as usize, 0);
    let length = record.len() as u16 - 2;
    put_u16(record, 0, length);
}

fn count(records: &[Record], kind: u16) -> u16 {
    records.iter().filter(|record| kind_of(record) == kind).count() as u16
}

/// A record that names something, found from any record on.
fn some_record(random: &mut Random, records: &[Record], wanted: impl Fn(&Record) -> bool) -> Option<usize> {
    let from = random.below(records.len());
    (from..records.len()).chain(0..from).find(|at| wanted(&records[*at]))
}

/// Another number of a thing, about as many as there are; of a block, also about its own.
fn rename(random: &mut Random, records: &mut [Record]) {
    let blocks_only = random.one_in(2);
    let names_one = |record: &Record| names(record).iter().any(|name| !blocks_only || name.of == BLOCK);
    let Some(at) = some_record(random, records, names_one) else {
        return;
    };
    let found = names(&records[at]);
    let name = &found[random.below(found.len())];
    let many = count(records, name.of);
    let own = count(&records[..at], BLOCK);
    let new = if name.of == BLOCK && random.one_in(2) {
        random.pick(&[own, own.wrapping_sub(1), own.wrapping_sub(2), 0])
    } else {
        random.pick(&[many, many.wrapping_sub(1), many + 1, 0, 255, 256, u16::MAX])
    };
    put_u16(&mut records[at], name.at, new);
}

/// A draw of a sampler that isn't there, or by an op that isn't; or a sampler out of its ranges, of another size, or elsewhere.
fn draw_wrong(random: &mut Random, records: &mut Vec<Record>) {
    let draws = |record: &Record| kind_of(record) == SAMPLER || nodes(record).any(|(_, op)| op == DRAW);
    let Some(at) = some_record(random, records, draws) else {
        return;
    };
    if kind_of(&records[at]) == SAMPLER {
        match random.below(6) {
            0 => resize(random, &mut records[at]),
            1 => records.push(records[at].clone()),
            2 => records.splice(at..at, vec![records[at].clone(); random.from_to(13, 16)]).for_each(drop),
            3 => put_u32(&mut records[at], 4, i32::MAX as u32),
            4 => put_u32(&mut records[at], 8, i32::MIN as u32),
            _ => put_u32(&mut records[at], 12, random.pick(&[0, 2_147_483_646, 2_147_483_647, u32::MAX])),
        }
        return;
    }
    let many = u32::from(count(records, SAMPLER));
    let found: Vec<usize> = nodes(&records[at]).filter(|(_, op)| *op == DRAW).map(|(place, _)| place).collect();
    let place = found[random.below(found.len())];
    match random.below(4) {
        0 => put_u16(&mut records[at], place, random.pick(&[11, 11, 266, u16::MAX])),
        _ => put_u32(&mut records[at], place + 2, random.pick(&[many, many, many + 1, 16, 65_536, 1 << 31, u32::MAX])),
    }
}

/// A byte, two or four of the body become a number at an edge.
fn revalue(random: &mut Random, record: &mut Record) {
    if record.len() < 5 {
        return;
    }
    let at = random.from_to(4, record.len() - 1);
    match random.below(4) {
        0 => record[at] = random.pick(&[0, 1, 2, 3, 4, 5, 7, 9, 10, 16, 64, 65, 255]),
        1 => put_u16(record, at & !1, random.pick(&[0, 1, 2, 4, 5, 10, 64, 65, u16::MAX])),
        _ => {
            let edges = [0, 1, 1_000_000, 1_000_001, i32::MAX as u32, i32::MIN as u32, u32::MAX];
            put_u32(record, at & !1, random.pick(&edges));
        }
    }
}

/// Where the last claim or list of shares of a record is counted, and the size of what it counts.
fn last_list(record: &Record) -> Option<(usize, usize)> {
    match kind_of(record) {
        REQ => Some((4, 8)),
        WHILE => Some((6, 8)),
        START => Some((10, 6)),
        TRY => {
            let branches = u16_at(record, 4)?.max(1);
            (1..branches).try_fold(8, |at, _| Some(at + 4 + 8 * usize::from(u16_at(record, at)?))).map(|at| (at, 8))
        }
        _ => None,
    }
}

/// The last item of a claim, or the last share of a START, stands twice, with count and length put right.
fn name_twice(random: &mut Random, records: &mut [Record]) {
    let grows = |record: &Record| {
        let many = last_list(record).and_then(|(at, _)| u16_at(record, at));
        many.is_some_and(|many| (1..4).contains(&many))
    };
    let Some((at, (counted, size))) =
        some_record(random, records, grows).and_then(|at| last_list(&records[at]).map(|list| (at, list)))
    else {
        return;
    };
    let record = &mut records[at];
    let many = u16_at(record, counted).unwrap_or(0);
    let again = record[record.len().saturating_sub(size)..].to_vec();
    record.extend(again);
    put_u16(record, counted, many + 1);
    let length = record.len() as u16 - 2;
    put_u16(record, 0, length);
}

/// Some block begins with a DO of the next one, so that blocks nest deeper.
fn nest(random: &mut Random, records: &mut Vec<Record>) {
    let blocks = count(records, BLOCK);
    for own in 0..blocks.saturating_sub(1) {
        if random.one_in(3) {
            continue;
        }
        let mut seen = 0;
        let stands = records.iter().position(|record| {
            seen += u16::from(kind_of(record) == BLOCK);
            seen == own + 1
        });
        if let Some(at) = stands {
            records.insert(at + 1, do_block(1, own + 1));
        }
    }
}

fn damage_bytes(random: &mut Random, bytes: &mut Vec<u8>, other: &[u8]) {
    if bytes.is_empty() {
        bytes.push(random.next() as u8);
    }
    let at = random.below(bytes.len());
    let to = (at + random.from_to(1, 40)).min(bytes.len());
    match random.below(7) {
        0 => bytes[at] ^= 1 << random.below(8),
        1 => bytes[at] = random.next() as u8,
        2 => bytes.truncate(at),
        3 => drop(bytes.drain(at..to)),
        4 => {
            let twice = bytes[at..to].to_vec();
            bytes.splice(at..at, twice);
        }
        5 => bytes.insert(at, random.next() as u8),
        _ => {
            let from = random.below(other.len() + 1);
            bytes.truncate(at);
            bytes.extend(&other[from..]);
        }
    }
}
