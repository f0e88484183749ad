//! New records, written by chance: well formed, and of things that the model has, mostly.

use crate::chance::Chance;
use crate::head::{Head, CALLS};
use crate::input::*;

const LAST_SEED: i64 = 2_147_483_646;

/// An amount, mostly a small one that is right.
fn amount(chance: &mut Chance) -> Vec<u8> {
    let wild = chance.one_in(16);
    i32_bytes(if wild {
        chance.number()
    } else {
        1 + chance.below(3) as i64
    })
}

fn item(input: &Input, chance: &mut Chance) -> Vec<u8> {
    let kind = chance.below(4);
    let relation = if kind == 3 { 1 + chance.below(6) } else { 0 };
    let name = input.name(chance, [RES, BIN, SYNC, VAR][kind]);
    [vec![kind as u8, relation as u8], name, amount(chance)].concat()
}

fn claim(input: &Input, chance: &mut Chance) -> Vec<u8> {
    let items = chance.below(4);
    let mut bytes = u16_bytes(items);
    (0..items).for_each(|_| bytes.extend(item(input, chance)));
    bytes
}

fn branch(input: &Input, chance: &mut Chance, own: usize) -> Vec<u8> {
    [input.later(chance, own), claim(input, chance)].concat()
}

fn branches(input: &Input, chance: &mut Chance, own: usize) -> Vec<u8> {
    let many = 1 + chance.below(3);
    let mut bytes = u16_bytes(many);
    (0..many).for_each(|_| bytes.extend(branch(input, chance, own)));
    bytes
}

fn start(input: &Input, chance: &mut Chance) -> Vec<u8> {
    let shares = chance.below(3);
    let offset = i32_bytes(chance.below(4) as i64);
    let mut bytes = [input.name(chance, CLASS), offset, u16_bytes(shares)].concat();
    for _ in 0..shares {
        bytes.extend(input.name(chance, RES));
        bytes.extend(amount(chance));
    }
    bytes
}

/// An expression of at most `nodes` nodes.
fn expression(input: &Input, chance: &mut Chance, nodes: usize) -> Vec<u8> {
    let leaves: &[usize] = match input.count(SAMPLER) {
        0 => &[0, 0, 1, 2, 8],
        _ => &[0, 0, 1, 2, 8, 10, 10],
    };
    let op = match (nodes, chance.below(2)) {
        (..3, _) | (_, 0) => leaves[chance.below(leaves.len())],
        _ => [3, 4, 5, 6, 7, 9][chance.below(6)],
    };
    let operand = match op {
        0 => i32_bytes(chance.number()),
        1 => [input.name(chance, VAR), u16_bytes(0)].concat(),
        2 => i32_bytes(chance.below(8) as i64),
        10 => [input.name(chance, SAMPLER), u16_bytes(0)].concat(),
        _ => i32_bytes(0),
    };
    let mut bytes = [u16_bytes(op), operand].concat();
    for _ in 0..[0, 0, 0, 2, 2, 2, 2, 2, 0, 1, 0][op] {
        bytes.extend(expression(input, chance, (nodes - 1) / 2));
    }
    bytes
}

/// Lowest, highest and seed; at times one of them is at its edge or past it.
fn sampler(chance: &mut Chance) -> Vec<u8> {
    let lowest = match chance.below(4) {
        0 => chance.number(),
        _ => chance.below(4) as i64 - 1,
    };
    let (more, seed) = match chance.below(6) {
        0 => ([-1, 0, 1_000_000, 1_000_001][chance.below(4)], 1),
        1 => (3, [0, 2, LAST_SEED, LAST_SEED + 1][chance.below(4)]),
        _ => (chance.below(5) as i64, 1 + chance.below(100) as i64),
    };
    [lowest, lowest + more, seed]
        .into_iter()
        .flat_map(i32_bytes)
        .collect()
}

/// What follows the kind in a declaration.
fn declaration(input: &Input, chance: &mut Chance, kind: u16) -> Vec<u8> {
    let small = chance.below(4) as i64;
    match kind {
        RES | BIN | VAR if chance.one_in(4) => i32_bytes(chance.number()),
        RES | BIN | VAR => i32_bytes(small),
        CLASS => input.name(chance, BLOCK),
        ENTITY => [input.name(chance, CLASS), i32_bytes(small)].concat(),
        SAMPLER => sampler(chance),
        _ => Vec::new(),
    }
}

/// What follows the kind in an action of the block `own`.
fn action(input: &Input, chance: &mut Chance, kind: u16, own: usize) -> Vec<u8> {
    match kind {
        HOLD | PRIO | TRACE => expression(input, chance, 16),
        SET => [input.name(chance, VAR), expression(input, chance, 16)].concat(),
        LSET => [u16_bytes(chance.below(8)), expression(input, chance, 16)].concat(),
        DO => [u16_bytes(chance.below(5)), input.later(chance, own)].concat(),
        PUTR => [input.name(chance, RES), amount(chance)].concat(),
        PUTB => [input.name(chance, BIN), amount(chance)].concat(),
        PUTS => [input.name(chance, SYNC), u16_bytes(1 + chance.below(2))].concat(),
        BECOME => input.name(chance, SYNC),
        REQ => claim(input, chance),
        TRY => branches(input, chance, own),
        WHILE => branch(input, chance, own),
        START => start(input, chance),
        _ => Vec::new(),
    }
}

/// A START that hands over this much of a resource.
fn hand_over(input: &Input, chance: &mut Chance, resource: &[u8], amount: i64) -> Vec<u8> {
    let offset = i32_bytes(chance.below(4) as i64);
    let class = input.name(chance, CLASS);
    let share = [resource, &i32_bytes(amount)].concat();
    record(START, &[class, offset, u16_bytes(1), share].concat())
}

/// A REQ, a HOLD, and all that was claimed given back in some order, or handed over: what a job does, and what lets a run go on.
fn job(input: &Input, chance: &mut Chance) -> Vec<Vec<u8>> {
    let items = 1 + chance.below(3);
    let mut claim = u16_bytes(items);
    let mut puts = Vec::new();
    for _ in 0..items {
        let kind = chance.below(3);
        let name = input.name(chance, [RES, BIN, SYNC][kind]);
        let amount = 1 + chance.below(2) as i64;
        claim.extend([vec![kind as u8, 0], name.clone(), i32_bytes(amount)].concat());
        let size = if kind == 2 { 2 } else { 4 };
        let put = [&name[..], &i32_bytes(amount)[..size]].concat();
        let at = chance.below(puts.len() + 1);
        let given = match kind {
            0 if chance.one_in(4) => hand_over(input, chance, &name, amount),
            _ => record([PUTR, PUTB, PUTS][kind], &put),
        };
        puts.insert(at, given);
    }
    let hold = [u16_bytes(0), i32_bytes(chance.below(4) as i64)].concat();
    [vec![record(REQ, &claim), record(HOLD, &hold)], puts].concat()
}

fn add_declaration(input: &mut Input, chance: &mut Chance, kind: u16) {
    let new = record(kind, &declaration(input, chance, kind));
    let at = chance.below(input.first_block() + 1);
    input.records.insert(at, new);
}

/// An action or a job into some block, where there is one.
fn add_actions(input: &mut Input, chance: &mut Chance) {
    let first = input.first_block();
    if first == input.records.len() {
        return;
    }
    let at = first + 1 + chance.below(input.records.len() - first);
    let blocks = input.records[..at]
        .iter()
        .filter(|record| kind_of(record) == BLOCK);
    let own = blocks.count() - 1;
    let kind = HOLD + chance.below(15) as u16;
    let new = if chance.one_in(3) {
        job(input, chance)
    } else {
        vec![record(kind, &action(input, chance, kind, own))]
    };
    input.records.splice(at..at, new);
}

pub fn write_new(input: &mut Input, chance: &mut Chance) {
    let kind = [RES, BIN, SYNC, VAR, CLASS, ENTITY, SAMPLER][chance.below(7)];
    match chance.below(8) {
        0 | 1 => add_declaration(input, chance, kind),
        2 => input.records.push(record(BLOCK, &[])),
        _ => add_actions(input, chance),
    }
}

/// Two processes that wait as slaves of this sync, in a class and a block of their own.
fn add_slaves(input: &mut Input, sync: usize) {
    let class = record(CLASS, &u16_bytes(input.count(BLOCK)));
    let entity = record(
        ENTITY,
        &[u16_bytes(input.count(CLASS)), i32_bytes(0)].concat(),
    );
    let at = input.first_block();
    input
        .records
        .splice(at..at, [class, entity.clone(), entity]);
    input
        .records
        .extend([record(BLOCK, &[]), record(BECOME, &u16_bytes(sync))]);
}

/// A whole new model: a few of each thing, a class for each of its first blocks, some processes, and what they do.
pub fn write_all(input: &mut Input, chance: &mut Chance) {
    input.head = Head::most();
    input.head.calls = chance.below(CALLS + 1) as u8;
    input.rest.clear();
    let classes = 1 + chance.below(4);
    let mut records: Vec<_> = (0..classes)
        .map(|body| record(CLASS, &u16_bytes(body)))
        .collect();
    records.resize(2 * classes + chance.below(4), record(BLOCK, &[]));
    input.records = records;
    for kind in [
        RES, RES, BIN, SYNC, SYNC, VAR, SAMPLER, SAMPLER, ENTITY, ENTITY, ENTITY, ENTITY, ENTITY,
    ] {
        if !chance.one_in(4) {
            add_declaration(input, chance, kind);
        }
    }
    (0..input.count(SYNC)).for_each(|sync| add_slaves(input, sync));
    for _ in 0..2 + chance.below(12) {
        add_actions(input, chance);
    }
}
