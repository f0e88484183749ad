//! The bytes of a model file, record by record, with the names of document 01.

pub const RES: u16 = 1;
pub const BIN: u16 = 2;
pub const SYNC: u16 = 3;
pub const VAR: u16 = 4;
pub const CLASS: u16 = 5;
pub const BLOCK: u16 = 6;
pub const ENTITY: u16 = 7;
pub const SAMPLER: u16 = 8;
pub const HOLD: u16 = 16;
pub const PRIO: u16 = 17;
pub const SET: u16 = 18;
pub const LSET: u16 = 19;
pub const DO: u16 = 20;
pub const PUTR: u16 = 21;
pub const PUTB: u16 = 22;
pub const PUTS: u16 = 23;
pub const BECOME: u16 = 24;
pub const REQ: u16 = 25;
pub const TRY: u16 = 26;
pub const WHILE: u16 = 27;
pub const START: u16 = 28;
pub const TRACE: u16 = 29;
pub const CLOSE: u16 = 30;

pub const GET_R: u8 = 0;
pub const GET_B: u8 = 1;
pub const GET_S: u8 = 2;
pub const CONDITION: u8 = 3;

pub const LITERAL: u16 = 0;
pub const GLOBAL: u16 = 1;
pub const LOCAL: u16 = 2;
pub const ADD: u16 = 3;
pub const SUBTRACT: u16 = 4;
pub const MULTIPLY: u16 = 5;
pub const LESSER: u16 = 6;
pub const GREATER: u16 = 7;
pub const CLOCK: u16 = 8;
pub const NEGATE: u16 = 9;
pub const DRAW: u16 = 10;

/// One record with its length and kind, or any bytes where a record should be.
pub type Record = Vec<u8>;

pub fn record(kind: u16, parts: &[&[u8]]) -> Record {
    let body = parts.concat();
    let length = 2 + body.len() as u16;
    [&length.to_le_bytes(), &kind.to_le_bytes(), &body[..]].concat()
}

// ---- parts of a body

pub fn u16_of(n: u16) -> [u8; 2] {
    n.to_le_bytes()
}

pub fn node(op: u16, operand: i32) -> Vec<u8> {
    [&u16_of(op)[..], &operand.to_le_bytes()].concat()
}

pub fn literal(n: i32) -> Vec<u8> {
    node(LITERAL, n)
}

#[derive(Clone, Copy)]
pub struct Item {
    pub kind: u8,
    pub relation: u8,
    pub number: u16,
    pub amount: i32,
}

pub type Claim = Vec<Item>;

pub fn item(kind: u8, number: u16, amount: i32) -> Item {
    Item { kind, relation: 0, number, amount }
}

pub fn claim_bytes(claim: &[Item]) -> Vec<u8> {
    let mut bytes = u16_of(claim.len() as u16).to_vec();
    for item in claim {
        bytes.extend([item.kind, item.relation]);
        bytes.extend(u16_of(item.number));
        bytes.extend(item.amount.to_le_bytes());
    }
    bytes
}

// ---- records

pub fn declared(kind: u16, amount: u32) -> Record {
    record(kind, &[&amount.to_le_bytes()])
}

pub fn class(block: u16) -> Record {
    record(CLASS, &[&u16_of(block)])
}

pub fn block() -> Record {
    record(BLOCK, &[])
}

pub fn entity(class: u16, offset: u32) -> Record {
    record(ENTITY, &[&u16_of(class), &offset.to_le_bytes()])
}

pub fn sampler(lowest: i32, highest: i32, seed: u32) -> Record {
    record(SAMPLER, &[&lowest.to_le_bytes(), &highest.to_le_bytes(), &seed.to_le_bytes()])
}

/// HOLD, PRIO and TRACE.
pub fn valued(kind: u16, expression: &[u8]) -> Record {
    record(kind, &[expression])
}

/// SET and LSET.
pub fn set(kind: u16, number: u16, expression: &[u8]) -> Record {
    record(kind, &[&u16_of(number), expression])
}

pub fn do_block(rounds: u16, block: u16) -> Record {
    record(DO, &[&u16_of(rounds), &u16_of(block)])
}

/// PUTR and PUTB.
pub fn put(kind: u16, number: u16, amount: u32) -> Record {
    record(kind, &[&u16_of(number), &amount.to_le_bytes()])
}

pub fn puts(sync: u16, count: u16) -> Record {
    record(PUTS, &[&u16_of(sync), &u16_of(count)])
}

pub fn become_slave(sync: u16) -> Record {
    record(BECOME, &[&u16_of(sync)])
}

pub fn req(claim: &[Item]) -> Record {
    record(REQ, &[&claim_bytes(claim)])
}

pub fn try_branches(branches: &[(u16, Claim)]) -> Record {
    let mut body = u16_of(branches.len() as u16).to_vec();
    for (block, claim) in branches {
        body.extend(u16_of(*block));
        body.extend(claim_bytes(claim));
    }
    record(TRY, &[&body])
}

pub fn while_block(block: u16, claim: &[Item]) -> Record {
    record(WHILE, &[&u16_of(block), &claim_bytes(claim)])
}

pub fn start(class: u16, offset: u32, shares: &[(u16, u32)]) -> Record {
    let mut body = [&u16_of(class)[..], &offset.to_le_bytes()].concat();
    body.extend(u16_of(shares.len() as u16));
    for (resource, amount) in shares {
        body.extend(u16_of(*resource));
        body.extend(amount.to_le_bytes());
    }
    record(START, &[&body])
}

pub fn close() -> Record {
    record(CLOSE, &[])
}

// ---- reading records back, as far as they are whole

/// The records of a file; what is behind the last whole one is the last piece.
pub fn cut(file: &[u8]) -> Vec<Record> {
    let mut records = Vec::new();
    let mut rest = file;
    while !rest.is_empty() {
        let size = u16_at(rest, 0).map_or(rest.len(), |length| rest.len().min(2 + usize::from(length)));
        let (first, behind) = rest.split_at(size);
        records.push(first.to_vec());
        rest = behind;
    }
    records
}

pub fn u16_at(bytes: &[u8], at: usize) -> Option<u16> {
    let two = bytes.get(at..at + 2)?;
    Some(u16::from_le_bytes([two[0], two[1]]))
}

pub fn u32_at(bytes: &[u8], at: usize) -> Option<u32> {
    let four = bytes.get(at..at + 4)?;
    Some(u32::from_le_bytes([four[0], four[1], four[2], four[3]]))
}

pub fn kind_of(record: &[u8]) -> u16 {
    u16_at(record, 2).unwrap_or(0)
}

/// A number of two bytes in a record that names a thing: where it stands, and the kind of record that declares the thing.
pub struct Name {
    pub at: usize,
    pub of: u16,
}

/// Every such number of a record.
pub fn names(record: &[u8]) -> Vec<Name> {
    let mut found = Vec::new();
    let mut add = |at, of| found.push(Name { at, of });
    match kind_of(record) {
        CLASS => add(4, BLOCK),
        ENTITY => add(4, CLASS),
        HOLD | PRIO | TRACE | LSET => node_names(record, &mut add),
        SET => {
            add(4, VAR);
            node_names(record, &mut add);
        }
        DO => add(6, BLOCK),
        PUTR => add(4, RES),
        PUTB => add(4, BIN),
        PUTS | BECOME => add(4, SYNC),
        REQ => drop(claim(record, 4, &mut add)),
        WHILE => {
            add(4, BLOCK);
            claim(record, 6, &mut add);
        }
        TRY => drop(branches(record, &mut add)),
        START => {
            add(4, CLASS);
            let many = usize::from(u16_at(record, 10).unwrap_or(0));
            (0..many).for_each(|i| add(12 + 6 * i, RES));
        }
        _ => {}
    }
    found.retain(|name| name.at + 2 <= record.len());
    found
}

fn node_names(record: &[u8], add: &mut impl FnMut(usize, u16)) {
    for (at, op) in nodes(record) {
        match op {
            GLOBAL => add(at + 2, VAR),
            DRAW => add(at + 2, SAMPLER),
            _ => {}
        }
    }
}

/// The nodes of a record's expression, as far as it has one: where each stands, and its op.
pub fn nodes(record: &[u8]) -> impl Iterator<Item = (usize, u16)> + '_ {
    let from = match kind_of(record) {
        HOLD | PRIO | TRACE => 4,
        SET | LSET => 6,
        _ => record.len(),
    };
    (from..record.len()).step_by(6).filter_map(|at| Some((at, u16_at(record, at)?)))
}

/// The claim at `at`, and where it ends.
fn claim(record: &[u8], at: usize, add: &mut impl FnMut(usize, u16)) -> Option<usize> {
    let many = usize::from(u16_at(record, at)?);
    for i in 0..many {
        let from = at + 2 + 8 * i;
        let kind = *record.get(from)?;
        add(from + 2, [RES, BIN, SYNC, VAR][usize::from(kind.min(3))]);
    }
    Some(at + 2 + 8 * many)
}

fn branches(record: &[u8], add: &mut impl FnMut(usize, u16)) -> Option<()> {
    let mut at = 6;
    for _ in 0..u16_at(record, 4)? {
        add(at, BLOCK);
        at = claim(record, at + 2, add)?;
    }
    Some(())
}

/// The two bytes at `at` become n.
pub fn put_u16(bytes: &mut [u8], at: usize, n: u16) {
    if let Some(two) = bytes.get_mut(at..at + 2) {
        two.copy_from_slice(&n.to_le_bytes());
    }
}

pub fn put_u32(bytes: &mut [u8], at: usize, n: u32) {
    if let Some(four) = bytes.get_mut(at..at + 4) {
        four.copy_from_slice(&n.to_le_bytes());
    }
}

/// So many unused things of a kind in front of the others, and all names of that kind moved up.
pub fn raised(records: Vec<Record>, kind: u16, by: usize, unused: &Record) -> Vec<Record> {
    let mut records = records;
    for record in &mut records {
        for name in names(record).iter().filter(|name| name.of == kind) {
            let old = u16_at(record, name.at).unwrap_or(0);
            put_u16(record, name.at, old + by as u16);
        }
    }
    let first = records.iter().position(|record| kind_of(record) == kind).unwrap_or(0);
    records.splice(first..first, std::iter::repeat_n(unused.clone(), by));
    records
}
