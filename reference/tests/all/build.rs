//! Builds model files for the tests: one function for each record, written from the table of document 01.

/// A node is an op and an operand.
pub type Node = (u16, i32);
/// An item is a kind, a relation, a number and an amount.
pub type Item = (u8, u8, u16, i32);

pub fn record(kind: u16, body: &[u8]) -> Vec<u8> {
    let length = u16::try_from(2 + body.len()).expect("a record's length is a u16");
    [&length.to_le_bytes()[..], &kind.to_le_bytes(), body].concat()
}

pub fn model(records: &[Vec<u8>]) -> Vec<u8> {
    records.concat()
}

/// The byte place of record `index`.
pub fn place(records: &[Vec<u8>], index: usize) -> usize {
    records[..index].iter().map(Vec::len).sum()
}

fn words(words: &[u16]) -> Vec<u8> {
    words.iter().flat_map(|word| word.to_le_bytes()).collect()
}

pub fn res(total: u32) -> Vec<u8> {
    record(1, &total.to_le_bytes())
}

pub fn bin(amount: u32) -> Vec<u8> {
    record(2, &amount.to_le_bytes())
}

pub fn sync() -> Vec<u8> {
    record(3, &[])
}

pub fn var(value: i32) -> Vec<u8> {
    record(4, &value.to_le_bytes())
}

pub fn class(body: u16) -> Vec<u8> {
    record(5, &words(&[body]))
}

pub fn block() -> Vec<u8> {
    record(6, &[])
}

pub fn entity(class: u16, offset: u32) -> Vec<u8> {
    record(
        7,
        &[words(&[class]), offset.to_le_bytes().to_vec()].concat(),
    )
}

pub fn sampler(lowest: i32, highest: i32, seed: u32) -> Vec<u8> {
    let body = [
        lowest.to_le_bytes(),
        highest.to_le_bytes(),
        seed.to_le_bytes(),
    ];
    record(8, &body.concat())
}

pub fn lit(value: i32) -> Vec<Node> {
    vec![(0, value)]
}

pub fn global(number: i32) -> Vec<Node> {
    vec![(1, number)]
}

pub fn local(number: i32) -> Vec<Node> {
    vec![(2, number)]
}

pub fn clock() -> Vec<Node> {
    vec![(8, 0)]
}

pub fn draw(sampler: i32) -> Vec<Node> {
    vec![(10, sampler)]
}

/// An op over one or two expressions.
pub fn over(op: u16, below: &[Vec<Node>]) -> Vec<Node> {
    [vec![(op, 0)], below.concat()].concat()
}

pub fn nodes(expression: &[Node]) -> Vec<u8> {
    expression
        .iter()
        .flat_map(|(op, operand)| [&op.to_le_bytes()[..], &operand.to_le_bytes()].concat())
        .collect()
}

pub fn hold(expression: &[Node]) -> Vec<u8> {
    record(16, &nodes(expression))
}

pub fn prio(expression: &[Node]) -> Vec<u8> {
    record(17, &nodes(expression))
}

pub fn set(variable: u16, expression: &[Node]) -> Vec<u8> {
    record(18, &[words(&[variable]), nodes(expression)].concat())
}

pub fn lset(local: u16, expression: &[Node]) -> Vec<u8> {
    record(19, &[words(&[local]), nodes(expression)].concat())
}

pub fn do_rounds(rounds: u16, block: u16) -> Vec<u8> {
    record(20, &words(&[rounds, block]))
}

pub fn putr(resource: u16, amount: u32) -> Vec<u8> {
    record(
        21,
        &[words(&[resource]), amount.to_le_bytes().to_vec()].concat(),
    )
}

pub fn putb(bin: u16, amount: u32) -> Vec<u8> {
    record(22, &[words(&[bin]), amount.to_le_bytes().to_vec()].concat())
}

pub fn puts(sync: u16, count: u16) -> Vec<u8> {
    record(23, &words(&[sync, count]))
}

pub fn become_slave(sync: u16) -> Vec<u8> {
    record(24, &words(&[sync]))
}

pub fn get_r(number: u16, amount: i32) -> Item {
    (0, 0, number, amount)
}

pub fn get_b(number: u16, amount: i32) -> Item {
    (1, 0, number, amount)
}

pub fn get_s(number: u16, amount: i32) -> Item {
    (2, 0, number, amount)
}

pub fn condition(relation: u8, variable: u16, amount: i32) -> Item {
    (3, relation, variable, amount)
}

pub fn claim(items: &[Item]) -> Vec<u8> {
    let mut bytes = words(&[items.len() as u16]);
    for (kind, relation, number, amount) in items {
        bytes.extend([*kind, *relation]);
        bytes.extend(number.to_le_bytes());
        bytes.extend(amount.to_le_bytes());
    }
    bytes
}

pub fn req(items: &[Item]) -> Vec<u8> {
    record(25, &claim(items))
}

pub fn try_branches(branches: &[(u16, &[Item])]) -> Vec<u8> {
    let mut body = words(&[branches.len() as u16]);
    for (block, items) in branches {
        body.extend(words(&[*block]));
        body.extend(claim(items));
    }
    record(26, &body)
}

pub fn while_met(block: u16, items: &[Item]) -> Vec<u8> {
    record(27, &[words(&[block]), claim(items)].concat())
}

pub fn start(class: u16, offset: u32, list: &[(u16, u32)]) -> Vec<u8> {
    let mut body = words(&[class]);
    body.extend(offset.to_le_bytes());
    body.extend(words(&[list.len() as u16]));
    for (resource, amount) in list {
        body.extend(words(&[*resource]));
        body.extend(amount.to_le_bytes());
    }
    record(28, &body)
}

pub fn trace(expression: &[Node]) -> Vec<u8> {
    record(29, &nodes(expression))
}

pub fn close() -> Vec<u8> {
    record(30, &[])
}

/// One class with body block 0 and one entity of it at 0, after `declarations`; the blocks are 0, 1, .. as given.
pub fn one_process(declarations: &[Vec<u8>], blocks: &[&[Vec<u8>]]) -> Vec<u8> {
    let mut records = declarations.to_vec();
    records.extend([class(0), entity(0, 0)]);
    for actions in blocks {
        records.push(block());
        records.extend_from_slice(actions);
    }
    model(&records)
}

/// One class and one entity at its offset for each body, bodies being blocks 0, 1, ..
pub fn processes(declarations: &[Vec<u8>], bodies: &[(u32, &[Vec<u8>])]) -> Vec<u8> {
    let mut records = declarations.to_vec();
    for number in 0..bodies.len() as u16 {
        records.push(class(number));
    }
    for (number, (offset, _)) in bodies.iter().enumerate() {
        records.push(entity(number as u16, *offset));
    }
    for (_, actions) in bodies {
        records.push(block());
        records.extend_from_slice(actions);
    }
    model(&records)
}
