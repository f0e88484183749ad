//! The records that a text must give, worked out from its tree as section 6 of docs/TEXT.md says.

use super::tree::{Action, Block, Declaration, Expression, Item as Claimed, Op, Tree};
use crate::records::*;

/// The record file of a tree in which every class has its body.
pub fn records(tree: &Tree) -> Vec<u8> {
    let mut file = File::default();
    for declaration in &tree.declarations {
        file.declare(declaration);
    }
    let mut bytes = Vec::new();
    for declared in &file.declared {
        bytes.extend(match declared {
            Declared::Record(record) => record.clone(),
            Declared::Class(number) => class(file.bodies[*number].expect("a body for each class")),
        });
    }
    for actions in &file.blocks {
        bytes.extend(block());
        bytes.extend(actions.concat());
    }
    bytes
}

/// A CLASS is written where it is first declared, with a body that can come later.
enum Declared {
    Record(Record),
    Class(usize),
}

#[derive(Default)]
struct File {
    declared: Vec<Declared>,
    /// By its number the body of each class.
    bodies: Vec<Option<u16>>,
    /// By its number the actions of each block.
    blocks: Vec<Vec<Record>>,
}

impl File {
    fn declare(&mut self, declaration: &Declaration) {
        let record = match declaration {
            Declaration::Res(total) => declared(RES, *total),
            Declaration::Bin(amount) => declared(BIN, *amount),
            Declaration::Sync => record(SYNC, &[]),
            Declaration::Var(value) => declared(VAR, *value as u32),
            Declaration::Sampler { lowest, highest, seed } => sampler(*lowest, *highest, *seed),
            Declaration::Entity { class, offset } => entity(*class as u16, *offset),
            Declaration::Announced => {
                self.new_class();
                return;
            }
            Declaration::Class { announced, body, .. } => {
                let number = announced.unwrap_or_else(|| self.new_class());
                self.bodies[number] = Some(self.open(body));
                return;
            }
        };
        self.declared.push(Declared::Record(record));
    }

    fn new_class(&mut self) -> usize {
        let number = self.bodies.len();
        self.bodies.push(None);
        self.declared.push(Declared::Class(number));
        number
    }

    /// The number of the block, which its `{` gives it; then come the blocks inside.
    fn open(&mut self, block: &Block) -> u16 {
        let number = self.blocks.len();
        self.blocks.push(Vec::new());
        for action in block {
            let record = self.action(action);
            self.blocks[number].push(record);
        }
        number as u16
    }

    fn action(&mut self, action: &Action) -> Record {
        match action {
            Action::Hold(value) => valued(HOLD, &nodes(value)),
            Action::Priority(value) => valued(PRIO, &nodes(value)),
            Action::Trace(value) => valued(TRACE, &nodes(value)),
            Action::Set(number, value) => set(SET, *number as u16, &nodes(value)),
            Action::SetLocal(number, value) => set(LSET, *number as u16, &nodes(value)),
            Action::Do(rounds, block) => do_block(*rounds, self.open(block)),
            Action::PutR(number, amount) => put(PUTR, *number as u16, *amount),
            Action::PutB(number, amount) => put(PUTB, *number as u16, *amount),
            Action::PutS(number, count) => puts(*number as u16, *count),
            Action::Become(number) => become_slave(*number as u16),
            Action::Req(claim) => req(&items(claim)),
            Action::Try(branches) => {
                let branches: Vec<_> = branches.iter().map(|(claim, block)| (self.open(block), items(claim))).collect();
                try_branches(&branches)
            }
            Action::While(claim, block) => while_block(self.open(block), &items(claim)),
            Action::Start { class, offset, shares } => {
                let shares: Vec<_> = shares.iter().map(|(number, amount)| (*number as u16, *amount)).collect();
                start(*class as u16, *offset, &shares)
            }
            Action::Close => close(),
        }
    }
}

fn items(claim: &[Claimed]) -> Vec<Item> {
    let one = |claimed: &Claimed| match *claimed {
        Claimed::GetR(number, amount) => item(GET_R, number as u16, amount as i32),
        Claimed::GetB(number, amount) => item(GET_B, number as u16, amount as i32),
        Claimed::GetS(number, amount) => item(GET_S, number as u16, amount as i32),
        Claimed::Condition(number, relation, amount) => {
            Item { kind: CONDITION, relation: 1 + relation as u8, number: number as u16, amount }
        }
    };
    claim.iter().map(one).collect()
}

fn nodes(expression: &Expression) -> Vec<u8> {
    match expression {
        Expression::Literal(value) => literal(*value),
        Expression::Clock => node(CLOCK, 0),
        Expression::Var(number) => node(GLOBAL, *number as i32),
        Expression::Local(number) => node(LOCAL, *number as i32),
        Expression::Sampler(number) => node(DRAW, *number as i32),
        Expression::Minus(of) => [node(NEGATE, 0), nodes(of)].concat(),
        Expression::Two(op, first, second) => {
            let op = match op {
                Op::Add => ADD,
                Op::Subtract => SUBTRACT,
                Op::Multiply => MULTIPLY,
                Op::Lesser => LESSER,
                Op::Greater => GREATER,
            };
            [node(op, 0), nodes(first), nodes(second)].concat()
        }
    }
}
