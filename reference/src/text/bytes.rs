//! The bytes of a record (MODEL.md, sections 2 to 4).

use crate::model::{Action, Claim, Node, Record};
use crate::model::{
    BECOME, BIN, BLOCK, CLASS, CLOSE, DO, ENTITY, HOLD, LSET, PRIO, PUTB, PUTR, PUTS, REQ, RES,
    SAMPLER, SET, START, SYNC, TRACE, TRY, VAR, WHILE,
};

pub fn record_bytes(record: &Record) -> Vec<u8> {
    let body = Bytes::default();
    let (kind, body) = match record {
        Record::Res(total) => (RES, body.u32(*total)),
        Record::Bin(amount) => (BIN, body.u32(*amount)),
        Record::Sync => (SYNC, body),
        Record::Var(value) => (VAR, body.i32(*value)),
        Record::Class(block) => (CLASS, body.u16(*block)),
        Record::Block => (BLOCK, body),
        Record::Entity(entity) => (ENTITY, body.u16(entity.class).u32(entity.offset)),
        Record::Sampler(sampler) => {
            let bounds = body.i32(sampler.lowest).i32(sampler.highest);
            (SAMPLER, bounds.u32(sampler.seed))
        }
        Record::Action(action) => kind_and_body(action),
    };
    let head = Bytes::default().count(2 + body.0.len()).u16(kind);
    [head.0, body.0].concat()
}

fn kind_and_body(action: &Action) -> (u16, Bytes) {
    let body = Bytes::default();
    match action {
        Action::Hold(value) => (HOLD, body.expression(value)),
        Action::Prio(value) => (PRIO, body.expression(value)),
        Action::Trace(value) => (TRACE, body.expression(value)),
        Action::Set { variable, value } => (SET, body.u16(*variable).expression(value)),
        Action::Lset { local, value } => (LSET, body.u16(*local).expression(value)),
        Action::Do { rounds, block } => (DO, body.u16(*rounds).u16(*block)),
        Action::Putr { resource, amount } => (PUTR, body.u16(*resource).u32(*amount)),
        Action::Putb { bin, amount } => (PUTB, body.u16(*bin).u32(*amount)),
        Action::Puts { sync, count } => (PUTS, body.u16(*sync).u16(*count)),
        Action::Become { sync } => (BECOME, body.u16(*sync)),
        Action::Req { claim } => (REQ, body.claim(claim)),
        Action::Try { blocks, claims } => (TRY, body.branches(blocks, claims)),
        Action::While { block, claim } => (WHILE, body.u16(*block).claim(claim)),
        Action::Start {
            class,
            offset,
            list,
        } => (START, body.u16(*class).u32(*offset).shares(list)),
        Action::Close => (CLOSE, body),
    }
}

/// Bytes that grow at their end.
#[derive(Default)]
struct Bytes(Vec<u8>);

impl Bytes {
    fn u8(mut self, number: u8) -> Self {
        self.0.push(number);
        self
    }

    fn u16(mut self, number: u16) -> Self {
        self.0.extend(number.to_le_bytes());
        self
    }

    fn u32(mut self, number: u32) -> Self {
        self.0.extend(number.to_le_bytes());
        self
    }

    fn i32(mut self, number: i32) -> Self {
        self.0.extend(number.to_le_bytes());
        self
    }

    /// A length or count. One that is too large for a u16 stands in a file that is too long, and the length is looked
    /// at before anything is read of it.
    fn count(self, number: usize) -> Self {
        self.u16(number as u16)
    }

    fn expression(self, nodes: &[Node]) -> Self {
        nodes
            .iter()
            .fold(self, |bytes, node| bytes.u16(node.op).i32(node.operand))
    }

    fn claim(self, claim: &Claim) -> Self {
        claim.iter().fold(self.count(claim.len()), |bytes, item| {
            let bytes = bytes.u8(item.kind).u8(item.relation);
            bytes.u16(item.number).i32(item.amount)
        })
    }

    fn branches(self, blocks: &[u16], claims: &[Claim]) -> Self {
        let branches = blocks.iter().zip(claims);
        branches.fold(self.count(blocks.len()), |bytes, (block, claim)| {
            bytes.u16(*block).claim(claim)
        })
    }

    fn shares(self, list: &[(u16, u32)]) -> Self {
        let bytes = self.count(list.len());
        list.iter().fold(bytes, |bytes, (resource, amount)| {
            bytes.u16(*resource).u32(*amount)
        })
    }
}
