//! An input as the mutator sees it: its head, and the records of a model, each with its length.

use crate::chance::Chance;
use crate::head::Head;

pub const RES: u16 = 1;
pub const BIN: u16 = 2;
pub const SYNC: u16 = 3;
pub const VAR: u16 = 4;
pub const CLASS: u16 = 5;
pub const BLOCK: u16 = 6;
pub const ENTITY: u16 = 7;
pub const SAMPLER: u16 = 8;
pub const HOLD: u16 = 16;
pub const PRIO: u16 = 17;
pub const SET: u16 = 18;
pub const LSET: u16 = 19;
pub const DO: u16 = 20;
pub const PUTR: u16 = 21;
pub const PUTB: u16 = 22;
pub const PUTS: u16 = 23;
pub const BECOME: u16 = 24;
pub const REQ: u16 = 25;
pub const TRY: u16 = 26;
pub const WHILE: u16 = 27;
pub const START: u16 = 28;
pub const TRACE: u16 = 29;

/// The head, the records, each with its length, and the bytes that are no record.
pub struct Input {
    pub head: Head,
    pub records: Vec<Vec<u8>>,
    pub rest: Vec<u8>,
}

impl Input {
    pub fn read(bytes: &[u8]) -> Input {
        let (head, mut rest) = Head::read(bytes).unwrap_or((Head::most(), &[]));
        let mut records = Vec::new();
        while rest.len() >= 4 {
            let size = 2 + usize::from(u16::from_le_bytes([rest[0], rest[1]]));
            if size < 4 || size > rest.len() {
                break;
            }
            records.push(rest[..size].to_vec());
            rest = &rest[size..];
        }
        Input {
            head,
            records,
            rest: rest.to_vec(),
        }
    }

    pub fn model(&self) -> Vec<u8> {
        [&self.records.concat()[..], &self.rest].concat()
    }

    pub fn bytes(&self) -> Vec<u8> {
        [self.head.bytes(), self.model()].concat()
    }

    pub fn count(&self, kind: u16) -> usize {
        self.records
            .iter()
            .filter(|record| kind_of(record) == kind)
            .count()
    }

    pub fn first_block(&self) -> usize {
        self.records
            .iter()
            .position(|record| kind_of(record) == BLOCK)
            .unwrap_or(self.records.len())
    }

    /// The number of a thing of this kind; at times of one that isn't declared.
    pub fn name(&self, chance: &mut Chance, kind: u16) -> Vec<u8> {
        let past = usize::from(chance.one_in(64));
        u16_bytes(chance.below(self.count(kind) + past))
    }

    /// A block behind `own`, where there is one.
    pub fn later(&self, chance: &mut Chance, own: usize) -> Vec<u8> {
        u16_bytes(own + 1 + chance.below(self.count(BLOCK).saturating_sub(own + 1)))
    }
}

pub fn kind_of(record: &[u8]) -> u16 {
    u16::from_le_bytes([record[2], record[3]])
}

pub fn record(kind: u16, body: &[u8]) -> Vec<u8> {
    let length = 2 + body.len() as u16;
    [&length.to_le_bytes()[..], &kind.to_le_bytes(), body].concat()
}

pub fn u16_bytes(number: usize) -> Vec<u8> {
    (number as u16).to_le_bytes().to_vec()
}

pub fn i32_bytes(number: i64) -> Vec<u8> {
    (number as i32).to_le_bytes().to_vec()
}
