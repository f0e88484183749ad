//! The journal: its lines and their 16 bytes.

pub const STARTED: u16 = 1;
pub const ENDED: u16 = 2;
pub const BLOCKED: u16 = 3;
pub const GRANTED: u16 = 4;
pub const RESOURCE_RETURNED: u16 = 5;
pub const BIN_RETURNED: u16 = 6;
pub const WAITING: u16 = 7;
pub const FREED: u16 = 8;
pub const TRACE: u16 = 9;
pub const CLOSED: u16 = 10;

pub const LINE_BYTES: usize = 16;

/// What follows a line's length: kind, time, process and value.
const LENGTH: u16 = 14;

#[derive(Clone, Copy, Debug, PartialEq, Eq)]
pub struct Line {
    pub kind: u16,
    pub time: u32,
    pub process: u32,
    pub value: i32,
}

impl Line {
    pub fn bytes(&self) -> [u8; LINE_BYTES] {
        let mut bytes = [0; LINE_BYTES];
        bytes[0..2].copy_from_slice(&LENGTH.to_le_bytes());
        bytes[2..4].copy_from_slice(&self.kind.to_le_bytes());
        bytes[4..8].copy_from_slice(&self.time.to_le_bytes());
        bytes[8..12].copy_from_slice(&self.process.to_le_bytes());
        bytes[12..16].copy_from_slice(&self.value.to_le_bytes());
        bytes
    }
}

/// The lines of a journal's bytes, in order.
pub fn lines(journal: &[u8]) -> impl Iterator<Item = Line> + '_ {
    journal.chunks_exact(LINE_BYTES).map(|line| {
        let word = |at: usize| [line[at], line[at + 1], line[at + 2], line[at + 3]];
        Line {
            kind: u16::from_le_bytes([line[2], line[3]]),
            time: u32::from_le_bytes(word(4)),
            process: u32::from_le_bytes(word(8)),
            value: i32::from_le_bytes(word(12)),
        }
    })
}
