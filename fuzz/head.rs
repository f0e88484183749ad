//! What stands in front of a model in an input: how it is run, how a run of it is moved on, and how its row is changed then.

use handed::row::WORDS;

/// The bytes of the head without its changes, and those of a change.
pub const HEAD: usize = 8;
const CHANGE: usize = 10;
/// The most changes that an input has.
pub const MOST_CHANGES: usize = 255;
/// A whole run makes at most so many steps, so that many are made.
const MOST_STEPS: u32 = 4095;
/// An open run is moved on by so many calls at most, before its row is changed, and again behind that.
pub const CALLS: usize = 4;
/// A row of another length has fewer words than this.
pub const LONGEST: usize = WORDS + 8;

/// A word of the row becomes another; one behind its last stands for every word.
#[derive(Clone, Copy)]
pub struct Change {
    pub at: u16,
    pub word: u64,
}

/// The numbers of the head as they stand in the input.
#[derive(Clone)]
pub struct Head {
    pub limit: u16,
    pub room: u16,
    pub calls: u8,
    /// 0 for a row of the right length; else it has one word less than this says.
    pub length: u16,
    pub changes: Vec<Change>,
}

/// The limit of one call, and the bytes of its journal.
#[derive(Clone, Copy)]
pub struct Few {
    pub limit: u32,
    pub room: usize,
}

impl Head {
    /// The greatest limits and rooms, and a run that no call moves on before it is handed in.
    pub fn most() -> Head {
        Head {
            limit: u16::MAX,
            room: u16::MAX,
            calls: 0,
            length: 0,
            changes: Vec::new(),
        }
    }

    /// The head, and the bytes behind it; too few bytes are none.
    pub fn read(input: &[u8]) -> Option<(Head, &[u8])> {
        let (head, rest) = input.split_at_checked(HEAD)?;
        let number = |at: usize| u16::from_le_bytes([head[at], head[at + 1]]);
        let said = CHANGE * usize::from(head[7]);
        let (changes, model) = rest.split_at(said.min(rest.len() / CHANGE * CHANGE));
        let read = |bytes: &[u8]| {
            let mut word = [0; 8];
            word.copy_from_slice(&bytes[2..]);
            Change {
                at: u16::from_le_bytes([bytes[0], bytes[1]]),
                word: u64::from_le_bytes(word),
            }
        };
        let head = Head {
            limit: number(0),
            room: number(2),
            calls: head[4],
            length: number(5),
            changes: changes.chunks_exact(CHANGE).map(read).collect(),
        };
        Some((head, model))
    }

    pub fn bytes(&self) -> Vec<u8> {
        let mut bytes = [self.limit.to_le_bytes(), self.room.to_le_bytes()].concat();
        bytes.push(self.calls);
        bytes.extend(self.length.to_le_bytes());
        bytes.push(self.changes.len() as u8);
        for change in &self.changes {
            bytes.extend(change.at.to_le_bytes());
            bytes.extend(change.word.to_le_bytes());
        }
        bytes
    }

    /// The limit and the room of the whole run.
    pub fn whole(&self) -> Few {
        Few {
            limit: u32::from(self.limit) & MOST_STEPS,
            room: usize::from(self.room),
        }
    }

    /// Those of one call, from 4 bits of each: at most 15 steps and 7 lines, so that many calls end by LIMIT or 30.
    pub fn few(&self, call: usize) -> Few {
        let bits = |number: u16| number >> (4 * (call % CALLS)) & 15;
        Few {
            limit: u32::from(bits(self.limit)),
            room: 8 * usize::from(bits(self.room)),
        }
    }

    /// How many calls there are before the row is changed.
    pub fn calls(&self) -> usize {
        usize::from(self.calls) % (CALLS + 1)
    }

    /// How many words the row has that is handed in.
    pub fn words(&self) -> usize {
        match usize::from(self.length) {
            0 => WORDS,
            length => (length - 1) % LONGEST,
        }
    }

    pub fn change(&self, row: &mut [u64]) {
        for change in &self.changes {
            match usize::from(change.at) {
                at if at >= WORDS => row.fill(change.word),
                at if at < row.len() => row[at] = change.word,
                _ => {}
            }
        }
    }
}
