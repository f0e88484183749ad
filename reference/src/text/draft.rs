//! The records so far, each with the place of what it belongs to, and how they are put to the checks (TEXT.md,
//! sections 6 and 7).

use super::bytes::record_bytes;
use super::{Read, Refused, OVER_A_LIMIT};
use crate::model::{check_so_far, decode, Action, Claim, Record, Refusal};

/// The body block of a class whose body hasn't begun.
const NO_BODY: u16 = 65_535;

/// A record, and the place in the text of the declaration or action that it belongs to.
struct Written {
    place: usize,
    record: Record,
}

/// The place is that of the `class` line or action whose `{` opened it.
struct Block {
    place: usize,
    actions: Vec<Written>,
}

#[derive(Default)]
pub struct Draft {
    /// In the order of the text.
    declarations: Vec<Written>,
    /// In the order of their `{`.
    blocks: Vec<Block>,
}

impl Draft {
    pub fn declare(&mut self, place: usize, record: Record) {
        self.declarations.push(Written { place, record });
    }

    pub fn declare_class(&mut self, place: usize) {
        self.declare(place, Record::Class(NO_BODY));
    }

    /// The body field of a class that is declared.
    fn body_of(&mut self, class: u16) -> &mut u16 {
        self.declarations
            .iter_mut()
            .filter_map(|written| match &mut written.record {
                Record::Class(body) => Some(body),
                _ => None,
            })
            .nth(usize::from(class))
            .expect("a known class has its record")
    }

    pub fn lacks_body(&mut self, class: u16) -> bool {
        *self.body_of(class) == NO_BODY
    }

    pub fn begin_body(&mut self, class: u16, body: u16) {
        *self.body_of(class) = body;
    }

    /// The number of a new block. A cut refuses the 257th, so it stays far below 65,535.
    pub fn open(&mut self, place: usize) -> u16 {
        self.blocks.push(Block {
            place,
            actions: Vec::new(),
        });
        (self.blocks.len() - 1) as u16
    }

    pub fn act(&mut self, block: u16, place: usize, action: Action) {
        self.blocks[usize::from(block)].actions.push(Written {
            place,
            record: Record::Action(action),
        });
    }

    /// A TRY to which its first branch is still to be added.
    pub fn begin_try(&mut self, block: u16, place: usize) {
        let action = Action::Try {
            blocks: Vec::new(),
            claims: Vec::new(),
        };
        self.act(block, place, action);
    }

    /// To the TRY that was begun in this block. While its branches are read nothing else is added to the block.
    pub fn add_branch(&mut self, block: u16, branch: u16, claim: Claim) {
        let last = self.blocks[usize::from(block)].actions.last_mut();
        match last.map(|written| &mut written.record) {
            Some(Record::Action(Action::Try { blocks, claims })) => {
                blocks.push(branch);
                claims.push(claim);
            }
            _ => unreachable!("the TRY stands last in its block"),
        }
    }

    /// The bytes of the records in the order of the file; and for each record its place there and its place in the text.
    fn file(&self) -> (Vec<u8>, Vec<(usize, usize)>) {
        let (mut file, mut places) = (Vec::new(), Vec::new());
        let mut write = |place: usize, record: &Record| {
            places.push((file.len(), place));
            file.extend(record_bytes(record));
        };
        for declaration in &self.declarations {
            write(declaration.place, &declaration.record);
        }
        for block in &self.blocks {
            write(block.place, &Record::Block);
            for action in &block.actions {
                write(action.place, &action.record);
            }
        }
        (file, places)
    }

    /// At a `;` or `{`: the length, 4 to 7 and 10.
    pub fn cut(&self) -> Read<()> {
        let (file, places) = self.file();
        check_so_far(&file).map_err(|refusal| over_a_limit(refusal, &places))
    }

    /// At the end: checks 1 to 10, and then the record file.
    pub fn whole(&self) -> Read<Vec<u8>> {
        let (file, places) = self.file();
        match decode(&file) {
            Ok(_) => Ok(file),
            Err(refusal) => Err(over_a_limit(refusal, &places)),
        }
    }
}

/// 54, at the place in the text of the record that the check names. The length names the one at 0.
fn over_a_limit(refusal: Refusal, places: &[(usize, usize)]) -> Refused {
    let (_, place) = places
        .iter()
        .find(|(of_record, _)| *of_record == refusal.place)
        .expect("a check names a record");
    Refused {
        number: OVER_A_LIMIT,
        place: *place,
    }
}
