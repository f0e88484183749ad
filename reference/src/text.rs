//! Models written as text: a text is read into the bytes of its record file, or refused, as TEXT.md says.

mod actions;
mod bytes;
mod claims;
mod declarations;
mod draft;
mod expressions;
mod names;
mod reader;
mod tokens;

pub use names::{Kind, Name};
use reader::Reader;

pub const NOT_IN_THE_GRAMMAR: u32 = 51;
pub const UNKNOWN: u32 = 52;
pub const DECLARED_TWICE: u32 = 53;
pub const OVER_A_LIMIT: u32 = 54;
pub const NO_ROOM: u32 = 55;

/// The answer that refuses a text: the number, and how many bytes of the text stand before the place.
#[derive(Clone, Copy, Debug, PartialEq, Eq)]
pub struct Refused {
    pub number: u32,
    pub place: usize,
}

/// What a part of the reader answers.
type Read<T> = Result<T, Refused>;

/// The record file of a text, if it isn't longer than `room`, the length of the memory lent for it.
pub fn read_text(text: &[u8], room: usize) -> Result<Vec<u8>, Refused> {
    let (file, _) = Reader::new(text).text()?;
    if file.len() > room {
        return Err(Refused {
            number: NO_ROOM,
            place: text.len(),
        });
    }
    Ok(file)
}

/// The names that a text declares to its end, in their order. Locals aren't among them: each ends with its class body.
pub fn read_names(text: &[u8]) -> Result<Vec<Name>, Refused> {
    Reader::new(text).text().map(|(_, names)| names)
}
