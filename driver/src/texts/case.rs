//! A text and what must be answered to it: good texts, and texts in which trouble was put in at a known token.

use super::expected::records;
use super::layout::lay;
use super::tokens::*;
use super::tree::Tree;
use super::write;
use crate::random::Random;

#[derive(Clone, PartialEq, Debug)]
pub enum Expected {
    Records(Vec<u8>),
    Refused { number: u32, place: usize },
}

pub struct Case {
    pub text: Vec<u8>,
    pub expected: Expected,
    /// What it is counted as.
    pub kinds: Vec<&'static str>,
}

/// Tokens with trouble that is met at one of them. All before it is right, and nothing behind it is read.
pub struct Wrong {
    pub tokens: Vec<Token>,
    pub number: u32,
    /// The token whose place is told.
    pub told: usize,
    /// The token at which the trouble is met.
    pub met: usize,
    pub kind: &'static str,
}

pub const WHERE: [&str; 3] = ["told at the first token", "told in between", "told at the last token or the end"];
pub const BEHIND: [&str; 3] = ["behind it the rest", "behind it nothing", "behind it more trouble"];

pub fn good(random: &mut Random, tree: &Tree, kind: &'static str) -> Case {
    let tokens = write::tokens(random, tree);
    let laid = lay(random, &tokens.all);
    let mut kinds = super::seen::seen(tree, &tokens, &laid.bytes);
    kinds.push(kind);
    Case { text: laid.bytes, expected: Expected::Records(records(tree)), kinds }
}

impl Wrong {
    pub fn case(mut self, random: &mut Random) -> Case {
        let last = self.tokens.iter().rposition(|token| token.kind != END).unwrap_or(0);
        let place = if self.told == 0 { 0 } else { 1 + usize::from(self.told >= last) };
        // What was cut off has nothing behind its end.
        let behind = if self.tokens[self.met].kind == END { 1 } else { random.below(BEHIND.len()) };
        if behind > 0 {
            self.tokens.truncate(self.met + 1);
        }
        let mut laid = lay(random, &self.tokens);
        if behind == 2 {
            // The blank keeps it from being read as a part of the token.
            laid.bytes.push(b' ');
            laid.bytes.extend(more_trouble(random));
        }
        let expected = Expected::Refused { number: self.number, place: laid.places[self.told] };
        Case { text: laid.bytes, expected, kinds: vec![self.kind, WHERE[place], BEHIND[behind]] }
    }
}

/// Texts that would be refused by themselves, each with another number.
fn more_trouble(random: &mut Random) -> Vec<u8> {
    let text = random.pick(&[
        &b"@"[..],
        b"\x00\xff",
        b"nobody := 1; }",
        b"entity(nobody, 0);",
        b"res(twice, 1); bin(twice, 1);",
        b"res(many, 2000000);",
        b"; putS(s, 65); } class c { hold(3) } }",
        b"{{{{{{{{{{{{",
        b") ] } , ; :=",
    ]);
    text.to_vec()
}

/// The first, the last, or any of so many.
pub fn some_place(random: &mut Random, many: usize) -> usize {
    match random.below(6) {
        0 => 0,
        1 => many - 1,
        _ => random.below(many),
    }
}

/// A token that was put in.
pub fn token(kind: &'static str, spelled: &[u8]) -> Token {
    Token { spelled: spelled.to_vec(), kind, others: [&[]; 2], bound: TOP_NUMBER, asked: None, unit: 0 }
}
