//! The tokens of a text: its words, its signs and its end (TEXT.md, section 2).

use std::str;

/// The words in quotes in the grammar.
const KEYWORDS: [&str; 29] = [
    "res", "bin", "sync", "var", "sampler", "class", "entity", "local", "hold", "priority", "do",
    "putR", "putB", "putS", "become", "req", "try", "then", "etry", "while", "start", "trace",
    "close", "getR", "getB", "getS", "clock", "lesser", "greater",
];

/// The longer ones stand first, so that the first which fits is the longest.
const SIGNS: [&str; 18] = [
    ":=", "<=", "<>", ">=", "(", ")", "[", "]", "{", "}", ",", ";", "+", "-", "*", "<", "=", ">",
];

const LONGEST_NAME: usize = 16;

#[derive(Clone, Copy, Debug, PartialEq, Eq)]
pub enum Token<'a> {
    /// A keyword or a sign.
    Quoted(&'static str),
    /// One that is too large for a u64 stops at its greatest; no field has room for either.
    Number(u64),
    Name(&'a str),
    End,
    /// What is no token. It fits nowhere in the grammar, so nothing behind it is asked for.
    Not,
}

/// Goes through the tokens of a text once, from the left.
pub struct Tokens<'a> {
    text: &'a [u8],
    /// Where the last token ended.
    at: usize,
}

impl<'a> Tokens<'a> {
    pub fn new(text: &'a [u8]) -> Self {
        Tokens { text, at: 0 }
    }

    /// The place of the next token, and the token.
    pub fn next_token(&mut self) -> (usize, Token<'a>) {
        self.skip_blanks_and_comments();
        let place = self.at;
        let (length, token) = first_token(&self.text[place..]);
        self.at += length;
        (place, token)
    }

    fn skip_blanks_and_comments(&mut self) {
        let mut in_comment = false;
        while let Some(byte) = self.text.get(self.at) {
            match byte {
                b'\r' | b'\n' => in_comment = false,
                b'#' => in_comment = true,
                b' ' | b'\t' => {}
                _ if in_comment => {}
                _ => return,
            }
            self.at += 1;
        }
    }
}

/// The token that begins at the first of these bytes, and its length.
fn first_token(rest: &[u8]) -> (usize, Token<'_>) {
    let letters_and_digits = rest.iter().take_while(|byte| byte.is_ascii_alphanumeric());
    let length = letters_and_digits.count();
    if length > 0 {
        return (length, word(&rest[..length]));
    }
    if rest.is_empty() {
        return (0, Token::End);
    }
    let sign = SIGNS.iter().find(|sign| rest.starts_with(sign.as_bytes()));
    sign.map_or((0, Token::Not), |sign| (sign.len(), Token::Quoted(sign)))
}

fn word(word: &[u8]) -> Token<'_> {
    if word.iter().all(u8::is_ascii_digit) {
        return Token::Number(number(word));
    }
    let word = str::from_utf8(word).expect("letters and digits are ASCII");
    match KEYWORDS.iter().find(|keyword| **keyword == word) {
        Some(keyword) => Token::Quoted(keyword),
        None if word.len() <= LONGEST_NAME => Token::Name(word),
        None => Token::Not,
    }
}

fn number(digits: &[u8]) -> u64 {
    digits.iter().fold(0, |number: u64, digit| {
        number
            .saturating_mul(10)
            .saturating_add(u64::from(digit - b'0'))
    })
}
