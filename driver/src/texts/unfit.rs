//! 51: a token that doesn't fit the grammar, or what is no token, put in at a known place.

use super::case::{some_place, token, Wrong};
use super::names::{any_name, letters, KEYWORDS, LONGEST};
use super::tokens::*;
use super::tree::Thing;
use crate::random::Random;

type Puts = fn(&mut Random, &Tokens) -> Option<Wrong>;

/// Each with how it is put into good tokens, if they have a place for it.
pub const KINDS: [(&str, Puts); 20] = [
    ("a token replaced", |random, tokens| {
        let put = any_token(random);
        replaced(tokens, any_place(random, tokens), put)
    }),
    ("a token removed", |random, tokens| removed(tokens, any_place(random, tokens))),
    ("a token added", |random, tokens| {
        let put = any_token(random);
        added(tokens, any_place(random, tokens), put)
    }),
    ("cut off", |random, tokens| cut_off(tokens, any_place(random, tokens))),
    ("cut off behind another that fits", cut_off_behind),
    ("a keyword for a name", |random, tokens| {
        let at = some(random, tokens, |_, token| token.kind == NAME && token.others[0].is_empty())?;
        replaced(tokens, at, keyword(random))
    }),
    ("a number above 2,147,483,647", |random, tokens| above(random, tokens, TOP_NUMBER)),
    ("a count above 65,535", |random, tokens| above(random, tokens, TOP_COUNT)),
    ("a magnitude above 2,147,483,648", |random, tokens| above(random, tokens, TOP_MAGNITUDE)),
    ("a byte that is no token", |random, tokens| {
        let put = no_byte(random);
        added(tokens, any_place(random, tokens), put)
    }),
    ("a colon alone", |random, tokens| added(tokens, any_place(random, tokens), token(NO_TOKEN, b":"))),
    ("17 letters and digits", |random, tokens| {
        let many = random.pick(&[LONGEST + 1, LONGEST + 1, 18, 40, 300]);
        let put = token(NO_TOKEN, letters(random, many).as_bytes());
        replaced(tokens, any_place(random, tokens), put)
    }),
    ("a ninth local", ninth_local),
    ("a 17th bracket", |random, tokens| too_deep(random, tokens, &BRACKETS[..1])),
    ("a 17th lesser or greater", |random, tokens| too_deep(random, tokens, &BRACKETS[1..])),
    ("a semicolon behind a brace", |random, tokens| {
        let at = some(random, tokens, |at, _| at > 0 && tokens.all[at - 1].kind == "}")?;
        added(tokens, at, token(";", b";"))
    }),
    ("a declaration that is misspelt", |random, tokens| {
        let at = some(random, tokens, |_, token| token.others[0] == DECLARATIONS && token.kind != END)?;
        replaced(tokens, at, token(NAME, any_name(random).as_bytes()))
    }),
    ("neither ; nor { behind a class", |random, tokens| behind_class(random, tokens, false)),
    ("neither, the class being announced", |random, tokens| behind_class(random, tokens, true)),
    ("an empty list of shares", |random, tokens| {
        let at = some(random, tokens, |at, token| token.kind == "(" && tokens.all[at - 1].kind == "[")?;
        replaced(tokens, at, token("]", b"]"))
    }),
];

const NO_TOKEN: &str = "no token";

/// The kind of that number put into good tokens, if they have a place for it.
pub fn fault(random: &mut Random, tokens: &Tokens, kind: usize) -> Option<Wrong> {
    let (name, puts) = KINDS[kind];
    puts(random, tokens).map(|wrong| Wrong { kind: name, ..wrong })
}

fn any_place(random: &mut Random, tokens: &Tokens) -> usize {
    some_place(random, tokens.all.len())
}

/// One of the tokens that are wanted.
fn some(random: &mut Random, tokens: &Tokens, wanted: impl Fn(usize, &Token) -> bool) -> Option<usize> {
    let places: Vec<usize> = (0..tokens.all.len()).filter(|at| wanted(*at, &tokens.all[*at])).collect();
    (!places.is_empty()).then(|| places[some_place(random, places.len())])
}

fn told(tokens: Vec<Token>, at: usize) -> Option<Wrong> {
    Some(Wrong { tokens, number: 51, told: at, met: at, kind: "" })
}

fn replaced(tokens: &Tokens, at: usize, put: Token) -> Option<Wrong> {
    if tokens.all[at].kind == END || tokens.all[at].fits(put.kind) {
        return None;
    }
    let mut all = tokens.all.clone();
    all[at] = put;
    told(all, at)
}

fn added(tokens: &Tokens, at: usize, put: Token) -> Option<Wrong> {
    if tokens.all[at].fits(put.kind) {
        return None;
    }
    let mut all = tokens.all.clone();
    all.insert(at, put);
    told(all, at)
}

fn removed(tokens: &Tokens, at: usize) -> Option<Wrong> {
    if tokens.all[at].fits(tokens.all.get(at + 1)?.kind) {
        return None;
    }
    let mut all = tokens.all.clone();
    all.remove(at);
    told(all, at)
}

fn cut_off(tokens: &Tokens, at: usize) -> Option<Wrong> {
    if tokens.all[at].fits(END) {
        return None;
    }
    let mut all = tokens.all[..at].to_vec();
    all.push(token(END, b""));
    told(all, at)
}

/// Another token that fits, and then the end, which doesn't; so what fits isn't refused where it stands. Cuts and names could
/// be in other trouble there, and behind a `}` the end can be right.
fn cut_off_behind(random: &mut Random, tokens: &Tokens) -> Option<Wrong> {
    let at = any_place(random, tokens);
    let fitting = tokens.all[at].others.concat();
    let right: Vec<&'static str> = fitting.into_iter().filter(|kind| ![NAME, END, ";", "{", "}"].contains(kind)).collect();
    if right.is_empty() {
        return None;
    }
    let kind = random.pick(&right);
    let put = if kind == NUMBER { tokens.all[at].bound.to_string() } else { kind.to_string() };
    let put = token(kind, put.as_bytes());
    let mut all = tokens.all[..at].to_vec();
    all.extend([put, token(END, b"")]);
    told(all, at + 1)
}

/// A number above the bound, in place of whatever stands where one up to it fits.
fn above(random: &mut Random, tokens: &Tokens, bound: u32) -> Option<Wrong> {
    let at = some(random, tokens, |_, token| token.bound == bound && token.fits(NUMBER))?;
    let number = u64::from(bound) + random.pick(&[1, 1, 2, 1 << 16, 1 << 31, 1 << 32]);
    let spelled = match random.below(4) {
        0 => format!("000{number}"),
        1 => format!("{number}00000000000000000000"),
        _ => number.to_string(),
    };
    let mut all = tokens.all.clone();
    all[at] = token(NUMBER, spelled.as_bytes());
    told(all, at)
}

fn any_token(random: &mut Random) -> Token {
    match random.below(6) {
        0 | 1 => keyword(random),
        2 | 3 => {
            let sign = random.pick(SIGNS);
            token(sign, sign.as_bytes())
        }
        4 => token(NUMBER, random.below(70_000).to_string().as_bytes()),
        _ => token(NAME, any_name(random).as_bytes()),
    }
}

fn keyword(random: &mut Random) -> Token {
    let word = random.pick(&KEYWORDS);
    token(word, word.as_bytes())
}

fn no_byte(random: &mut Random) -> Token {
    loop {
        let any = random.next() as u8;
        let byte = random.pick(&[any, b'@', b'_', b'.', b'"', 0, 0xff]);
        if !byte.is_ascii_alphanumeric() && !b" \t\r\n#()[]{},;:+-*<=>".contains(&byte) {
            return token(NO_TOKEN, &[byte]);
        }
    }
}

/// A comma behind the eighth local, and one more.
fn ninth_local(random: &mut Random, tokens: &Tokens) -> Option<Wrong> {
    let local = |at: usize| tokens.declared.iter().any(|declared| declared.thing == Thing::Local && declared.from == at);
    let eighth = |at: usize, token: &Token| at > 0 && token.kind == ";" && !token.fits(",") && local(at - 1);
    let at = some(random, tokens, eighth)?;
    let mut wrong = added(tokens, at, token(",", b","))?;
    wrong.tokens.insert(at + 1, token(NAME, any_name(random).as_bytes()));
    Some(wrong)
}

fn too_deep(random: &mut Random, tokens: &Tokens, kinds: Kinds) -> Option<Wrong> {
    let at = some(random, tokens, |_, token| token.others[0] == DEEP_FACTORS)?;
    let kind = random.pick(kinds);
    replaced(tokens, at, token(kind, kind.as_bytes()))
}

/// What stands behind the name of a class, which was announced or wasn't.
fn behind_class(random: &mut Random, tokens: &Tokens, announced: bool) -> Option<Wrong> {
    let declares = |at: usize| tokens.declared.iter().any(|declared| declared.from == at);
    let of_class = |at: usize, _: &Token| at > 1 && tokens.all[at - 2].kind == "class" && declares(at - 1) != announced;
    let at = some(random, tokens, of_class)?;
    replaced(tokens, at, any_token(random))
}
