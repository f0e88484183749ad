//! Any texts: good, odd and damaged ones of all kinds, with nothing expected, for holding two readers against each other.

use super::case::{good, some_place, Wrong};
use super::grow::{ground, shuffle, tree};
use super::layout::lay;
use super::names::KEYWORDS;
use super::tokens::SIGNS;
use super::tree::Tree;
use super::{limits, many, misnamed, unfit, write};
use crate::random::Random;

/// So many bytes has a hostile text at most.
const HOSTILE: usize = 100_000;

/// What stands before, and the piece that is repeated.
const REPEATED: [(&str, &str); 27] = [
    ("class c { hold(", "("),
    ("class c { hold(", "-"),
    ("class c { hold(", "- -1 +"),
    ("class c { hold(1", "+1"),
    ("class c { hold(1", "*clock"),
    ("class c { hold(", "lesser("),
    ("class c { hold(", "greater(1,"),
    ("class c {", "do 1 {"),
    ("class c {", "try [] then { } e"),
    ("class c { try [] then { }", "etry [] then { }"),
    ("class c {", "close;"),
    ("class c {", "{"),
    ("res(r, 1); class c { req [", "getR(r, 1),"),
    ("var(v, 1); class c { req [", "v < 1,"),
    ("res(r, 1); class c { start(c, 0, [", "(r, 1),"),
    ("class c { local ", "a,"),
    ("res(a, ", "0"),
    ("res(a, ", "9"),
    ("res(", "a"),
    ("class c; ", "class c;"),
    ("", "#"),
    ("", " "),
    ("", "# \n"),
    ("", "sync(a);"),
    ("class c { } ", "entity(c, 0);"),
    ("", "\u{0}"),
    ("", "res"),
];

/// Good; with trouble put in; bytes flipped; bytes cut, doubled and put in; tokens shuffled; two texts spliced; any tokens; one
/// piece again and again.
pub fn any_text(random: &mut Random) -> Vec<u8> {
    let kind = random.weighed(&[4, 6, 8, 8, 6, 6, 4, 2]);
    let mut text = match kind {
        4 => shuffled(random),
        6 => any_tokens(random),
        7 => hostile(random),
        _ => base(random, kind == 1),
    };
    match kind {
        2 => (0..random.from_to(1, 4)).for_each(|_| flip(random, &mut text)),
        3 => (0..random.from_to(1, 3)).for_each(|_| damage(random, &mut text)),
        5 => {
            let other = base(random, false);
            text.truncate(random.below(text.len() + 1));
            text.extend(&other[random.below(other.len() + 1)..]);
        }
        _ => {}
    }
    text
}

fn base(random: &mut Random, wrong: bool) -> Vec<u8> {
    if wrong {
        if let Some(wrong) = any_wrong(random) {
            return wrong.case(random).text;
        }
    }
    let tree = any_tree(random);
    good(random, &tree, "").text
}

fn any_tree(random: &mut Random) -> Tree {
    match random.weighed(&[20, 20, 10, 2]) {
        0 => tree(random),
        1 => ground(random),
        2 => {
            let mut tree = ground(random);
            let limit = random.below(limits::LIMITS.len());
            limits::plant(random, &mut tree, limit, false);
            tree
        }
        _ => {
            let kind = random.weighed(&many::WEIGHTS);
            many::at(random, kind)
        }
    }
}

/// Any trouble, if there is a place for it. The large texts are few, as any reader takes long for these.
fn any_wrong(random: &mut Random) -> Option<Wrong> {
    let tree = ground(random);
    let tokens = write::tokens(random, &tree);
    match random.weighed(&[8, 4, 4, 4, 1]) {
        0 => {
            let kind = random.below(unfit::KINDS.len());
            unfit::fault(random, &tokens, kind)
        }
        1 => {
            let kind = random.below(misnamed::UNKNOWN.len());
            misnamed::unknown(random, &tokens, kind)
        }
        2 => {
            let kind = random.below(misnamed::TAKEN.len());
            misnamed::taken(random, &tokens, kind)
        }
        3 => {
            let limit = random.below(limits::LIMITS.len());
            Some(limits::wrong(random, limit).1)
        }
        4 if random.one_in(4) => {
            let kind = random.below(many::ORDER.len());
            Some(many::order(random, kind))
        }
        _ => {
            let kind = random.weighed(&many::WEIGHTS);
            Some(many::over(random, kind))
        }
    }
}

fn flip(random: &mut Random, text: &mut [u8]) {
    if text.is_empty() {
        return;
    }
    let at = some_place(random, text.len());
    text[at] = match random.below(3) {
        0 => text[at] ^ 1 << random.below(8),
        1 => random.next() as u8,
        _ => random.pick(b"()[]{},;:=+-*<>#@ \n\r0129azAZ_"),
    };
}

fn damage(random: &mut Random, text: &mut Vec<u8>) {
    if text.is_empty() {
        text.push(random.next() as u8);
    }
    let at = some_place(random, text.len());
    let to = (at + random.from_to(1, 40)).min(text.len());
    match random.below(5) {
        0 => text.truncate(at),
        1 => drop(text.drain(at..to)),
        2 => {
            let twice = text[at..to].to_vec();
            text.splice(at..at, twice);
        }
        3 => text.insert(at, random.next() as u8),
        _ => {
            let word = random.pick(&KEYWORDS);
            text.splice(at..at, word.bytes());
        }
    }
}

fn shuffled(random: &mut Random) -> Vec<u8> {
    let tree = ground(random);
    let mut tokens = write::tokens(random, &tree).all;
    let from = random.below(tokens.len());
    let to = (from + random.pick(&[2, 3, 10, 1_000])).min(tokens.len());
    shuffle(random, &mut tokens[from..to]);
    lay(random, &tokens).bytes
}

fn any_tokens(random: &mut Random) -> Vec<u8> {
    let mut text = Vec::new();
    for _ in 0..random.below(200) {
        match random.below(4) {
            0 => text.extend(random.pick(&KEYWORDS).bytes()),
            1 => text.extend(random.below(3).to_string().bytes()),
            2 => text.push(random.pick(b"ab")),
            _ => text.extend(random.pick(SIGNS).bytes()),
        }
        if random.one_in(2) {
            text.push(b' ');
        }
    }
    text
}

/// One piece again and again behind what makes it fit.
fn hostile(random: &mut Random) -> Vec<u8> {
    let (before, piece) = random.pick(&REPEATED);
    let most = random.pick(&[50, 1_000, 10_000, HOSTILE]);
    let many = (most - before.len().min(most)) / piece.len();
    let mut text = before.as_bytes().to_vec();
    text.extend(piece.repeat(many).into_bytes());
    if random.one_in(2) {
        text.extend(base(random, false));
    }
    text.truncate(HOSTILE);
    text
}
