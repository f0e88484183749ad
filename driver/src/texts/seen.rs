//! What a good text has: how it is spelled, how its names are, and how its classes are declared.

use super::names::LONGEST;
use super::tokens::*;
use super::tree::*;

pub const SEEN: [&str; 21] = [
    "no token",
    "no blank but where one is needed",
    "a tab, a CR and an LF",
    "a comment of bytes that are no token",
    "a comment at the end",
    "a number with leading zeros",
    "a number of over 16 digits",
    "a name of one letter",
    "a name of 16 letters and digits",
    "a name that begins with a digit",
    "16 brackets open",
    "a minus before a minus",
    "-2147483648",
    "a class that was announced",
    "its body behind that of another",
    "a class that starts itself",
    "a start before the class's body",
    "8 locals",
    "a local's name declared again",
    "the name of a local of two classes",
    "an expression in brackets alone",
];

pub fn seen(tree: &Tree, tokens: &Tokens, text: &[u8]) -> Vec<&'static str> {
    let so = [spelled(tokens, text), named(tokens), classes(tree, tokens)].concat();
    assert_eq!(so.len(), SEEN.len());
    SEEN.iter().zip(so).filter(|(_, so)| *so).map(|(name, _)| *name).collect()
}

fn spelled(tokens: &Tokens, text: &[u8]) -> Vec<bool> {
    let numbers = || tokens.all.iter().filter(|token| token.kind == NUMBER);
    let has = |byte: u8| text.contains(&byte);
    let tight = !text.iter().any(|byte| b"\t\r\n#".contains(byte)) && text.len() > 60;
    vec![
        tokens.all.len() == 1,
        tight && !text.windows(2).any(|two| two == b"; " || two == b", "),
        has(b'\t') && has(b'\r') && has(b'\n'),
        has(0) || has(0xff) || has(b'@'),
        text.iter().rposition(|byte| *byte == b'#') > text.iter().rposition(|byte| b";}".contains(byte)),
        numbers().any(|token| token.spelled.len() > 1 && token.spelled[0] == b'0'),
        numbers().any(|token| token.spelled.len() > LONGEST),
    ]
}

fn named(tokens: &Tokens) -> Vec<bool> {
    let names = || tokens.declared.iter().map(|declared| tokens.name(declared));
    let two = |first: &str, second: &str| tokens.all.windows(2).any(|two| two[0].kind == first && two[1].kind == second);
    vec![
        names().any(|name| name.len() == 1),
        names().any(|name| name.len() == LONGEST),
        names().any(|name| name[0].is_ascii_digit()),
        tokens.all.iter().any(|token| token.others[0] == DEEP_FACTORS),
        two("-", "-"),
        tokens.all.windows(2).any(|two| two[0].kind == "-" && two[1].spelled.ends_with(b"2147483648")),
    ]
}

fn classes(tree: &Tree, tokens: &Tokens) -> Vec<bool> {
    let bodies: Vec<usize> = tokens.classes.iter().filter_map(|(_, body)| *body).collect();
    let announced = |at: usize| tokens.declared.iter().all(|declared| declared.from != at);
    let locals = || tokens.declared.iter().filter(|declared| declared.thing == Thing::Local);
    let again = |thing: fn(Thing) -> bool| {
        let later = |local: &Declared| {
            let mut behind = tokens.declared.iter().filter(|other| other.from > local.until && thing(other.thing));
            behind.any(|other| tokens.name(other) == tokens.name(local))
        };
        locals().any(later)
    };
    vec![
        bodies.iter().any(|at| announced(*at)),
        bodies.windows(2).any(|two| two[0] > two[1]),
        starts(tokens, |body, at| body < at),
        starts(tokens, |body, at| body > at),
        tree.declarations.iter().any(|declaration| matches!(declaration, Declaration::Class { locals: 8, .. })),
        again(|thing| thing != Thing::Local),
        again(|thing| thing == Thing::Local),
        tokens.all.windows(2).any(|two| two[0].kind == ":=" && two[1].kind == "("),
    ]
}

/// Whether a start names a class whose body stands so: inside it, if that is before, or behind.
fn starts(tokens: &Tokens, so: impl Fn(usize, usize) -> bool) -> bool {
    let all = &tokens.all;
    tokens.units_of("start").any(|unit| {
        let named = unit.first + 2;
        let class = tokens.known(named).find(|declared| tokens.name(declared) == all[named].spelled);
        let body = class.and_then(|class| tokens.classes.iter().find(|(first, _)| *first == all[class.from].unit)?.1);
        // The last body that begins before the start is the one that it stands in.
        let own = tokens.classes.iter().filter_map(|(_, body)| *body).filter(|body| *body < unit.first).max();
        body.is_some_and(|body| so(body, unit.first) && (body > unit.first || Some(body) == own))
    })
}
