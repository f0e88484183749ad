//! 52 and 53: a name that isn't known, doesn't fit or is taken, put in at a known place.

use super::case::{some_place, token, Wrong};
use super::names::{any_name, recased, KEYWORDS};
use super::tokens::*;
use super::tree::Thing;
use crate::random::Random;

/// Where a name is put in: where this is asked for, where any is, or in place of the keyword of an action.
#[derive(Clone, Copy)]
pub enum At {
    Asked(Asked),
    Name,
    Action,
}

/// Which name is put in.
#[derive(Clone, Copy, PartialEq)]
pub enum Put {
    Nobody,
    OtherKind,
    Behind,
    Free,
    Recased,
    Misspelt,
}

pub const UNKNOWN: [(&str, At, Put); 18] = [
    ("a resource that isn't known", At::Asked(Asked::Resource), Put::Nobody),
    ("a bin that isn't known", At::Asked(Asked::Bin), Put::Nobody),
    ("a sync that isn't known", At::Asked(Asked::Sync), Put::Nobody),
    ("a class that isn't known", At::Asked(Asked::Class), Put::Nobody),
    ("a variable that isn't known", At::Asked(Asked::Variable), Put::Nobody),
    ("a store that isn't known", At::Asked(Asked::Store), Put::Nobody),
    ("a value that isn't known", At::Asked(Asked::Value), Put::Nobody),
    ("a resource of another kind", At::Asked(Asked::Resource), Put::OtherKind),
    ("a bin of another kind", At::Asked(Asked::Bin), Put::OtherKind),
    ("a sync of another kind", At::Asked(Asked::Sync), Put::OtherKind),
    ("a class of another kind", At::Asked(Asked::Class), Put::OtherKind),
    ("a variable of another kind", At::Asked(Asked::Variable), Put::OtherKind),
    ("a store of another kind", At::Asked(Asked::Store), Put::OtherKind),
    ("a value of another kind", At::Asked(Asked::Value), Put::OtherKind),
    ("declared further behind", At::Name, Put::Behind),
    ("a local behind its class", At::Name, Put::Free),
    ("known with other capitals", At::Name, Put::Recased),
    ("a misspelt action", At::Action, Put::Misspelt),
];

/// Whose name is taken.
#[derive(Clone, Copy, PartialEq)]
pub enum Of {
    Any,
    Thing(Thing),
    OwnClass,
    /// A class that lacks its body.
    Announced,
    WithBody,
}

/// Each with what is declared by the name, if that matters, and whose name it is already.
pub const TAKEN: [(&str, Option<Thing>, Of); 19] = [
    ("the name of a res taken", None, Of::Thing(Thing::Res)),
    ("the name of a bin taken", None, Of::Thing(Thing::Bin)),
    ("the name of a sync taken", None, Of::Thing(Thing::Sync)),
    ("the name of a var taken", None, Of::Thing(Thing::Var)),
    ("the name of a sampler taken", None, Of::Thing(Thing::Sampler)),
    ("the name of a class taken", None, Of::Thing(Thing::Class)),
    ("the name of a local taken", None, Of::Thing(Thing::Local)),
    ("taken by a res", Some(Thing::Res), Of::Any),
    ("taken by a bin", Some(Thing::Bin), Of::Any),
    ("taken by a sync", Some(Thing::Sync), Of::Any),
    ("taken by a var", Some(Thing::Var), Of::Any),
    ("taken by a sampler", Some(Thing::Sampler), Of::Any),
    ("taken by a class", Some(Thing::Class), Of::Any),
    ("taken by a local", Some(Thing::Local), Of::Any),
    ("a local twice in its line", Some(Thing::Local), Of::Thing(Thing::Local)),
    ("its class's name for a local", Some(Thing::Local), Of::OwnClass),
    ("an announced class's name taken", None, Of::Announced),
    ("a second body", Some(Thing::Class), Of::WithBody),
    ("a second announcement", Some(Thing::Class), Of::Announced),
];

/// A name in place of a token, told there.
fn put(tokens: &Tokens, at: usize, name: &[u8], number: u32, kind: &'static str) -> Wrong {
    let mut all = tokens.all.clone();
    all[at] = token(NAME, name);
    Wrong { tokens: all, number, told: at, met: at, kind }
}

fn known(tokens: &Tokens, at: usize, name: &[u8]) -> bool {
    tokens.known(at).any(|declared| tokens.name(declared) == name)
}

fn one<T: Copy>(random: &mut Random, from: &[T]) -> Option<T> {
    (!from.is_empty()).then(|| from[some_place(random, from.len())])
}

// ---- 52

pub fn unknown(random: &mut Random, tokens: &Tokens, kind: usize) -> Option<Wrong> {
    let (said, stands, which) = UNKNOWN[kind];
    let all = &tokens.all;
    let asks = |at: &usize| match (all[*at].asked, stands) {
        (None | Some(Asked::New), _) => false,
        (Some(asked), At::Asked(wanted)) => asked == wanted,
        (Some(asked), At::Action) => asked == Asked::Store && KEYWORDS.contains(&all[*at].kind),
        (Some(_), At::Name) => true,
    };
    let places: Vec<usize> = (0..all.len()).filter(asks).collect();
    let at = one(random, &places)?;
    let name = match which {
        Put::Nobody => any_name(random).into_bytes(),
        Put::OtherKind => other_kind(random, tokens, at, all[at].asked?)?,
        Put::Behind => declared_as(random, tokens, |declared| declared.from > at)?,
        Put::Free => declared_as(random, tokens, |declared| declared.until < at)?,
        Put::Recased => recased_name(random, tokens, at)?,
        Put::Misspelt => recased(random, all[at].kind).into_bytes(),
    };
    // Another name can be the same by chance, and one that is free again can be declared again.
    let right = which == Put::OtherKind || !known(tokens, at, &name);
    right.then(|| put(tokens, at, &name, 52, said))
}

fn other_kind(random: &mut Random, tokens: &Tokens, at: usize, asked: Asked) -> Option<Vec<u8>> {
    let others: Vec<&Declared> = tokens.known(at).filter(|declared| !asked.fits(declared.thing)).collect();
    one(random, &others).map(|declared| tokens.name(declared).to_vec())
}

/// The name of something that is so declared.
fn declared_as(random: &mut Random, tokens: &Tokens, so: impl Fn(&Declared) -> bool) -> Option<Vec<u8>> {
    let found: Vec<&Declared> = tokens.declared.iter().filter(|declared| so(declared)).collect();
    one(random, &found).map(|declared| tokens.name(declared).to_vec())
}

fn recased_name(random: &mut Random, tokens: &Tokens, at: usize) -> Option<Vec<u8>> {
    let found: Vec<&Declared> = tokens.known(at).collect();
    let name = String::from_utf8(tokens.name(one(random, &found)?).to_vec()).expect("a name");
    let other = recased(random, &name);
    (!KEYWORDS.contains(&other.as_str())).then(|| other.into_bytes())
}

// ---- 53

pub fn taken(random: &mut Random, tokens: &Tokens, kind: usize) -> Option<Wrong> {
    let (said, by, of) = TAKEN[kind];
    let right = |declared: &&Declared| by.is_none_or(|thing| declared.thing == thing);
    let places: Vec<usize> = tokens.declared.iter().filter(right).map(|declared| declared.from).collect();
    let at = one(random, &places)?;
    let names: Vec<&Declared> = tokens.known(at).filter(|declared| is_of(tokens, declared, at, of)).collect();
    let declared = one(random, &names)?;
    let mut wrong = put(tokens, at, tokens.name(declared), 53, said);
    let class_line = at > 0 && tokens.all[at - 1].kind == "class";
    if class_line && bodiless(tokens, declared, at) {
        // It is in no trouble where it stands. With `{` it would be the body; with `;` it is in trouble then.
        if tokens.all[at + 1].kind == "{" {
            return None;
        }
        wrong.met = at + 1;
    }
    Some(wrong)
}

fn is_of(tokens: &Tokens, declared: &Declared, at: usize, of: Of) -> bool {
    let class = declared.thing == Thing::Class;
    match of {
        Of::Any => true,
        Of::Thing(thing) => declared.thing == thing,
        Of::OwnClass => class && tokens.all[declared.from].unit == tokens.all[at].unit,
        Of::Announced => bodiless(tokens, declared, at),
        Of::WithBody => class && !bodiless(tokens, declared, at),
    }
}

/// Whether it is a class that was announced and lacks its body at a token.
fn bodiless(tokens: &Tokens, declared: &Declared, at: usize) -> bool {
    let unit = tokens.all[declared.from].unit;
    let body = tokens.classes.iter().find(|(first, _)| *first == unit).map(|(_, body)| *body);
    declared.thing == Thing::Class && body.is_some_and(|body| body.is_none_or(|body| body >= at))
}
