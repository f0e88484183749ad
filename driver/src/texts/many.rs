//! 54 by the whole text: as many things, classes, entities, blocks, actions and bytes as there may be, and one more; depth; and a
//! class without a body. The check that fails isn't always told where the trouble is met.

use super::case::Wrong;
use super::crowd::*;
use super::grow::{ground, DEEPEST, MOST_NODES};
use super::tokens::Tokens;
use super::tree::*;
use super::write;
use crate::random::Random;

pub const MANY: [&str; 14] = [
    "32 res",
    "32 bins",
    "32 syncs",
    "32 vars",
    "16 samplers",
    "64 classes",
    "64 entities",
    "256 blocks",
    "1,024 actions",
    "8 blocks deep",
    "65,534 bytes",
    "65,534 bytes with one action",
    "a body for each class",
    "bodies for two classes",
];

/// How often each is made: blocks, actions and bytes less often, as the second program takes long for these.
pub const WEIGHTS: [usize; 14] = [4, 4, 4, 4, 4, 2, 4, 2, 1, 4, 1, 2, 4, 4];

/// More that are told by the order of the checks.
pub const ORDER: [&str; 6] = [
    "1,025th action, told at another",
    "1,025th action with 17 nodes",
    "257th block, too deep as well",
    "1,025th action opens a 257th block",
    "too long, and with 17 nodes",
    "257th block by an etry",
];

/// A tree at the limit, all right.
pub fn at(random: &mut Random, kind: usize) -> Tree {
    tree(random, kind, 0)
}

fn tree(random: &mut Random, kind: usize, over: usize) -> Tree {
    match kind {
        0..=6 => things(random, kind, over),
        7 => {
            let mut tree = ground(random);
            fill_blocks(random, &mut tree, MOST_BLOCKS + over);
            tree
        }
        8 => {
            let mut tree = ground(random);
            fill_actions(random, &mut tree, MOST_ACTIONS + over);
            tree
        }
        9 => deep(random, DEEPEST + over),
        10 => long(random, LAST_BYTE + 2 * over),
        11 => one_long(random, over > 0),
        _ => bodiless(random, if over > 0 { kind - 11 } else { 0 }),
    }
}

/// A tree beyond the limit, as tokens, and where that is told.
pub fn over(random: &mut Random, kind: usize) -> Wrong {
    let more = random.pick(&[1, 1, 1, 2]);
    let tree = tree(random, kind, more);
    let tokens = write::tokens(random, &tree);
    let (told, met) = match kind {
        0..=4 => {
            let nth = tokens.declared.iter().filter(|declared| declared.thing as usize == kind).nth(MOST_LINES[kind].1);
            of_unit(&tokens, tokens.all[nth.expect("one more").from].unit)
        }
        5 => of_unit(&tokens, tokens.classes[MOST_LINES[kind].1].0),
        6 => {
            let unit = tokens.units_of("entity").nth(MOST_LINES[kind].1).expect("one more");
            (unit.first, unit.cuts[0])
        }
        7 => of_brace(&tokens, MOST_BLOCKS),
        8 => last_action(&tokens),
        9 => too_deep(&tokens),
        10 | 11 => (0, last_cut(&tokens)),
        _ => {
            let class = tokens.classes.iter().find(|(_, body)| body.is_none()).expect("one lacks its body");
            (tokens.units[class.0].first, tokens.all.len() - 1)
        }
    };
    Wrong { tokens: tokens.all, number: 54, told, met, kind: MANY[kind] }
}

fn of_unit(tokens: &Tokens, unit: usize) -> (usize, usize) {
    (tokens.units[unit].first, tokens.units[unit].cuts[0])
}

/// The unit whose `{` opens the block of that number.
fn of_brace(tokens: &Tokens, number: usize) -> (usize, usize) {
    let brace = tokens.braces[number];
    (tokens.units[tokens.all[brace].unit].first, brace)
}

fn last_cut(tokens: &Tokens) -> usize {
    tokens.units.iter().flat_map(|unit| &unit.cuts).copied().max().expect("there is a cut")
}

/// The 1,025th action is met at its cut, and told at the last of these in the order of the file.
fn last_action(tokens: &Tokens) -> (usize, usize) {
    let read: Vec<_> = tokens.units.iter().filter(|unit| unit.block.is_some()).take(MOST_ACTIONS + 1).collect();
    // Of equal ones the last: the actions of a block stand in the order of the text.
    let last = read.iter().max_by_key(|unit| unit.block).expect("there are so many");
    (last.first, read[MOST_ACTIONS].cuts[0])
}

/// The ninth `{` that is open at once, told at the class.
fn too_deep(tokens: &Tokens) -> (usize, usize) {
    let mut open = 0;
    let ninth = tokens.all.iter().position(|token| {
        open += usize::from(token.kind == "{");
        open -= usize::from(token.kind == "}");
        open > DEEPEST
    });
    let met = ninth.expect("it is too deep");
    let body = |class: &&(usize, Option<usize>)| class.1.is_some_and(|body| body < met);
    let class = tokens.classes.iter().filter(body).max_by_key(|class| class.1).expect("a class is open");
    (tokens.units[class.0].first, met)
}

// ---- two checks at one cut

/// Where more than one check fails at a cut, the order of the checks and of the file decides.
pub fn order(random: &mut Random, kind: usize) -> Wrong {
    let too_many = || Action::Hold((0..MOST_NODES).fold(Expression::Clock, |of, _| Expression::Minus(Box::new(of))));
    let mut tree = if kind == 4 { long(random, LAST_BYTE) } else { ground(random) };
    let chain = |deep: usize| (1..deep).fold(Vec::new(), |inner, _| vec![Action::Do(1, inner)]);
    let empty = || (Vec::new(), Vec::new());
    match kind {
        0 | 1 => {
            fill_actions(random, &mut tree, MOST_ACTIONS - 40);
            let last = if kind == 0 { Action::Close } else { too_many() };
            add_class(random, &mut tree, vec![Action::Do(1, vec![Action::Close; 39]), last]);
        }
        2 => {
            fill_blocks(random, &mut tree, MOST_BLOCKS - DEEPEST);
            add_class(random, &mut tree, chain(DEEPEST + 1));
        }
        3 => {
            fill_blocks(random, &mut tree, MOST_BLOCKS - 2);
            let left = MOST_ACTIONS - all_actions(&tree) - 1;
            add_class(random, &mut tree, vec![Action::Do(1, vec![Action::Close; left]), Action::Do(1, Vec::new())]);
        }
        4 => add_class(random, &mut tree, vec![too_many()]),
        _ => {
            fill_blocks(random, &mut tree, MOST_BLOCKS - 2);
            add_class(random, &mut tree, vec![Action::Try(vec![empty(), empty(), empty()])]);
        }
    }
    let tokens = write::tokens(random, &tree);
    let (told, met) = match kind {
        1 => of_unit(&tokens, tokens.units.iter().rposition(|unit| unit.block.is_some()).expect("an action")),
        2 | 5 => of_brace(&tokens, MOST_BLOCKS),
        0 | 3 => last_action(&tokens),
        _ => (0, last_cut(&tokens)),
    };
    Wrong { tokens: tokens.all, number: 54, told, met, kind: ORDER[kind] }
}
