//! Trees with as many things, classes, entities, blocks, actions and bytes as there may be, or with more.

use super::case::some_place;
use super::expected::records;
use super::grow::*;
use super::tree::*;
use crate::random::Random;

pub const LAST_BYTE: usize = 65_534;
pub const MOST_BLOCKS: usize = 256;
pub const MOST_ACTIONS: usize = 1_024;

pub const MOST_LINES: [(Line, usize); 7] = [
    (Line::Res, 32),
    (Line::Bin, 32),
    (Line::Sync, 32),
    (Line::Var, 32),
    (Line::Sampler, 16),
    (Line::Class, 64),
    (Line::Entity, 64),
];

pub fn things(random: &mut Random, kind: usize, over: usize) -> Tree {
    let (line, most) = MOST_LINES[kind];
    let others = [Line::Res, Line::Bin, Line::Sync, Line::Var, Line::Sampler, Line::Class, Line::Entity];
    let mut plan: Vec<Line> = (0..random.below(6)).map(|_| random.pick(&others)).filter(|other| *other != line).collect();
    plan.extend(std::iter::repeat_n(line, most + over));
    shuffle(random, &mut plan);
    for planned in plan.iter_mut().filter(|planned| **planned == Line::Class) {
        *planned = random.pick(&[Line::Class, Line::Class, Line::Announced]);
    }
    if line == Line::Entity {
        plan.insert(0, Line::Class);
    }
    planned(random, &plan)
}

pub fn add_class(random: &mut Random, tree: &mut Tree, body: Block) {
    let class = Declaration::Class { announced: None, locals: 0, body };
    tree.declarations.push(class);
    if random.one_in(3) {
        tree.declarations.push(Declaration::Entity { class: 0, offset: 0 });
    }
}

fn all_blocks(tree: &Tree) -> usize {
    tree.bodies().map(blocks).sum()
}

pub fn all_actions(tree: &Tree) -> usize {
    tree.bodies().map(actions).sum()
}

/// Classes more, of blocks that nest, until there are so many blocks.
pub fn fill_blocks(random: &mut Random, tree: &mut Tree, most: usize) {
    while all_blocks(tree) < most {
        let mut left = (most - all_blocks(tree)).min(random.from_to(6, 30)) - 1;
        let body = nest(random, &mut left, 1);
        add_class(random, tree, body);
    }
}

/// Some blocks side by side and inside one another, at most so many.
fn nest(random: &mut Random, left: &mut usize, depth: usize) -> Block {
    let mut block = Vec::new();
    let wide = if depth == 1 { usize::MAX } else { random.below(4) };
    while *left > 0 && depth < DEEPEST && block.len() < wide {
        *left -= 1;
        let first = nest(random, left, depth + 1);
        let action = match random.below(3) {
            0 => Action::Do(1, first),
            1 => Action::While(Vec::new(), first),
            _ => {
                let mut branches = vec![(Vec::new(), first)];
                while *left > 0 && branches.len() < MOST_BRANCHES && !random.one_in(3) {
                    *left -= 1;
                    branches.push((Vec::new(), nest(random, left, depth + 1)));
                }
                Action::Try(branches)
            }
        };
        block.push(action);
        if random.one_in(4) {
            block.push(Action::Close);
        }
    }
    block
}

/// Classes more, until there are so many actions.
pub fn fill_actions(random: &mut Random, tree: &mut Tree, most: usize) {
    let scope = tree.scope(tree.declarations.len());
    while all_actions(tree) < most {
        let mut left = most - all_actions(tree);
        if !random.one_in(3) {
            left = left.min(random.from_to(100, 600));
        }
        let body = crowd(&mut Grower { random, scope, blocks: 0 }, &mut left, 1);
        add_class(random, tree, body);
    }
}

/// Many small actions in a block and in some inside.
fn crowd(grower: &mut Grower, left: &mut usize, depth: usize) -> Block {
    let mut block = Vec::new();
    let most = if depth == 1 { usize::MAX } else { grower.random.below(40) };
    while *left > 0 && block.len() < most {
        *left -= 1;
        if depth < DEEPEST && grower.random.one_in(25) {
            block.push(Action::Do(2, crowd(grower, left, depth + 1)));
        } else {
            block.push(small(grower));
        }
    }
    block
}

fn small(grower: &mut Grower) -> Action {
    match grower.random.below(4) {
        0 => Action::Close,
        1 => Action::PutR(grower.some(Thing::Res), 1),
        2 => Action::Req(Vec::new()),
        _ => Action::Hold(grower.expression(1)),
    }
}

/// Another class among those of a tree, of so many blocks inside one another; often it is announced.
pub fn deep(random: &mut Random, most: usize) -> Tree {
    let mut tree = ground(random);
    let mut body = vec![Action::Close];
    for _ in 1..most {
        let inner = std::mem::take(&mut body);
        body.extend((0..random.below(3)).map(|_| Action::Do(0, Vec::new())));
        body.push(match random.below(3) {
            0 => Action::Do(0, inner),
            1 => Action::While(Vec::new(), inner),
            _ => {
                let mut branches: Vec<_> = (0..random.from_to(1, MOST_BRANCHES)).map(|_| (Vec::new(), Vec::new())).collect();
                let at = some_place(random, branches.len());
                branches[at].1 = inner;
                Action::Try(branches)
            }
        });
        body.extend((0..random.below(2)).map(|_| Action::Close));
    }
    let announced = random.one_in(2).then(|| tree.scope(tree.declarations.len()).many(Thing::Class));
    if announced.is_some() {
        tree.declarations.push(Declaration::Announced);
        add_class(random, &mut tree, Vec::new());
    }
    tree.declarations.push(Declaration::Class { announced, locals: 0, body });
    if random.one_in(2) {
        add_class(random, &mut tree, Vec::new());
    }
    tree
}

/// Records of exactly so many bytes, an even number: long expressions, and small actions at the end.
pub fn long(random: &mut Random, bytes: usize) -> Tree {
    let mut tree = ground(random);
    let scope = tree.scope(tree.declarations.len());
    let mut grower = Grower { random, scope, blocks: 0 };
    let mut body = Vec::new();
    // A class and its block.
    let mut left = bytes - records(&tree).len() - 10;
    while left > 300 {
        let value = grower.expression(MOST_NODES);
        body.push(Action::Set(grower.some(Thing::Var), value));
        left -= 102;
    }
    // A become has 6 bytes, and a close 4.
    if left % 4 == 2 {
        body.push(Action::Become(grower.some(Thing::Sync)));
        left -= 6;
    }
    body.extend((0..left / 4).map(|_| Action::Close));
    let at = some_place(grower.random, body.len());
    body.rotate_left(at);
    tree.declarations.push(Declaration::Class { announced: None, locals: 0, body });
    tree
}

/// One action of more bytes than a file may have; or none, in an ordinary tree.
pub fn one_long(random: &mut Random, over: bool) -> Tree {
    let mut tree = ground(random);
    let add = |value, _| Expression::Two(Op::Add, Box::new(value), Box::new(Expression::Literal(1)));
    let long = match random.below(2) {
        0 => Action::Hold((0..LAST_BYTE / 12 + 1).fold(Expression::Clock, add)),
        _ => Action::Req(vec![Item::GetR(0, 1); LAST_BYTE / 8 + 1]),
    };
    let body = if over { vec![Action::Close, long] } else { vec![Action::Close] };
    add_class(random, &mut tree, body);
    tree
}

/// So many classes lack their bodies.
pub fn bodiless(random: &mut Random, many: usize) -> Tree {
    let mut plan = vec![Line::Announced; 3];
    plan.extend([Line::Res, Line::Class, Line::Entity, Line::Var]);
    shuffle(random, &mut plan);
    let mut tree = planned(random, &plan);
    for _ in 0..many {
        let bodies: Vec<usize> = (0..tree.declarations.len())
            .filter(|at| matches!(tree.declarations[*at], Declaration::Class { announced: Some(_), .. }))
            .collect();
        tree.declarations.remove(random.pick(&bodies));
    }
    tree
}
