//! 54 by one declaration or action: each number and each list at its limit, and one beyond it.

use super::case::{some_place, token, Wrong};
use super::grow::*;
use super::tokens::*;
use super::tree::*;
use super::write;
use crate::random::Random;

/// What is put into a tree: the line, and which of its cuts meets the trouble.
pub enum Line {
    Declaration(Declaration),
    Action(Action, usize),
}

type Makes = fn(&mut Grower, bool) -> Line;

/// Each with how it is made: at the limit, or, if so wished, beyond it.
pub const LIMITS: [(&str, Makes); 33] = [
    ("a total: 1,000,000", |g, over| Line::Declaration(Declaration::Res(g.top(over)))),
    ("a start amount: 1,000,000", |g, over| Line::Declaration(Declaration::Bin(g.top(over)))),
    ("an entity's offset: 1,000,000", |g, over| {
        Line::Declaration(Declaration::Entity { class: g.some(Thing::Class), offset: g.top(over) })
    }),
    ("lowest up to highest", |g, over| spread(g, if over { -1 } else { 0 }, 1)),
    ("highest: lowest + 1,000,000", |g, over| spread(g, 1_000_000 + i64::from(over), 1)),
    ("lowest and highest far apart", |_, over| {
        let (lowest, highest) = if over { (i32::MIN, i32::MAX) } else { (i32::MIN, i32::MIN + 1_000_000) };
        Line::Declaration(Declaration::Sampler { lowest, highest, seed: 1 })
    }),
    ("a seed from 1 on", |g, over| spread(g, 3, u32::from(!over))),
    ("a seed: 2,147,483,646", |g, over| spread(g, 3, 2_147_483_646 + u32::from(over))),
    ("putR from 1 on", |g, over| action(Action::PutR(g.some(Thing::Res), u32::from(!over)))),
    ("putR: 1,000,000", |g, over| action(Action::PutR(g.some(Thing::Res), g.top(over)))),
    ("putB from 1 on", |g, over| action(Action::PutB(g.some(Thing::Bin), u32::from(!over)))),
    ("putB: 1,000,000", |g, over| action(Action::PutB(g.some(Thing::Bin), g.top(over)))),
    ("putS from 1 on", |g, over| action(Action::PutS(g.some(Thing::Sync), u16::from(!over)))),
    ("putS: 64", |g, over| {
        let beyond = g.random.pick(&[65, 65, 320, u16::MAX]);
        action(Action::PutS(g.some(Thing::Sync), if over { beyond } else { 64 }))
    }),
    ("getR from 1 on", |g, over| amount(g, Item::GetR, Thing::Res, u32::from(!over))),
    ("getR: 1,000,000", |g, over| top_amount(g, Item::GetR, Thing::Res, over)),
    ("getB from 1 on", |g, over| amount(g, Item::GetB, Thing::Bin, u32::from(!over))),
    ("getB: 1,000,000", |g, over| top_amount(g, Item::GetB, Thing::Bin, over)),
    ("getS from 1 on", |g, over| amount(g, Item::GetS, Thing::Sync, u32::from(!over))),
    ("getS: 1,000,000", |g, over| top_amount(g, Item::GetS, Thing::Sync, over)),
    ("a start's offset: 1,000,000", |g, over| {
        let (class, offset) = (g.some(Thing::Class), g.top(over));
        action(Action::Start { class, offset, shares: Vec::new() })
    }),
    ("a share from 1 on", |g, over| share(g, u32::from(!over))),
    ("a share: 1,000,000", |g, over| {
        let top = g.top(over);
        share(g, top)
    }),
    ("4 shares", |g, over| action(g.start(MOST_ITEMS + usize::from(over)))),
    ("no resource twice in shares", share_twice),
    ("4 items", |g, over| {
        let claim = g.claim(MOST_ITEMS + usize::from(over));
        claiming(g, claim)
    }),
    ("no res twice in a claim", |g, over| twice(g, Item::GetR, Thing::Res, over)),
    ("no bin twice in a claim", |g, over| twice(g, Item::GetB, Thing::Bin, over)),
    ("no sync twice in a claim", |g, over| twice(g, Item::GetS, Thing::Sync, over)),
    ("4 branches", branches),
    ("16 nodes", |g, over| nodes(g, MOST_NODES + usize::from(over))),
    ("16 nodes, of minuses", |g, over| {
        let minus = |value, _| Expression::Minus(Box::new(value));
        let value = (1..MOST_NODES + usize::from(over)).fold(Expression::Clock, minus);
        let kind = g.random.below(4);
        action(g.acting(kind, value).expect("there is a var"))
    }),
    ("many nodes", |g, over| {
        let many = g.random.pick(&[18, 64, 300, 10_000]);
        nodes(g, if over { many } else { MOST_NODES })
    }),
];

impl Grower<'_> {
    /// The highest amount, or one that is too high.
    fn top(&mut self, over: bool) -> u32 {
        let beyond = self.random.pick(&[TOP_AMOUNT + 1, TOP_AMOUNT + 1, 16_777_217, 2_147_483_647]);
        if over {
            beyond
        } else {
            TOP_AMOUNT
        }
    }
}

fn action(action: Action) -> Line {
    Line::Action(action, 0)
}

fn spread(g: &mut Grower, by: i64, seed: u32) -> Line {
    let lowest = g.random.pick(&[0, 4, -3, -1_000_000, i32::MIN + 1, i32::MAX - 1_000_001]);
    let highest = (i64::from(lowest) + by) as i32;
    Line::Declaration(Declaration::Sampler { lowest, highest, seed })
}

fn top_amount(g: &mut Grower, item: fn(usize, u32) -> Item, thing: Thing, over: bool) -> Line {
    let top = g.top(over);
    amount(g, item, thing, top)
}

/// A claim with this item among conditions.
fn amount(g: &mut Grower, item: fn(usize, u32) -> Item, thing: Thing, amount: u32) -> Line {
    let mut claim: Claim = (1..g.random.from_to(1, MOST_ITEMS)).map(|_| g.condition()).collect();
    let at = some_place(g.random, claim.len() + 1);
    claim.insert(at, item(g.some(thing), amount));
    claiming(g, claim)
}

/// A req, a while or any branch of a try has this claim.
fn claiming(g: &mut Grower, claim: Claim) -> Line {
    match g.random.below(3) {
        0 => action(Action::Req(claim)),
        1 => action(Action::While(claim, Vec::new())),
        _ => {
            let many = g.random.from_to(1, MOST_BRANCHES);
            let mut branches: Vec<(Claim, Block)> = (0..many).map(|_| (g.any_claim(), few(g))).collect();
            let at = some_place(g.random, many);
            branches[at].0 = claim;
            Line::Action(Action::Try(branches), at)
        }
    }
}

fn few(g: &mut Grower) -> Block {
    (0..g.random.below(3)).map(|_| Action::Close).collect()
}

fn twice(g: &mut Grower, item: fn(usize, u32) -> Item, thing: Thing, over: bool) -> Line {
    let first = g.some(thing);
    let other = (first + 1) % g.scope.many(thing);
    let again = if over { first } else { other };
    let mut claim = vec![item(first, 1), item(again, g.random.pick(&[1, 2]))];
    claim.extend((0..g.random.below(3)).map(|_| g.condition()));
    shuffle(g.random, &mut claim);
    claiming(g, claim)
}

fn share(g: &mut Grower, amount: u32) -> Line {
    let many = g.random.from_to(1, MOST_ITEMS);
    let mut start = g.start(many);
    if let Action::Start { shares, .. } = &mut start {
        shares[some_place(g.random, many)].1 = amount;
    }
    action(start)
}

fn share_twice(g: &mut Grower, over: bool) -> Line {
    let many = g.random.from_to(2, MOST_ITEMS);
    let mut start = g.start(many);
    if let (Action::Start { shares, .. }, true) = (&mut start, over) {
        let at = g.random.from_to(1, many - 1);
        shares[at].0 = shares[g.random.below(at)].0;
    }
    action(start)
}

fn branches(g: &mut Grower, over: bool) -> Line {
    let many = MOST_BRANCHES + usize::from(over);
    Line::Action(Action::Try((0..many).map(|_| (g.any_claim(), few(g))).collect()), many - 1)
}

/// Beyond 16 nodes it goes on at the left, two nodes at a time, so that no brackets are needed however many there are.
fn nodes(g: &mut Grower, many: usize) -> Line {
    let kind = g.random.below(4);
    let first = if many > MOST_NODES { MOST_NODES - many % 2 } else { many };
    let mut value = g.expression(first);
    for _ in 0..(many - first) / 2 {
        value = Expression::Two(Op::Add, Box::new(value), Box::new(Expression::Clock));
    }
    action(g.acting(kind, value).expect("there is a var"))
}

// ---- putting the line into a tree

/// The number of the unit that the line became, and which of its cuts meets the trouble.
pub struct Planted {
    pub unit: usize,
    pub cut: usize,
}

/// The line of that limit somewhere in a tree of `ground`.
pub fn plant(random: &mut Random, tree: &mut Tree, limit: usize, over: bool) -> Planted {
    let bodies: Vec<usize> =
        (0..tree.declarations.len()).filter(|at| matches!(tree.declarations[*at], Declaration::Class { .. })).collect();
    let at = bodies[some_place(random, bodies.len())];
    let scope = tree.scope(at);
    let line = LIMITS[limit].1(&mut Grower { random, scope, blocks: 4 }, over);
    match line {
        Line::Declaration(declaration) => {
            // An entity needs its class before it.
            let entity = matches!(declaration, Declaration::Entity { .. });
            let least = if entity { at + 1 } else { 0 };
            let at = least + some_place(random, tree.declarations.len() + 1 - least);
            let unit = units(&tree.declarations[..at]);
            tree.declarations.insert(at, declaration);
            Planted { unit, cut: 0 }
        }
        Line::Action(action, cut) => {
            let before = units(&tree.declarations[..at]) + 1;
            let Declaration::Class { body, .. } = &mut tree.declarations[at] else { unreachable!("it has a body") };
            Planted { unit: before + insert(random, body, action, 1), cut }
        }
    }
}

fn units(declarations: &[Declaration]) -> usize {
    let inside = |declaration: &Declaration| match declaration {
        Declaration::Class { body, .. } => actions(body),
        _ => 0,
    };
    declarations.iter().map(|declaration| 1 + inside(declaration)).sum()
}

/// Puts the action into a block or one inside; how many actions of the block stand before it in the text.
fn insert(random: &mut Random, block: &mut Block, action: Action, depth: usize) -> usize {
    let opening: Vec<usize> = (0..block.len()).filter(|at| !block[*at].blocks().is_empty()).collect();
    if opening.is_empty() || depth + 1 == DEEPEST || random.one_in(3) {
        let at = some_place(random, block.len() + 1);
        let before = actions(&block[..at].to_vec());
        block.insert(at, action);
        return before;
    }
    let at = opening[some_place(random, opening.len())];
    let before = actions(&block[..at].to_vec()) + 1;
    let mut inner = block[at].blocks_mut();
    let chosen = some_place(random, inner.len());
    let passed: usize = inner[..chosen].iter().map(|block| actions(block)).sum();
    before + passed + insert(random, inner[chosen], action, depth + 1)
}

/// A tree with the line beyond its limit: 54 at that line.
pub fn wrong(random: &mut Random, limit: usize) -> (Tokens, Wrong) {
    let mut tree = ground(random);
    let planted = plant(random, &mut tree, limit, true);
    let tokens = write::tokens(random, &tree);
    let unit = &tokens.units[planted.unit];
    let (told, met) = (unit.first, unit.cuts[planted.cut]);
    let wrong = Wrong { tokens: tokens.all.clone(), number: 54, told, met, kind: LIMITS[limit].0 };
    (tokens, wrong)
}

pub const EARLIER: [&str; 3] = ["51 before the cut", "52 before the cut", "53 before the cut"];

/// The same with other trouble in the line, before or at its cut: the line writes nothing then, so it isn't 54.
pub fn earlier(random: &mut Random, tokens: &Tokens, wrong: Wrong, kind: usize) -> Option<Wrong> {
    let asks = |at: &usize| match tokens.all[*at].asked {
        Some(Asked::New) => kind == 2,
        asked => kind == 0 || kind == 1 && asked.is_some(),
    };
    let places: Vec<usize> = (wrong.told + 1..=wrong.met).filter(asks).collect();
    if places.is_empty() {
        return None;
    }
    let at = places[some_place(random, places.len())];
    let put = match kind {
        0 => token("@", b"@"),
        1 => token(NAME, b"nobodyKnowsMe"),
        _ => token(NAME, tokens.name(tokens.known(at).next()?)),
    };
    let mut all = wrong.tokens;
    all[at] = put;
    Some(Wrong { tokens: all, number: 51 + kind as u32, told: at, met: at, kind: EARLIER[kind] })
}
