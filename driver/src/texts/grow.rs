//! Random trees of the grammar, all within the limits.

use super::tree::*;
use crate::random::Random;

/// The lines that a tree is planned with.
#[derive(Clone, Copy, PartialEq)]
pub enum Line {
    Res,
    Bin,
    Sync,
    Var,
    Sampler,
    Announced,
    Class,
    Entity,
}

const LINES: [Line; 8] =
    [Line::Res, Line::Bin, Line::Sync, Line::Var, Line::Sampler, Line::Announced, Line::Class, Line::Entity];

/// As many as fit into a claim and one more.
const SOME: usize = 5;

pub const TOP_AMOUNT: u32 = 1_000_000;
pub const MOST_NODES: usize = 16;
pub const MOST_ITEMS: usize = 4;
pub const MOST_BRANCHES: usize = 4;
pub const MOST_LOCALS: usize = 8;
pub const DEEPEST: usize = 8;

/// Any tree, also an empty one.
pub fn tree(random: &mut Random) -> Tree {
    let many = random.pick(&[0, 1, 2, 4, 8, 12, 16]);
    let plan: Vec<Line> = (0..many).map(|_| random.pick(&LINES)).collect();
    planned(random, &plan)
}

/// A tree in which any action can stand in any class: what it names is declared in front.
pub fn ground(random: &mut Random) -> Tree {
    let mut front = vec![Line::Var, Line::Sampler];
    for line in [Line::Res, Line::Bin, Line::Sync] {
        front.extend([line; SOME]);
    }
    shuffle(random, &mut front);
    let mut behind = vec![Line::Announced, Line::Announced, Line::Class, Line::Entity];
    behind.extend((0..random.below(6)).map(|_| random.pick(&LINES)));
    shuffle(random, &mut behind);
    planned(random, &[front, behind].concat())
}

pub fn shuffle<T>(random: &mut Random, all: &mut [T]) {
    for i in (1..all.len()).rev() {
        all.swap(i, random.below(i + 1));
    }
}

/// The lines in this order. A class can bring the body of one announced before; what still lacks it then gets it at the end, and
/// so do entities that stood before any class.
pub fn planned(random: &mut Random, plan: &[Line]) -> Tree {
    let mut grower = Grower { random, scope: Scope::default(), blocks: 40 };
    let mut tree = Tree::default();
    let mut bodiless = Vec::new();
    let mut early = 0;
    for line in plan {
        let declaration = match line {
            Line::Entity if grower.scope.many(Thing::Class) == 0 => {
                early += 1;
                continue;
            }
            Line::Announced => {
                bodiless.push(grower.scope.many(Thing::Class));
                Declaration::Announced
            }
            _ => grower.declaration(*line),
        };
        grower.scope.declare(&declaration);
        tree.declarations.push(declaration);
        if !bodiless.is_empty() && grower.random.one_in(4) {
            let announced = bodiless.swap_remove(grower.random.below(bodiless.len()));
            tree.declarations.push(grower.class(Some(announced)));
        }
    }
    shuffle(grower.random, &mut bodiless);
    tree.declarations.extend(bodiless.into_iter().map(|announced| grower.class(Some(announced))));
    if grower.scope.many(Thing::Class) > 0 {
        tree.declarations.extend((0..early).map(|_| grower.declaration(Line::Entity)));
    }
    tree
}

/// Grows what can stand at a place.
pub struct Grower<'a> {
    pub random: &'a mut Random,
    pub scope: Scope,
    /// So many blocks more are opened at most.
    pub blocks: usize,
}

impl Grower<'_> {
    pub fn declaration(&mut self, line: Line) -> Declaration {
        match line {
            Line::Res => Declaration::Res(self.offset()),
            Line::Bin => Declaration::Bin(self.offset()),
            Line::Sync => Declaration::Sync,
            Line::Var => Declaration::Var(self.value()),
            Line::Sampler => self.sampler(),
            Line::Announced => Declaration::Announced,
            Line::Class => self.class(None),
            Line::Entity => Declaration::Entity { class: self.some(Thing::Class), offset: self.offset() },
        }
    }

    fn sampler(&mut self) -> Declaration {
        let lowest = self.random.pick(&[0, 4, -1, -1_000_000, i32::MIN, i32::MAX - 1_000_000]);
        let highest = lowest + self.random.pick(&[0, 3, 7, 1_000_000]);
        Declaration::Sampler { lowest, highest, seed: self.random.pick(&[1, 2, 7, 2_147_483_646]) }
    }

    pub fn class(&mut self, announced: Option<usize>) -> Declaration {
        let locals = self.random.pick(&[0, 0, 0, 1, 2, 3, MOST_LOCALS]);
        let outside = self.scope;
        self.scope.set_locals(locals);
        if announced.is_none() {
            self.scope.declare(&Declaration::Announced);
        }
        let body = self.block(1);
        self.scope = outside;
        Declaration::Class { announced, locals, body }
    }

    /// A block that stands so deep, the class body included.
    pub fn block(&mut self, depth: usize) -> Block {
        self.blocks = self.blocks.saturating_sub(1);
        let many = self.random.pick(&[0, 1, 1, 2, 3, 5]);
        (0..many).map(|_| self.action(depth)).collect()
    }

    /// An action in a block that stands so deep.
    pub fn action(&mut self, depth: usize) -> Action {
        let opens = depth < DEEPEST && self.blocks > 0;
        loop {
            let action = match self.random.below(10) {
                0..=3 => self.valued(),
                4..=6 => self.named(),
                7 => Some(Action::Req(self.any_claim())),
                8 if opens => Some(self.opening(depth)),
                8 => None,
                _ => Some(Action::Close),
            };
            if let Some(action) = action {
                return action;
            }
        }
    }

    fn valued(&mut self) -> Option<Action> {
        let nodes = self.random.pick(&[1, 1, 2, 3, 4, 5, 7, 9, 12, 15, MOST_NODES]);
        let value = self.expression(nodes);
        let kind = self.random.below(5);
        self.acting(kind, value)
    }

    /// One of the five actions with an expression, if there is something to set.
    pub fn acting(&mut self, kind: usize, value: Expression) -> Option<Action> {
        Some(match kind {
            0 => Action::Hold(value),
            1 => Action::Priority(value),
            2 => Action::Trace(value),
            3 if self.has(Thing::Var) => Action::Set(self.some(Thing::Var), value),
            4 if self.has(Thing::Local) => Action::SetLocal(self.some(Thing::Local), value),
            _ => return None,
        })
    }

    fn named(&mut self) -> Option<Action> {
        match self.random.below(5) {
            0 if self.has(Thing::Res) => Some(Action::PutR(self.some(Thing::Res), self.amount())),
            1 if self.has(Thing::Bin) => Some(Action::PutB(self.some(Thing::Bin), self.amount())),
            2 if self.has(Thing::Sync) => Some(Action::PutS(self.some(Thing::Sync), self.random.pick(&[1, 2, 63, 64]))),
            3 if self.has(Thing::Sync) => Some(Action::Become(self.some(Thing::Sync))),
            4 => {
                let many = self.random.below(MOST_ITEMS + 1);
                Some(self.start(many))
            }
            _ => None,
        }
    }

    fn opening(&mut self, depth: usize) -> Action {
        match self.random.below(3) {
            0 => Action::Do(self.random.pick(&[0, 1, 2, 300, u16::MAX]), self.block(depth + 1)),
            1 => Action::While(self.any_claim(), self.block(depth + 1)),
            _ => {
                let many = self.random.from_to(1, MOST_BRANCHES);
                Action::Try((0..many).map(|_| (self.any_claim(), self.block(depth + 1))).collect())
            }
        }
    }

    /// With so many shares, or fewer if there aren't so many resources.
    pub fn start(&mut self, many: usize) -> Action {
        let mut resources: Vec<usize> = (0..self.scope.many(Thing::Res)).collect();
        shuffle(self.random, &mut resources);
        let shares = resources.into_iter().take(many).map(|number| (number, self.amount())).collect();
        Action::Start { class: self.some(Thing::Class), offset: self.offset(), shares }
    }

    pub fn any_claim(&mut self) -> Claim {
        let many = self.random.below(MOST_ITEMS + 1);
        self.claim(many)
    }

    /// With so many items, or fewer if there isn't enough to name; nothing is claimed twice.
    pub fn claim(&mut self, many: usize) -> Claim {
        let mut items = Vec::new();
        let of = |thing, scope: &Scope| 0..scope.many(thing);
        items.extend(of(Thing::Res, &self.scope).map(|number| Item::GetR(number, self.amount())));
        items.extend(of(Thing::Bin, &self.scope).map(|number| Item::GetB(number, self.amount())));
        items.extend(of(Thing::Sync, &self.scope).map(|number| Item::GetS(number, self.amount())));
        if self.has(Thing::Var) {
            items.extend((0..SOME).map(|_| self.condition()));
        }
        shuffle(self.random, &mut items);
        items.truncate(many);
        items
    }

    pub fn condition(&mut self) -> Item {
        Item::Condition(self.some(Thing::Var), self.random.below(RELATIONS.len()), self.value())
    }

    /// With exactly so many nodes, one or more.
    pub fn expression(&mut self, nodes: usize) -> Expression {
        if nodes == 1 {
            return self.leaf();
        }
        if nodes == 2 || self.random.one_in(4) {
            return Expression::Minus(Box::new(self.expression(nodes - 1)));
        }
        let op = self.random.pick(&[Op::Add, Op::Add, Op::Subtract, Op::Subtract, Op::Multiply, Op::Lesser, Op::Greater]);
        let first = self.random.from_to(1, nodes - 2);
        let (first, second) = (self.expression(first), self.expression(nodes - 1 - first));
        Expression::Two(op, Box::new(first), Box::new(second))
    }

    fn leaf(&mut self) -> Expression {
        match self.random.below(8) {
            0 => Expression::Clock,
            1 | 2 if self.has(Thing::Var) => Expression::Var(self.some(Thing::Var)),
            3 | 4 if self.has(Thing::Local) => Expression::Local(self.some(Thing::Local)),
            5 if self.has(Thing::Sampler) => Expression::Sampler(self.some(Thing::Sampler)),
            _ => Expression::Literal(self.value()),
        }
    }

    fn has(&self, thing: Thing) -> bool {
        self.scope.many(thing) > 0
    }

    pub fn some(&mut self, thing: Thing) -> usize {
        self.random.below(self.scope.many(thing))
    }

    fn value(&mut self) -> i32 {
        match self.random.below(4) {
            0 => self.random.pick(&[i32::MIN, i32::MIN + 1, -1, i32::MAX]),
            1 => self.random.next() as i32,
            _ => self.random.below(12) as i32,
        }
    }

    /// A total, a start amount or an offset.
    fn offset(&mut self) -> u32 {
        self.random.pick(&[0, 0, 1, 2, 3, 40, TOP_AMOUNT - 1, TOP_AMOUNT])
    }

    fn amount(&mut self) -> u32 {
        self.random.pick(&[1, 1, 2, 3, 40, TOP_AMOUNT])
    }
}
