//! Writes claims and expressions as tokens, with brackets where they are needed and some where they aren't.

use super::tokens::*;
use super::tree::*;
use super::write::Writer;

const CLOSED: Kinds = &[")"];

/// Round brackets inside an expression are open at most so deep.
const MOST_OPEN: usize = 16;

/// Where an expression stands, and so what needs no brackets there.
#[derive(Clone, Copy, PartialEq, PartialOrd)]
enum Level {
    Expression,
    Term,
    Factor,
    /// Behind a minus, where a bare number would be a part of it.
    Minus,
}

/// What surrounds an expression: how many brackets are open, and what ends it.
#[derive(Clone, Copy)]
struct Inside {
    open: usize,
    closer: Kinds,
}

fn needs_brackets(expression: &Expression, level: Level) -> bool {
    match expression {
        Expression::Two(Op::Add | Op::Subtract, ..) => level > Level::Expression,
        Expression::Two(Op::Multiply, ..) => level > Level::Term,
        Expression::Literal(value) => *value >= 0 && level == Level::Minus,
        _ => false,
    }
}

/// The levels of the two sides of an operation.
fn sides(op: Op) -> (Level, Level) {
    match op {
        Op::Add | Op::Subtract => (Level::Expression, Level::Term),
        Op::Multiply => (Level::Term, Level::Factor),
        Op::Lesser | Op::Greater => (Level::Expression, Level::Expression),
    }
}

/// How deep the brackets are that it needs.
fn depth(expression: &Expression, level: Level) -> usize {
    let inner = match expression {
        Expression::Two(op, first, second) => {
            let bracketed = needs_brackets(expression, level);
            let (one, two) = sides(*op);
            let own = usize::from(bracketed || matches!(op, Op::Lesser | Op::Greater));
            return own + depth(first, one).max(depth(second, two));
        }
        Expression::Minus(of) => depth(of, Level::Minus),
        _ => 0,
    };
    inner + usize::from(needs_brackets(expression, level))
}

impl Writer<'_> {
    // ---- claims

    pub fn claim(&mut self, claim: &Claim) {
        self.put("[");
        for (at, item) in claim.iter().enumerate() {
            let empty: Kinds = if at == 0 { &["]"] } else { &[] };
            if at > 0 {
                self.put_among(",", [&["]"], &[]], None);
            }
            match *item {
                Item::GetR(number, amount) => self.get("getR", (Thing::Res, Asked::Resource), number, amount, empty),
                Item::GetB(number, amount) => self.get("getB", (Thing::Bin, Asked::Bin), number, amount, empty),
                Item::GetS(number, amount) => self.get("getS", (Thing::Sync, Asked::Sync), number, amount, empty),
                Item::Condition(number, relation, value) => {
                    self.name(Thing::Var, number, Asked::Variable, [ITEMS, empty]);
                    self.put_among(RELATIONS[relation], [&RELATIONS, &[]], None);
                    self.signed(value);
                }
            }
        }
        let asked = claim.is_empty().then_some(Asked::Variable);
        self.put_among("]", [if claim.is_empty() { ITEMS } else { &[","] }, &[]], asked);
    }

    fn get(&mut self, keyword: &'static str, (thing, asked): (Thing, Asked), number: usize, amount: u32, empty: Kinds) {
        self.put_among(keyword, [ITEMS, empty], Some(Asked::Variable));
        self.put("(");
        self.name(thing, number, asked, [&[]; 2]);
        self.put(",");
        self.number(amount);
        self.put(")");
    }

    // ---- expressions

    pub fn expression(&mut self, expression: &Expression, closer: Kinds) {
        self.part(expression, Level::Expression, Inside { open: 0, closer });
    }

    fn part(&mut self, expression: &Expression, level: Level, inside: Inside) {
        let many = self.brackets(expression, level, inside);
        let Inside { open, closer } = inside;
        for more in 0..many {
            let (at, closer) = if more == 0 { (level, closer) } else { (Level::Expression, CLOSED) };
            self.begin_factor("(", at, Inside { open: open + more, closer });
        }
        if many == 0 {
            self.bare(expression, level, inside);
        } else {
            self.bare(expression, Level::Expression, Inside { open: open + many, closer: CLOSED });
        }
        (0..many).for_each(|_| self.put_among(")", [OPERATORS, &[]], None));
    }

    /// How many brackets stand around it. Needless ones write nothing; they leave room for those that are needed inside.
    fn brackets(&mut self, expression: &Expression, level: Level, inside: Inside) -> usize {
        let needed = usize::from(needs_brackets(expression, level));
        if !self.bracketed && !self.random.one_in(10) {
            return needed;
        }
        let room = MOST_OPEN - inside.open - depth(expression, Level::Expression);
        let wanted = if self.bracketed { self.random.pick(&[0, room / 2, room]) } else { needed + 1 };
        wanted.min(room).max(needed)
    }

    /// Without brackets around it.
    fn bare(&mut self, expression: &Expression, level: Level, inside: Inside) {
        match expression {
            Expression::Literal(value) => self.literal(*value, level, inside),
            Expression::Clock => self.begin_factor("clock", level, inside),
            Expression::Var(number) => self.value(Thing::Var, *number, level, inside),
            Expression::Local(number) => self.value(Thing::Local, *number, level, inside),
            Expression::Sampler(number) => self.value(Thing::Sampler, *number, level, inside),
            Expression::Minus(of) => {
                self.begin_factor("-", level, inside);
                self.part(of, Level::Minus, inside);
            }
            Expression::Two(op @ (Op::Lesser | Op::Greater), first, second) => {
                let within = Inside { open: inside.open + 1, closer: &[","] };
                self.begin_factor(if *op == Op::Lesser { "lesser" } else { "greater" }, level, inside);
                self.put("(");
                self.part(first, Level::Expression, within);
                self.put_among(",", [OPERATORS, &[]], None);
                self.part(second, Level::Expression, Inside { closer: CLOSED, ..within });
                self.put_among(")", [OPERATORS, &[]], None);
            }
            Expression::Two(op, first, second) => {
                let (one, two) = sides(*op);
                self.part(first, one, inside);
                let sign = match op {
                    Op::Add => "+",
                    Op::Subtract => "-",
                    _ => "*",
                };
                self.put_among(sign, [OPERATORS, inside.closer], None);
                self.part(second, two, inside);
            }
        }
    }

    fn literal(&mut self, value: i32, level: Level, inside: Inside) {
        if value < 0 {
            self.begin_factor("-", level, inside);
            self.number_among(value.unsigned_abs(), TOP_MAGNITUDE, [factors(inside), &[]], Some(Asked::Value));
        } else {
            self.number_among(value as u32, TOP_NUMBER, [factors(inside), &[]], Some(Asked::Value));
        }
    }

    fn value(&mut self, thing: Thing, number: usize, level: Level, inside: Inside) {
        self.name(thing, number, Asked::Value, [factors(inside), &[]]);
        self.bound(level);
    }

    /// The first token of a factor, or of what stands behind a minus.
    fn begin_factor(&mut self, kind: &'static str, level: Level, inside: Inside) {
        self.put_among(kind, [factors(inside), &[]], Some(Asked::Value));
        self.bound(level);
    }

    /// Behind a minus, in place of the token just put, a magnitude would fit.
    fn bound(&mut self, level: Level) {
        if level == Level::Minus {
            self.tokens.all.last_mut().expect("the token just put").bound = TOP_MAGNITUDE;
        }
    }
}

fn factors(inside: Inside) -> Kinds {
    if inside.open < MOST_OPEN {
        FACTORS
    } else {
        DEEP_FACTORS
    }
}
