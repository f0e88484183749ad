//! The tokens of a text, each with what else the grammar would take at its place, and what belongs to which line.

use super::tree::Thing;

/// A keyword or a sign is its own kind; the others are these.
pub const NAME: &str = "name";
pub const NUMBER: &str = "number";
pub const END: &str = "end";

pub type Kinds = &'static [&'static str];

pub const DECLARATIONS: Kinds = &["res", "bin", "sync", "var", "sampler", "class", "entity", END];
pub const ACTIONS: Kinds = &[
    "hold", "priority", NAME, "do", "putR", "putB", "putS", "become", "req", "try", "while", "start", "trace", "close", "}",
];
pub const ITEMS: Kinds = &["getR", "getB", "getS", NAME];
pub const SIGNS: Kinds = &["(", ")", "[", "]", "{", "}", ",", ";", ":=", "+", "-", "*", "<", "<=", "=", "<>", ">=", ">"];
pub const OPERATORS: Kinds = &["*", "+", "-"];
pub const FACTORS: Kinds = &[NUMBER, NAME, "clock", "-", "(", "lesser", "greater"];
/// Where 16 brackets are open.
pub const DEEP_FACTORS: Kinds = &[NUMBER, NAME, "clock", "-"];
pub const BRACKETS: Kinds = &["(", "lesser", "greater"];

/// The bounds of the grammar.
pub const TOP_NUMBER: u32 = 2_147_483_647;
pub const TOP_COUNT: u32 = 65_535;
pub const TOP_MAGNITUDE: u32 = 2_147_483_648;

/// What a name is asked for.
#[derive(Clone, Copy, PartialEq, Eq, Debug)]
pub enum Asked {
    New,
    Class,
    Store,
    Resource,
    Bin,
    Sync,
    Variable,
    Value,
}

impl Asked {
    pub fn fits(self, thing: Thing) -> bool {
        match self {
            Asked::New => false,
            Asked::Class => thing == Thing::Class,
            Asked::Resource => thing == Thing::Res,
            Asked::Bin => thing == Thing::Bin,
            Asked::Sync => thing == Thing::Sync,
            Asked::Variable => thing == Thing::Var,
            Asked::Store => matches!(thing, Thing::Var | Thing::Local),
            Asked::Value => matches!(thing, Thing::Var | Thing::Local | Thing::Sampler),
        }
    }
}

#[derive(Clone, Debug)]
pub struct Token {
    pub spelled: Vec<u8>,
    pub kind: &'static str,
    /// What would fit here besides its own kind.
    pub others: [Kinds; 2],
    /// The highest number that fits here, if one does.
    pub bound: u32,
    /// What a name is asked for here, if one fits.
    pub asked: Option<Asked>,
    /// The declaration or action that it belongs to.
    pub unit: usize,
}

impl Token {
    pub fn fits(&self, kind: &str) -> bool {
        kind == self.kind || self.others.iter().any(|kinds| kinds.contains(&kind))
    }
}

/// A declaration or an action.
pub struct Unit {
    /// Its first token.
    pub first: usize,
    /// Its `;`, or each of its `{`.
    pub cuts: Vec<usize>,
    /// The number of the block that an action stands in.
    pub block: Option<usize>,
}

pub struct Declared {
    pub thing: Thing,
    /// The token that declares it, and the last at which it is known.
    pub from: usize,
    pub until: usize,
}

/// The last token is the end.
#[derive(Default)]
pub struct Tokens {
    pub all: Vec<Token>,
    /// In the order of their first tokens.
    pub units: Vec<Unit>,
    pub declared: Vec<Declared>,
    /// By its number the token `{` that opens a block.
    pub braces: Vec<usize>,
    /// By its number the unit that declares a class first, and the token that brings its body, if one does.
    pub classes: Vec<(usize, Option<usize>)>,
}

impl Tokens {
    /// The things whose names are known at a token.
    pub fn known(&self, at: usize) -> impl Iterator<Item = &Declared> {
        self.declared.iter().filter(move |declared| declared.from < at && at <= declared.until)
    }

    pub fn name(&self, declared: &Declared) -> &[u8] {
        &self.all[declared.from].spelled
    }

    /// The units that begin with a keyword.
    pub fn units_of(&self, keyword: &'static str) -> impl Iterator<Item = &Unit> {
        self.units.iter().filter(move |unit| self.all[unit.first].kind == keyword)
    }
}
