//! Writes a tree as tokens: declarations, blocks and actions. `phrases.rs` has claims and expressions.

use super::names::Names;
use super::tokens::*;
use super::tree::*;
use crate::random::Random;

pub struct Writer<'a> {
    pub random: &'a mut Random,
    pub names: &'a Names,
    pub tokens: Tokens,
    /// The unit that tokens belong to now.
    pub unit: usize,
    /// The declaration whose locals are known.
    declaration: usize,
    /// What would fit besides at the beginning of the next action: `local` or `etry`.
    also: Kinds,
    /// Needless brackets go as deep as they may.
    pub bracketed: bool,
}

pub fn tokens(random: &mut Random, tree: &Tree) -> Tokens {
    let names = Names::new(random, tree);
    let bracketed = random.one_in(8);
    let mut writer =
        Writer { random, names: &names, tokens: Tokens::default(), unit: 0, declaration: 0, also: &[], bracketed };
    for (at, declaration) in tree.declarations.iter().enumerate() {
        writer.declaration = at;
        writer.declaration(declaration);
    }
    writer.put_among(END, [DECLARATIONS, &[]], None);
    writer.tokens
}

impl Writer<'_> {
    // ---- one token

    fn push(&mut self, spelled: &str, kind: &'static str, others: [Kinds; 2], bound: u32, asked: Option<Asked>) {
        let token = Token { spelled: spelled.as_bytes().to_vec(), kind, others, bound, asked, unit: self.unit };
        self.tokens.all.push(token);
    }

    /// A keyword or sign where nothing else fits.
    pub fn put(&mut self, kind: &'static str) {
        self.put_among(kind, [&[]; 2], None);
    }

    pub fn put_among(&mut self, kind: &'static str, others: [Kinds; 2], asked: Option<Asked>) {
        let spelled = if kind == END { "" } else { kind };
        self.push(spelled, kind, others, TOP_NUMBER, asked);
    }

    /// A `;` or `{`.
    fn cut(&mut self, kind: &'static str, others: Kinds) {
        let at = self.tokens.all.len();
        self.tokens.units[self.unit].cuts.push(at);
        if kind == "{" {
            self.tokens.braces.push(at);
        }
        self.put_among(kind, [others, &[]], None);
    }

    pub fn name(&mut self, thing: Thing, number: usize, asked: Asked, others: [Kinds; 2]) {
        let names = self.names;
        let spelled = if thing == Thing::Local { &names.locals(self.declaration)[number] } else { names.of(thing, number) };
        self.push(spelled, NAME, others, TOP_NUMBER, Some(asked));
    }

    /// A number at a place where a name could be asked for.
    pub fn number_among(&mut self, number: u32, bound: u32, others: [Kinds; 2], asked: Option<Asked>) {
        let zeros = if self.random.one_in(6) { self.random.pick(&[1, 1, 2, 9, 40]) } else { 0 };
        let spelled = "0".repeat(zeros) + &number.to_string();
        self.push(&spelled, NUMBER, others, bound, asked);
    }

    pub fn number(&mut self, number: u32) {
        self.number_among(number, TOP_NUMBER, [&[]; 2], None);
    }

    pub fn signed(&mut self, value: i32) {
        if value < 0 {
            self.put_among("-", [&[NUMBER], &[]], None);
            self.number_among(value.unsigned_abs(), TOP_MAGNITUDE, [&[]; 2], None);
        } else {
            self.number_among(value as u32, TOP_NUMBER, [&["-"], &[]], None);
        }
    }

    // ---- declarations

    fn begin(&mut self, block: Option<usize>) {
        self.unit = self.tokens.units.len();
        self.tokens.units.push(Unit { first: self.tokens.all.len(), cuts: Vec::new(), block });
    }

    fn declaration(&mut self, declaration: &Declaration) {
        self.begin(None);
        let keyword = match declaration {
            Declaration::Res(_) => "res",
            Declaration::Bin(_) => "bin",
            Declaration::Sync => "sync",
            Declaration::Var(_) => "var",
            Declaration::Sampler { .. } => "sampler",
            Declaration::Announced | Declaration::Class { .. } => "class",
            Declaration::Entity { .. } => "entity",
        };
        self.put_among(keyword, [DECLARATIONS, &[]], None);
        match declaration {
            Declaration::Announced => {
                self.new_thing(Thing::Class);
                self.cut(";", &["{"]);
            }
            Declaration::Class { announced, locals, body } => self.class(*announced, *locals, body),
            _ => {
                self.put("(");
                self.fields(declaration);
                self.put(")");
                self.cut(";", &[]);
            }
        }
    }

    fn fields(&mut self, declaration: &Declaration) {
        match declaration {
            Declaration::Entity { class, .. } => self.name(Thing::Class, *class, Asked::Class, [&[]; 2]),
            _ => self.new_thing(declaration.declares().expect("all others declare")),
        }
        match declaration {
            Declaration::Res(amount) | Declaration::Bin(amount) | Declaration::Entity { offset: amount, .. } => {
                self.put(",");
                self.number(*amount);
            }
            Declaration::Var(value) => {
                self.put(",");
                self.signed(*value);
            }
            Declaration::Sampler { lowest, highest, seed } => {
                self.put(",");
                self.signed(*lowest);
                self.put(",");
                self.signed(*highest);
                self.put(",");
                self.number(*seed);
            }
            _ => {}
        }
    }

    fn new_thing(&mut self, thing: Thing) {
        let number = self.tokens.declared.iter().filter(|declared| declared.thing == thing).count();
        if thing == Thing::Class {
            self.tokens.classes.push((self.unit, None));
        }
        self.declare(thing, number);
    }

    fn declare(&mut self, thing: Thing, number: usize) {
        self.tokens.declared.push(Declared { thing, from: self.tokens.all.len(), until: usize::MAX });
        self.name(thing, number, Asked::New, [&[]; 2]);
    }

    fn class(&mut self, announced: Option<usize>, locals: usize, body: &Block) {
        let class = announced.unwrap_or(self.tokens.classes.len());
        match announced {
            Some(number) => self.name(Thing::Class, number, Asked::New, [&[]; 2]),
            None => self.new_thing(Thing::Class),
        }
        self.tokens.classes[class].1 = Some(self.tokens.all.len() - 1);
        let number = self.tokens.braces.len();
        self.cut("{", &[";"]);
        let first = self.tokens.declared.len();
        self.also = &["local"];
        if locals > 0 {
            self.locals(locals);
        }
        self.actions(body, number);
        let until = self.tokens.all.len() - 1;
        self.tokens.declared[first..].iter_mut().for_each(|local| local.until = until);
    }

    fn locals(&mut self, locals: usize) {
        self.put_among("local", [ACTIONS, &[]], Some(Asked::Store));
        for number in 0..locals {
            if number > 0 {
                self.put_among(",", [&[";"], &[]], None);
            }
            self.declare(Thing::Local, number);
        }
        // Behind the eighth no comma fits. At the cut of this `;` nothing is new, so it isn't one of the unit's.
        let others: Kinds = if locals < super::grow::MOST_LOCALS { &[","] } else { &[] };
        self.put_among(";", [others, &[]], None);
        self.also = &[];
    }

    // ---- blocks and actions

    /// What stands in the block of that number, and its `}`.
    fn actions(&mut self, block: &Block, number: usize) {
        let outer = self.unit;
        for action in block {
            self.begin(Some(number));
            self.action(action);
        }
        self.unit = outer;
        self.put_among("}", [ACTIONS, self.also], Some(Asked::Store));
        self.also = &[];
    }

    /// `{`, the actions and `}`.
    fn block(&mut self, block: &Block) {
        let number = self.tokens.braces.len();
        self.cut("{", &[]);
        self.actions(block, number);
    }

    /// The first keyword of an action.
    fn first(&mut self, keyword: &'static str) {
        self.put_among(keyword, [ACTIONS, self.also], Some(Asked::Store));
        self.also = &[];
    }

    fn action(&mut self, action: &Action) {
        match action {
            Action::Hold(value) => self.valued("hold", value),
            Action::Priority(value) => self.valued("priority", value),
            Action::Trace(value) => self.valued("trace", value),
            Action::Set(number, value) => self.set(Thing::Var, *number, value),
            Action::SetLocal(number, value) => self.set(Thing::Local, *number, value),
            Action::PutR(number, amount) => self.amount("putR", (Thing::Res, Asked::Resource), *number, *amount),
            Action::PutB(number, amount) => self.amount("putB", (Thing::Bin, Asked::Bin), *number, *amount),
            Action::PutS(number, count) => self.puts(*number, *count),
            Action::Become(number) => self.becomes(*number),
            Action::Start { class, offset, shares } => self.start(*class, *offset, shares),
            Action::Close => self.first("close"),
            Action::Req(claim) => {
                self.first("req");
                self.claim(claim);
            }
            Action::Do(..) | Action::While(..) | Action::Try(_) => return self.opening(action),
        }
        // Where an expression ends without a bracket it could go on.
        let sets = matches!(action, Action::Set(..) | Action::SetLocal(..));
        self.cut(";", if sets { OPERATORS } else { &[] });
    }

    fn opening(&mut self, action: &Action) {
        match action {
            Action::Do(rounds, block) => {
                self.first("do");
                self.number_among(u32::from(*rounds), TOP_COUNT, [&[]; 2], None);
                self.block(block);
            }
            Action::While(claim, block) => {
                self.first("while");
                self.claim(claim);
                self.block(block);
            }
            Action::Try(branches) => {
                for (at, (claim, block)) in branches.iter().enumerate() {
                    self.first(if at == 0 { "try" } else { "etry" });
                    self.claim(claim);
                    self.put("then");
                    self.block(block);
                    self.also = &["etry"];
                }
            }
            _ => unreachable!("no other action opens a block"),
        }
    }

    fn valued(&mut self, keyword: &'static str, value: &Expression) {
        self.first(keyword);
        self.put("(");
        self.expression(value, &[")"]);
        self.put_among(")", [OPERATORS, &[]], None);
    }

    fn set(&mut self, thing: Thing, number: usize, value: &Expression) {
        self.name(thing, number, Asked::Store, [ACTIONS, self.also]);
        self.also = &[];
        self.put(":=");
        self.expression(value, &[";"]);
    }

    fn amount(&mut self, keyword: &'static str, (thing, asked): (Thing, Asked), number: usize, amount: u32) {
        self.first(keyword);
        self.put("(");
        self.name(thing, number, asked, [&[]; 2]);
        self.put(",");
        self.number(amount);
        self.put(")");
    }

    fn puts(&mut self, number: usize, count: u16) {
        self.first("putS");
        self.put("(");
        self.name(Thing::Sync, number, Asked::Sync, [&[]; 2]);
        self.put(",");
        self.number_among(u32::from(count), TOP_COUNT, [&[]; 2], None);
        self.put(")");
    }

    fn becomes(&mut self, number: usize) {
        self.first("become");
        self.put("(");
        self.name(Thing::Sync, number, Asked::Sync, [&[]; 2]);
        self.put(")");
    }

    fn start(&mut self, class: usize, offset: u32, shares: &[(usize, u32)]) {
        self.first("start");
        self.put("(");
        self.name(Thing::Class, class, Asked::Class, [&[]; 2]);
        self.put(",");
        self.number(offset);
        for (at, (number, amount)) in shares.iter().enumerate() {
            self.put_among(",", [if at == 0 { &[")"] } else { &["]"] }, &[]], None);
            if at == 0 {
                self.put("[");
            }
            self.put("(");
            self.name(Thing::Res, *number, Asked::Resource, [&[]; 2]);
            self.put(",");
            self.number(*amount);
            self.put(")");
        }
        if !shares.is_empty() {
            self.put_among("]", [&[","], &[]], None);
        }
        self.put_among(")", [if shares.is_empty() { &[","] } else { &[] }, &[]], None);
    }
}
