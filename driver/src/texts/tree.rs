//! The tree of a text: what it declares and what its jobs do, each thing by its number, as the records have it.

/// The kinds of things that have names.
#[derive(Clone, Copy, PartialEq, Eq, Debug)]
pub enum Thing {
    Res,
    Bin,
    Sync,
    Var,
    Sampler,
    Class,
    Local,
}

#[derive(Clone, Default)]
pub struct Tree {
    pub declarations: Vec<Declaration>,
}

#[derive(Clone)]
pub enum Declaration {
    Res(u32),
    Bin(u32),
    Sync,
    Var(i32),
    Sampler {
        lowest: i32,
        highest: i32,
        seed: u32,
    },
    /// `class x;`
    Announced,
    /// `class x { .. }`, with the number of x if it was announced; else it is the next class.
    Class {
        announced: Option<usize>,
        locals: usize,
        body: Block,
    },
    Entity {
        class: usize,
        offset: u32,
    },
}

pub type Block = Vec<Action>;

#[derive(Clone)]
pub enum Action {
    Hold(Expression),
    Priority(Expression),
    Trace(Expression),
    /// `x := e` with a var.
    Set(usize, Expression),
    /// `x := e` with a local.
    SetLocal(usize, Expression),
    Do(u16, Block),
    PutR(usize, u32),
    PutB(usize, u32),
    PutS(usize, u16),
    Become(usize),
    Req(Claim),
    Try(Vec<(Claim, Block)>),
    While(Claim, Block),
    Start {
        class: usize,
        offset: u32,
        shares: Vec<(usize, u32)>,
    },
    Close,
}

pub type Claim = Vec<Item>;

#[derive(Clone, Copy)]
pub enum Item {
    GetR(usize, u32),
    GetB(usize, u32),
    GetS(usize, u32),
    /// A var, the place of a relation in `RELATIONS`, and what it is compared with.
    Condition(usize, usize, i32),
}

pub const RELATIONS: [&str; 6] = ["<", "<=", "=", "<>", ">=", ">"];

#[derive(Clone)]
pub enum Expression {
    Literal(i32),
    Clock,
    Var(usize),
    Local(usize),
    Sampler(usize),
    Two(Op, Box<Expression>, Box<Expression>),
    /// Op 9 over what isn't written as a bare number.
    Minus(Box<Expression>),
}

#[derive(Clone, Copy, PartialEq)]
pub enum Op {
    Add,
    Subtract,
    Multiply,
    Lesser,
    Greater,
}

impl Action {
    /// The blocks that its `{` open, in their order.
    pub fn blocks(&self) -> Vec<&Block> {
        match self {
            Action::Do(_, block) | Action::While(_, block) => vec![block],
            Action::Try(branches) => branches.iter().map(|(_, block)| block).collect(),
            _ => Vec::new(),
        }
    }

    pub fn blocks_mut(&mut self) -> Vec<&mut Block> {
        match self {
            Action::Do(_, block) | Action::While(_, block) => vec![block],
            Action::Try(branches) => branches.iter_mut().map(|(_, block)| block).collect(),
            _ => Vec::new(),
        }
    }
}

/// The actions of a block and of all blocks in it.
pub fn actions(block: &Block) -> usize {
    block.iter().map(|action| 1 + action.blocks().into_iter().map(actions).sum::<usize>()).sum()
}

/// A block and all blocks in it.
pub fn blocks(block: &Block) -> usize {
    1 + block.iter().flat_map(Action::blocks).map(blocks).sum::<usize>()
}

/// How many of each kind of thing are declared at a place.
#[derive(Clone, Copy, Default)]
pub struct Scope([usize; 7]);

impl Scope {
    pub fn many(&self, thing: Thing) -> usize {
        self.0[thing as usize]
    }

    pub fn set_locals(&mut self, locals: usize) {
        self.0[Thing::Local as usize] = locals;
    }

    pub fn declare(&mut self, declaration: &Declaration) {
        if let Some(thing) = declaration.declares() {
            self.0[thing as usize] += 1;
        }
    }
}

impl Declaration {
    /// The kind of the thing that has its name from here on; none for an entity and for the body of an announced class.
    pub fn declares(&self) -> Option<Thing> {
        match self {
            Declaration::Res(_) => Some(Thing::Res),
            Declaration::Bin(_) => Some(Thing::Bin),
            Declaration::Sync => Some(Thing::Sync),
            Declaration::Var(_) => Some(Thing::Var),
            Declaration::Sampler { .. } => Some(Thing::Sampler),
            Declaration::Announced | Declaration::Class { announced: None, .. } => Some(Thing::Class),
            Declaration::Class { announced: Some(_), .. } | Declaration::Entity { .. } => None,
        }
    }
}

impl Tree {
    /// What is declared before the declaration `at`; of a class with its body also that class and its locals.
    pub fn scope(&self, at: usize) -> Scope {
        let mut scope = Scope::default();
        self.declarations[..at].iter().for_each(|declaration| scope.declare(declaration));
        if let Some(own @ Declaration::Class { locals, .. }) = self.declarations.get(at) {
            scope.declare(own);
            scope.set_locals(*locals);
        }
        scope
    }

    pub fn bodies(&self) -> impl Iterator<Item = &Block> {
        self.declarations.iter().filter_map(|declaration| match declaration {
            Declaration::Class { body, .. } => Some(body),
            _ => None,
        })
    }
}
