//! The model file: its reader and records, the decoded model, and checks 1 to 10 in document 01's order.

use crate::sampler::Sampler;
use std::slice::from_ref;

pub const SHORT: u16 = 1;
pub const KIND: u16 = 2;
pub const PLACE: u16 = 3;
pub const MANY: u16 = 4;
pub const SIZE: u16 = 5;
pub const VALUE: u16 = 6;
pub const TWICE: u16 = 7;
pub const NAME: u16 = 8;
pub const ORDER: u16 = 9;
pub const DEEP: u16 = 10;

pub(crate) const RES: u16 = 1;
pub(crate) const BIN: u16 = 2;
pub(crate) const SYNC: u16 = 3;
pub(crate) const VAR: u16 = 4;
pub(crate) const CLASS: u16 = 5;
pub(crate) const BLOCK: u16 = 6;
pub(crate) const ENTITY: u16 = 7;
pub(crate) const SAMPLER: u16 = 8;
pub(crate) const HOLD: u16 = 16;
pub(crate) const PRIO: u16 = 17;
pub(crate) const SET: u16 = 18;
pub(crate) const LSET: u16 = 19;
pub(crate) const DO: u16 = 20;
pub(crate) const PUTR: u16 = 21;
pub(crate) const PUTB: u16 = 22;
pub(crate) const PUTS: u16 = 23;
pub(crate) const BECOME: u16 = 24;
pub(crate) const REQ: u16 = 25;
pub(crate) const TRY: u16 = 26;
pub(crate) const WHILE: u16 = 27;
pub(crate) const START: u16 = 28;
pub(crate) const TRACE: u16 = 29;
pub(crate) const CLOSE: u16 = 30;

pub const GET_R: u8 = 0;
pub const GET_B: u8 = 1;
pub const GET_S: u8 = 2;
pub const CONDITION: u8 = 3;

pub const LITERAL: u16 = 0;
pub const GLOBAL: u16 = 1;
pub const LOCAL: u16 = 2;
pub const ADD: u16 = 3;
pub const SUBTRACT: u16 = 4;
pub const MULTIPLY: u16 = 5;
pub const LESSER: u16 = 6;
pub const GREATER: u16 = 7;
pub const CLOCK: u16 = 8;
pub const NEGATE: u16 = 9;
pub const DRAW: u16 = 10;

pub const MOST_BYTES: usize = 65_535;
pub const LOCALS: usize = 8;
const MOST_AMOUNT: u32 = 1_000_000;
const MOST_NODES: usize = 16;
const MOST_ITEMS: usize = 4;
const MOST_NESTED: usize = 8;

/// The answer that refuses a model: the number and the byte place of the record.
#[derive(Clone, Copy, Debug, PartialEq, Eq)]
pub struct Refusal {
    pub number: u16,
    pub place: usize,
}

#[derive(Clone, Copy, Debug, PartialEq, Eq)]
pub struct Node {
    pub op: u16,
    pub operand: i32,
}

/// The nodes in prefix order.
pub type Expression = Vec<Node>;

#[derive(Clone, Copy, Debug, PartialEq, Eq)]
pub struct Item {
    pub kind: u8,
    pub relation: u8,
    pub number: u16,
    pub amount: i32,
}

pub type Claim = Vec<Item>;

#[derive(Clone, Debug, PartialEq, Eq)]
pub enum Action {
    Hold(Expression),
    Prio(Expression),
    Trace(Expression),
    Set {
        variable: u16,
        value: Expression,
    },
    Lset {
        local: u16,
        value: Expression,
    },
    Do {
        rounds: u16,
        block: u16,
    },
    Putr {
        resource: u16,
        amount: u32,
    },
    Putb {
        bin: u16,
        amount: u32,
    },
    Puts {
        sync: u16,
        count: u16,
    },
    Become {
        sync: u16,
    },
    Req {
        claim: Claim,
    },
    /// Branch i is block i with claim i.
    Try {
        blocks: Vec<u16>,
        claims: Vec<Claim>,
    },
    While {
        block: u16,
        claim: Claim,
    },
    Start {
        class: u16,
        offset: u32,
        list: Vec<(u16, u32)>,
    },
    Close,
}

#[derive(Clone, Copy, Debug, PartialEq, Eq)]
pub struct Entity {
    pub class: u16,
    pub offset: u32,
}

/// A model that passes checks 1 to 10; things of one kind stand in file order.
#[derive(Clone, Debug, Default, PartialEq, Eq)]
pub struct Model {
    /// Each resource's total.
    pub resources: Vec<u32>,
    /// Each bin's start amount.
    pub bins: Vec<u32>,
    pub syncs: usize,
    /// Each variable's start value.
    pub variables: Vec<i32>,
    /// Each class's body block.
    pub classes: Vec<u16>,
    pub blocks: Vec<Vec<Action>>,
    pub entities: Vec<Entity>,
    pub samplers: Vec<Sampler>,
}

pub(crate) enum Record {
    Res(u32),
    Bin(u32),
    Sync,
    Var(i32),
    Class(u16),
    Block,
    Entity(Entity),
    Sampler(Sampler),
    Action(Action),
}

/// Stands at a record and moves on to the next.
struct Reader<'a> {
    bytes: &'a [u8],
    place: usize,
}

impl<'a> Reader<'a> {
    /// The kind and body of the record it stands at, or nothing where that record is SHORT.
    fn move_on(&mut self) -> Option<(u16, &'a [u8])> {
        let mut fields = Fields(&self.bytes[self.place..]);
        let length = usize::from(fields.u16()?);
        let mut record = Fields(fields.take(length)?);
        // A length under 2 has no room for the kind.
        let kind = record.u16()?;
        self.place += 2 + length;
        Some((kind, record.0))
    }
}

/// The fields not yet read of a record; nothing is given where the bytes end too early.
struct Fields<'a>(&'a [u8]);

impl<'a> Fields<'a> {
    fn take(&mut self, count: usize) -> Option<&'a [u8]> {
        let (taken, left) = self.0.split_at_checked(count)?;
        self.0 = left;
        Some(taken)
    }

    fn array<const N: usize>(&mut self) -> Option<[u8; N]> {
        self.take(N)?.try_into().ok()
    }

    fn u8(&mut self) -> Option<u8> {
        self.array().map(u8::from_le_bytes)
    }

    fn u16(&mut self) -> Option<u16> {
        self.array().map(u16::from_le_bytes)
    }

    fn u32(&mut self) -> Option<u32> {
        self.array().map(u32::from_le_bytes)
    }

    fn i32(&mut self) -> Option<i32> {
        self.array().map(i32::from_le_bytes)
    }

    /// One whole tree; bytes left over are found by the caller.
    fn expression(&mut self) -> Option<Expression> {
        let mut nodes = Vec::new();
        let mut trees_to_come = 1;
        while trees_to_come > 0 {
            let node = Node {
                op: self.u16()?,
                operand: self.i32()?,
            };
            trees_to_come = trees_to_come - 1 + trees_below(node.op);
            nodes.push(node);
        }
        (nodes.len() <= MOST_NODES).then_some(nodes)
    }

    /// The count is read as written: one outside its set is VALUE, not SIZE.
    fn claim(&mut self) -> Option<Claim> {
        (0..self.u16()?)
            .map(|_| {
                Some(Item {
                    kind: self.u8()?,
                    relation: self.u8()?,
                    number: self.u16()?,
                    amount: self.i32()?,
                })
            })
            .collect()
    }

    fn branches(&mut self) -> Option<Action> {
        let (mut blocks, mut claims) = (Vec::new(), Vec::new());
        for _ in 0..self.u16()? {
            blocks.push(self.u16()?);
            claims.push(self.claim()?);
        }
        Some(Action::Try { blocks, claims })
    }

    fn start_list(&mut self) -> Option<Vec<(u16, u32)>> {
        (0..self.u16()?)
            .map(|_| Some((self.u16()?, self.u32()?)))
            .collect()
    }

    fn action(&mut self, kind: u16) -> Option<Action> {
        Some(match kind {
            HOLD => Action::Hold(self.expression()?),
            PRIO => Action::Prio(self.expression()?),
            TRACE => Action::Trace(self.expression()?),
            SET => Action::Set {
                variable: self.u16()?,
                value: self.expression()?,
            },
            LSET => Action::Lset {
                local: self.u16()?,
                value: self.expression()?,
            },
            DO => Action::Do {
                rounds: self.u16()?,
                block: self.u16()?,
            },
            PUTR => Action::Putr {
                resource: self.u16()?,
                amount: self.u32()?,
            },
            PUTB => Action::Putb {
                bin: self.u16()?,
                amount: self.u32()?,
            },
            PUTS => Action::Puts {
                sync: self.u16()?,
                count: self.u16()?,
            },
            BECOME => Action::Become { sync: self.u16()? },
            REQ => Action::Req {
                claim: self.claim()?,
            },
            TRY => self.branches()?,
            WHILE => Action::While {
                block: self.u16()?,
                claim: self.claim()?,
            },
            START => Action::Start {
                class: self.u16()?,
                offset: self.u32()?,
                list: self.start_list()?,
            },
            CLOSE => Action::Close,
            _ => unreachable!("KIND is checked before SIZE"),
        })
    }

    fn record(&mut self, kind: u16) -> Option<Record> {
        let record = match kind {
            RES => Record::Res(self.u32()?),
            BIN => Record::Bin(self.u32()?),
            SYNC => Record::Sync,
            VAR => Record::Var(self.i32()?),
            CLASS => Record::Class(self.u16()?),
            BLOCK => Record::Block,
            ENTITY => Record::Entity(Entity {
                class: self.u16()?,
                offset: self.u32()?,
            }),
            SAMPLER => Record::Sampler(Sampler {
                lowest: self.i32()?,
                highest: self.i32()?,
                seed: self.u32()?,
            }),
            _ => Record::Action(self.action(kind)?),
        };
        self.0.is_empty().then_some(record)
    }
}

/// An unknown op is a leaf.
fn trees_below(op: u16) -> usize {
    match op {
        ADD | SUBTRACT | MULTIPLY | LESSER | GREATER => 2,
        NEGATE => 1,
        _ => 0,
    }
}

fn is_known(kind: u16) -> bool {
    matches!(kind, RES..=SAMPLER | HOLD..=CLOSE)
}

fn is_action(kind: u16) -> bool {
    kind >= HOLD
}

fn limit(kind: u16) -> usize {
    match kind {
        RES | BIN | SYNC | VAR => 32,
        CLASS | ENTITY => 64,
        BLOCK => 256,
        SAMPLER => 16,
        _ => 1_024,
    }
}

/// How many records of each kind were seen.
struct Counts([usize; HOLD as usize + 1]);

impl Counts {
    /// All actions share one count, as they share one limit.
    fn index(kind: u16) -> usize {
        usize::from(if is_action(kind) { HOLD } else { kind })
    }

    fn of(&self, kind: u16) -> usize {
        self.0[Self::index(kind)]
    }

    fn one_more(&mut self, kind: u16) {
        self.0[Self::index(kind)] += 1;
    }

    fn declares(&self, kind: u16, number: u16) -> bool {
        usize::from(number) < self.of(kind)
    }
}

fn is_amount(amount: u32) -> bool {
    (1..=MOST_AMOUNT).contains(&amount)
}

impl Node {
    fn values_in_set(&self) -> bool {
        match self.op {
            LITERAL | GLOBAL | LOCAL | DRAW => true,
            ADD..=NEGATE => self.operand == 0,
            _ => false,
        }
    }

    /// The operand of a global, local or draw is an i32, so a negative one is a number not declared.
    fn names_declared(&self, declared: &Counts) -> bool {
        let below = |count: usize| usize::try_from(self.operand).is_ok_and(|number| number < count);
        match self.op {
            GLOBAL => below(declared.of(VAR)),
            LOCAL => below(LOCALS),
            DRAW => below(declared.of(SAMPLER)),
            _ => true,
        }
    }
}

impl Item {
    fn values_in_set(&self) -> bool {
        match self.kind {
            GET_R | GET_B | GET_S => {
                self.relation == 0 && u32::try_from(self.amount).is_ok_and(is_amount)
            }
            CONDITION => (1..=6).contains(&self.relation),
            _ => false,
        }
    }

    fn names_declared(&self, declared: &Counts) -> bool {
        let kind = match self.kind {
            GET_R => RES,
            GET_B => BIN,
            GET_S => SYNC,
            _ => VAR,
        };
        declared.declares(kind, self.number)
    }
}

fn any_twice<T: PartialEq>(names: &[T]) -> bool {
    (1..names.len()).any(|i| names[..i].contains(&names[i]))
}

impl Action {
    /// No node where the action has no expression.
    pub fn expression(&self) -> &[Node] {
        match self {
            Action::Hold(value) | Action::Prio(value) | Action::Trace(value) => value,
            Action::Set { value, .. } | Action::Lset { value, .. } => value,
            _ => &[],
        }
    }

    /// A REQ and a WHILE have one branch.
    pub fn claims(&self) -> &[Claim] {
        match self {
            Action::Req { claim } | Action::While { claim, .. } => from_ref(claim),
            Action::Try { claims, .. } => claims,
            _ => &[],
        }
    }

    /// The blocks named by a DO, TRY or WHILE.
    fn blocks(&self) -> &[u16] {
        match self {
            Action::Do { block, .. } | Action::While { block, .. } => from_ref(block),
            Action::Try { blocks, .. } => blocks,
            _ => &[],
        }
    }

    fn values_in_set(&self) -> bool {
        let own = match self {
            Action::Putr { amount, .. } | Action::Putb { amount, .. } => is_amount(*amount),
            Action::Puts { count, .. } => (1..=64).contains(count),
            Action::Try { claims, .. } => (1..=4).contains(&claims.len()),
            Action::Start { offset, list, .. } => {
                *offset <= MOST_AMOUNT
                    && list.len() <= MOST_ITEMS
                    && list.iter().all(|(_, amount)| is_amount(*amount))
            }
            _ => true,
        };
        own && self.expression().iter().all(Node::values_in_set)
            && self
                .claims()
                .iter()
                .all(|claim| claim.len() <= MOST_ITEMS && claim.iter().all(Item::values_in_set))
    }

    /// Conditions name no resource, bin or sync, and may come twice.
    fn names_twice(&self) -> bool {
        let listed: Vec<u16> = match self {
            Action::Start { list, .. } => list.iter().map(|(resource, _)| *resource).collect(),
            _ => Vec::new(),
        };
        any_twice(&listed)
            || self.claims().iter().any(|claim| {
                let claimed: Vec<(u8, u16)> = claim
                    .iter()
                    .filter(|item| item.kind != CONDITION)
                    .map(|item| (item.kind, item.number))
                    .collect();
                any_twice(&claimed)
            })
    }

    fn names_declared(&self, declared: &Counts) -> bool {
        let own = match self {
            Action::Set { variable, .. } => declared.declares(VAR, *variable),
            Action::Lset { local, .. } => usize::from(*local) < LOCALS,
            Action::Putr { resource, .. } => declared.declares(RES, *resource),
            Action::Putb { bin, .. } => declared.declares(BIN, *bin),
            Action::Puts { sync, .. } | Action::Become { sync } => declared.declares(SYNC, *sync),
            Action::Start { class, list, .. } => {
                declared.declares(CLASS, *class)
                    && list
                        .iter()
                        .all(|(resource, _)| declared.declares(RES, *resource))
            }
            _ => true,
        };
        own && self
            .blocks()
            .iter()
            .all(|block| declared.declares(BLOCK, *block))
            && self
                .expression()
                .iter()
                .all(|node| node.names_declared(declared))
            && self
                .claims()
                .iter()
                .flatten()
                .all(|item| item.names_declared(declared))
    }
}

impl Record {
    fn values_in_set(&self) -> bool {
        match self {
            Record::Res(amount) | Record::Bin(amount) => *amount <= MOST_AMOUNT,
            Record::Entity(entity) => entity.offset <= MOST_AMOUNT,
            Record::Sampler(sampler) => sampler.values_in_set(),
            Record::Action(action) => action.values_in_set(),
            Record::Sync | Record::Var(_) | Record::Class(_) | Record::Block => true,
        }
    }

    fn names_twice(&self) -> bool {
        matches!(self, Record::Action(action) if action.names_twice())
    }

    fn names_declared(&self, declared: &Counts) -> bool {
        match self {
            Record::Class(body) => declared.declares(BLOCK, *body),
            Record::Entity(entity) => declared.declares(CLASS, entity.class),
            Record::Action(action) => action.names_declared(declared),
            Record::Res(_)
            | Record::Bin(_)
            | Record::Sync
            | Record::Var(_)
            | Record::Block
            | Record::Sampler(_) => true,
        }
    }
}

/// The model, or the first of checks 1 to 10 that it fails.
pub fn decode(bytes: &[u8]) -> Result<Model, Refusal> {
    check_length(bytes)?;
    let (records, declared) = read(bytes)?;
    check_names(&records, &declared)?;
    check_depths(records)
}

/// What a text's records are put to while it is being read: the length, 4 to 7 and 10. Checks 1 to 3, which `read`
/// makes too, hold for all that a text writes.
pub(crate) fn check_so_far(bytes: &[u8]) -> Result<(), Refusal> {
    check_length(bytes)?;
    let (records, _) = read(bytes)?;
    check_depths(records).map(|_| ())
}

fn check_length(bytes: &[u8]) -> Result<(), Refusal> {
    if bytes.len() > MOST_BYTES {
        return Err(Refusal {
            number: MANY,
            place: 0,
        });
    }
    Ok(())
}

/// Record by record 1 to 7; gives each record with its byte place.
fn read(bytes: &[u8]) -> Result<(Vec<(usize, Record)>, Counts), Refusal> {
    let mut reader = Reader { bytes, place: 0 };
    let mut seen = Counts([0; HOLD as usize + 1]);
    let mut records = Vec::new();
    while reader.place < bytes.len() {
        let place = reader.place;
        let refusal = |number| Refusal { number, place };
        let (kind, body) = reader.move_on().ok_or(refusal(SHORT))?;
        if !is_known(kind) {
            return Err(refusal(KIND));
        }
        // Actions want a BLOCK before them, declarations want none; a BLOCK itself may stand anywhere.
        let after_block = seen.of(BLOCK) > 0;
        if kind != BLOCK && is_action(kind) != after_block {
            return Err(refusal(PLACE));
        }
        if seen.of(kind) == limit(kind) {
            return Err(refusal(MANY));
        }
        let record = Fields(body).record(kind).ok_or(refusal(SIZE))?;
        if !record.values_in_set() {
            return Err(refusal(VALUE));
        }
        if record.names_twice() {
            return Err(refusal(TWICE));
        }
        seen.one_more(kind);
        records.push((place, record));
    }
    Ok((records, seen))
}

/// Record by record 8 and 9.
fn check_names(records: &[(usize, Record)], declared: &Counts) -> Result<(), Refusal> {
    let mut blocks_begun = 0;
    for (place, record) in records {
        let refusal = |number| Refusal {
            number,
            place: *place,
        };
        if !record.names_declared(declared) {
            return Err(refusal(NAME));
        }
        match record {
            Record::Block => blocks_begun += 1,
            // The own block is the last begun, so a greater one is at least the count of those begun.
            Record::Action(action) if action.blocks().iter().any(|block| *block < blocks_begun) => {
                return Err(refusal(ORDER));
            }
            _ => {}
        }
    }
    Ok(())
}

/// Class by class 10; gives the model. A class whose body is still to come (NAME, of a whole file) nests nothing.
fn check_depths(records: Vec<(usize, Record)>) -> Result<Model, Refusal> {
    let class_places: Vec<usize> = records
        .iter()
        .filter(|(_, record)| matches!(record, Record::Class(_)))
        .map(|(place, _)| *place)
        .collect();
    let model = build(records);
    let depths = depths(&model);
    for (body, place) in model.classes.iter().zip(class_places) {
        let depth = depths.get(usize::from(*body));
        if depth.is_some_and(|depth| *depth > MOST_NESTED) {
            return Err(Refusal {
                number: DEEP,
                place,
            });
        }
    }
    Ok(model)
}

fn build(records: Vec<(usize, Record)>) -> Model {
    let mut model = Model::default();
    for (_, record) in records {
        match record {
            Record::Res(total) => model.resources.push(total),
            Record::Bin(amount) => model.bins.push(amount),
            Record::Sync => model.syncs += 1,
            Record::Var(value) => model.variables.push(value),
            Record::Class(body) => model.classes.push(body),
            Record::Block => model.blocks.push(Vec::new()),
            Record::Entity(entity) => model.entities.push(entity),
            Record::Sampler(sampler) => model.samplers.push(sampler),
            Record::Action(action) => {
                model
                    .blocks
                    .last_mut()
                    .expect("PLACE puts a BLOCK before any action")
                    .push(action);
            }
        }
    }
    model
}

/// How many blocks each block nests, itself included. Named blocks are greater (ORDER), so the last goes first.
fn depths(model: &Model) -> Vec<usize> {
    let mut depths = vec![0; model.blocks.len()];
    for (number, actions) in model.blocks.iter().enumerate().rev() {
        let named = actions.iter().flat_map(Action::blocks);
        depths[number] = 1 + named
            .map(|block| depths[usize::from(*block)])
            .max()
            .unwrap_or(0);
    }
    depths
}
