//! The run: the state, the fresh state, one step, and a call with a step limit and a journal.

use crate::journal::{self, Line, LINE_BYTES};
use crate::model::{self, Action, Claim, Item, Model, Node, LOCALS};

pub const SUM: u16 = 21;
pub const BACK: u16 = 22;
pub const LATE: u16 = 23;
pub const HELD: u16 = 24;
pub const OWNED: u16 = 25;
pub const OWING: u16 = 26;
pub const FULL: u16 = 27;
pub const BIN: u16 = 28;
pub const NOTICES: u16 = 29;
pub const JOURNAL: u16 = 30;

pub const PLACES: usize = 64;

/// No step writes more: a return notice writes its own line, and its walk may grant every living process.
pub const MOST_LINES: usize = 1 + PLACES;

const MOST_TIME: u32 = 2_000_000_000;
const MOST_NUMBER: u32 = 2_147_483_647;
const MOST_IN_BIN: u32 = 1_000_000_000;
const MOST_NOTICES: usize = 64;
const LEAST_PRIORITY: i32 = -10_000;
const NOTICE_PRIORITY: i32 = -15_000;

/// The number of a fault.
pub type Fault = u16;

#[derive(Clone, Copy, Debug, PartialEq, Eq)]
pub enum Answer {
    Closed,
    Idle,
    Fault(Fault),
    Limit,
}

/// What one call gives: the answer, the steps done in this call, and the journal's bytes.
#[derive(Clone, Debug, PartialEq, Eq)]
pub struct Outcome {
    pub answer: Answer,
    pub steps: u32,
    pub journal: Vec<u8>,
}

/// A block a process is in. While the process is in a DO's, TRY's or WHILE's block, the block around it stands
/// at that action.
#[derive(Clone, Copy, Debug, PartialEq, Eq)]
pub struct Standing {
    pub block: u16,
    pub place: usize,
    pub rounds_left: u16,
}

#[derive(Clone, Debug, PartialEq, Eq)]
pub struct Process {
    pub number: u32,
    pub priority: i32,
    pub locals: [i32; LOCALS],
    /// By resource.
    pub held: Vec<u32>,
    /// The slaves owned, as sync and place, in the order claimed.
    pub slaves: Vec<(u16, usize)>,
    /// From the class body to the innermost block.
    pub blocks: Vec<Standing>,
}

#[derive(Clone, Copy, Debug, PartialEq, Eq)]
pub enum Returned {
    Resource,
    Bin,
}

#[derive(Clone, Copy, Debug, PartialEq, Eq)]
pub enum Entered {
    /// The process at this place.
    Process(usize),
    /// A return notice; the giver is a process number, as the giver may have ended.
    Notice {
        giver: u32,
        returned: Returned,
        number: u16,
        amount: u32,
    },
}

#[derive(Clone, Copy, Debug, PartialEq, Eq)]
pub struct Event {
    pub time: u32,
    pub priority: i32,
    pub entered: Entered,
}

/// Processes are known by their place of the 64.
#[derive(Clone, Debug, PartialEq, Eq)]
pub struct State {
    pub clock: u32,
    pub closed: bool,
    pub last_given: u32,
    pub places: Vec<Option<Process>>,
    pub floor: Option<usize>,
    pub event_list: Vec<Event>,
    pub blocked_list: Vec<usize>,
    /// By sync.
    pub waiting_lists: Vec<Vec<usize>>,
    /// By resource.
    pub free: Vec<u32>,
    pub bins: Vec<u32>,
    pub variables: Vec<i32>,
    /// By sampler.
    pub seeds: Vec<u32>,
}

/// What the test of a claim answers. Items are counted from 0, as branches are.
#[derive(Debug, Clone, Copy, PartialEq, Eq)]
pub enum Tested {
    Met,
    /// The first item that is lacking.
    Lacking(usize),
}

/// How a branch of a blocked process B covers a branch of Q. Conditions are dropped.
#[derive(Debug, Clone, Copy, PartialEq, Eq)]
pub enum Covered {
    No,
    /// Q's names a non-empty, strict part of what B's names, with any amounts.
    StrictPart,
    /// Both name the same things, no amount of Q's is larger and at least one is smaller.
    SmallerAmounts,
}

/// Why no branch is taken.
enum Why {
    Barred,
    /// No branch can be met; this is the first lacking item of the first one.
    Lacking(usize),
}

impl Why {
    /// The value of a blocked line, where items are counted from 1.
    fn value(&self) -> i32 {
        match self {
            Why::Barred => -1,
            Why::Lacking(item) => *item as i32 + 1,
        }
    }
}

impl State {
    pub fn fresh(model: &Model) -> State {
        let mut state = State {
            clock: 0,
            closed: false,
            last_given: 0,
            places: vec![None; PLACES],
            floor: None,
            event_list: Vec::new(),
            blocked_list: Vec::new(),
            waiting_lists: vec![Vec::new(); model.syncs],
            free: model.resources.clone(),
            bins: model.bins.clone(),
            variables: model.variables.clone(),
            seeds: model.samplers.iter().map(|sampler| sampler.seed).collect(),
        };
        for entity in &model.entities {
            state.create(model, entity.class, entity.offset);
        }
        state
    }

    /// One step of a run that is neither closed nor idle: the state after it with its journal lines, or the
    /// fault. The state before it is left as it is.
    pub fn step(&self, model: &Model) -> Result<(State, Vec<Line>), Fault> {
        let mut after = self.clone();
        let lines = after.advance(model)?;
        Ok((after, lines))
    }

    /// One call. Where it faults, the state is the one before the step that faulted.
    pub fn run(&mut self, model: &Model, limit: u32, journal_bytes_len: usize) -> Outcome {
        let start = self.clone();
        let mut steps = 0;
        let mut journal = Vec::new();
        let answer = loop {
            if self.closed {
                break Answer::Closed;
            }
            if self.floor.is_none() && self.event_list.is_empty() {
                break Answer::Idle;
            }
            if steps == limit {
                break Answer::Limit;
            }
            match self.advance(model) {
                Ok(lines) if journal.len() + LINE_BYTES * lines.len() <= journal_bytes_len => {
                    journal.extend(lines.iter().flat_map(Line::bytes));
                    steps += 1;
                }
                Ok(_) => break Answer::Fault(JOURNAL),
                Err(fault) => break Answer::Fault(fault),
            }
        };
        if let Answer::Fault(_) = answer {
            // A copy before every step would make long calls slow; a call faults at most once, so the good
            // steps are made again from the call's start instead.
            *self = start;
            for _ in 0..steps {
                self.advance(model)
                    .expect("the same steps from the same state");
            }
        }
        Outcome {
            answer,
            steps,
            journal,
        }
    }

    /// One step made in place. After a fault the state is of no use: the callers put an earlier one back.
    /// Where several faults apply the lowest number is found first; JOURNAL, the highest, is the caller's.
    fn advance(&mut self, model: &Model) -> Result<Vec<Line>, Fault> {
        let place = match self.floor {
            Some(place) => place,
            None => {
                let first = self.event_list.remove(0);
                self.clock = first.time;
                match first.entered {
                    Entered::Process(place) => {
                        self.floor = Some(place);
                        place
                    }
                    Entered::Notice {
                        giver,
                        returned,
                        number,
                        amount,
                    } => {
                        return self.give_back(model, giver, returned, number, amount);
                    }
                }
            }
        };
        match self.action(model, place) {
            Some(action) => self.act(model, place, action),
            None => self.block_exhausted(model, place),
        }
    }

    fn act(&mut self, model: &Model, place: usize, action: &Action) -> Result<Vec<Line>, Fault> {
        let number = self.process(place).number;
        let priority = self.process(place).priority;
        match action {
            Action::Hold(expression) => {
                let e = self.value(model, place, expression)?;
                let e = u32::try_from(e).map_err(|_| BACK)?;
                let time = self.time_after(e)?;
                self.pass_on(place);
                self.floor = None;
                self.enter(time, priority, Entered::Process(place));
                Ok(Vec::new())
            }
            Action::Prio(expression) => {
                let e = self.value(model, place, expression)?;
                self.process_mut(place).priority = e.max(LEAST_PRIORITY);
                self.pass_on(place);
                Ok(Vec::new())
            }
            Action::Trace(expression) => {
                let e = self.value(model, place, expression)?;
                self.pass_on(place);
                Ok(vec![self.line(journal::TRACE, number, e)])
            }
            Action::Set { variable, value } => {
                let e = self.value(model, place, value)?;
                self.variables[usize::from(*variable)] = e;
                self.pass_on(place);
                Ok(self.walk(model))
            }
            Action::Lset { local, value } => {
                let e = self.value(model, place, value)?;
                self.process_mut(place).locals[usize::from(*local)] = e;
                self.pass_on(place);
                Ok(Vec::new())
            }
            Action::Do { rounds: 0, .. } => {
                self.pass_on(place);
                Ok(Vec::new())
            }
            Action::Do { rounds, block } => {
                self.enter_block(place, *block, *rounds);
                Ok(Vec::new())
            }
            Action::Putr { resource, amount } => {
                let held = &mut self.process_mut(place).held[usize::from(*resource)];
                *held = held.checked_sub(*amount).ok_or(HELD)?;
                self.enter_notice(number, Returned::Resource, *resource, *amount)?;
                self.pass_on(place);
                Ok(Vec::new())
            }
            Action::Putb { bin, amount } => {
                self.enter_notice(number, Returned::Bin, *bin, *amount)?;
                self.pass_on(place);
                Ok(Vec::new())
            }
            Action::Puts { sync, count } => self.free_slaves(place, *sync, usize::from(*count)),
            Action::Become { sync } => {
                self.pass_on(place);
                self.floor = None;
                let at = self.behind_equals(&self.waiting_lists[usize::from(*sync)], priority);
                self.waiting_lists[usize::from(*sync)].insert(at, place);
                let mut lines = vec![self.line(journal::WAITING, number, i32::from(*sync))];
                lines.extend(self.walk(model));
                Ok(lines)
            }
            Action::Start {
                class,
                offset,
                list,
            } => self.start(model, place, *class, *offset, list),
            Action::Req { .. } | Action::Try { .. } => Ok(vec![self.request(model, place, action)]),
            Action::While { .. } => Ok(self.meet_while(model, place, action)),
            Action::Close => {
                self.pass_on(place);
                self.closed = true;
                Ok(vec![self.line(journal::CLOSED, number, 0)])
            }
        }
    }

    /// The step of a REQ or TRY.
    fn request(&mut self, model: &Model, place: usize, action: &Action) -> Line {
        let ahead = self.ahead_on_the_floor(place);
        match self.branch_or_why(model, action.claims(), &self.blocked_list[..ahead]) {
            Ok(branch) => self.take(place, action, branch),
            Err(why) => {
                self.blocked_list.insert(ahead, place);
                self.floor = None;
                self.line(journal::BLOCKED, self.process(place).number, why.value())
            }
        }
    }

    /// The step of a WHILE.
    fn meet_while(&mut self, model: &Model, place: usize, action: &Action) -> Vec<Line> {
        let ahead = self.ahead_on_the_floor(place);
        match self.branch_to_take(model, action.claims(), &self.blocked_list[..ahead]) {
            Some(branch) => vec![self.take(place, action, branch)],
            None => {
                self.pass_on(place);
                Vec::new()
            }
        }
    }

    /// How many of the blocked list may bar the process on the floor: those of equal or higher priority are the ones it
    /// would join behind.
    fn ahead_on_the_floor(&self, place: usize) -> usize {
        self.behind_equals(&self.blocked_list, self.process(place).priority)
    }

    fn block_exhausted(&mut self, model: &Model, place: usize) -> Result<Vec<Line>, Fault> {
        let innermost = self.innermost(place);
        innermost.rounds_left -= 1;
        if innermost.rounds_left > 0 {
            innermost.place = 0;
            return Ok(Vec::new());
        }
        self.process_mut(place).blocks.pop();
        if self.process(place).blocks.is_empty() {
            return self.end(place);
        }
        // A WHILE is met again; a DO and a TRY are done with.
        if !matches!(self.action(model, place), Some(Action::While { .. })) {
            self.pass_on(place);
        }
        Ok(Vec::new())
    }

    fn end(&mut self, place: usize) -> Result<Vec<Line>, Fault> {
        let process = self.process(place);
        if process.held.iter().any(|amount| *amount > 0) || !process.slaves.is_empty() {
            return Err(OWING);
        }
        let line = self.line(journal::ENDED, process.number, 0);
        self.places[place] = None;
        self.floor = None;
        Ok(vec![line])
    }

    fn start(
        &mut self,
        model: &Model,
        place: usize,
        class: u16,
        offset: u32,
        list: &[(u16, u32)],
    ) -> Result<Vec<Line>, Fault> {
        let time = self.time_after(offset)?;
        for (resource, amount) in list {
            let held = &mut self.process_mut(place).held[usize::from(*resource)];
            *held = held.checked_sub(*amount).ok_or(HELD)?;
        }
        if self.places.iter().all(Option::is_some) || self.last_given == MOST_NUMBER {
            return Err(FULL);
        }
        self.pass_on(place);
        let new = self.create(model, class, time);
        for (resource, amount) in list {
            self.process_mut(new).held[usize::from(*resource)] += amount;
        }
        Ok(vec![self.line(
            journal::STARTED,
            self.process(new).number,
            i32::from(class),
        )])
    }

    fn free_slaves(&mut self, place: usize, sync: u16, count: usize) -> Result<Vec<Line>, Fault> {
        let owned = self
            .process(place)
            .slaves
            .iter()
            .filter(|(of, _)| *of == sync)
            .count();
        if count > owned {
            return Err(OWNED);
        }
        let mut lines = Vec::new();
        for _ in 0..count {
            let slaves = &mut self.process_mut(place).slaves;
            let first = slaves
                .iter()
                .position(|(of, _)| *of == sync)
                .expect("enough are owned");
            let (_, slave) = slaves.remove(first);
            self.enter(
                self.clock,
                self.process(slave).priority,
                Entered::Process(slave),
            );
            lines.push(self.line(journal::FREED, self.process(slave).number, i32::from(sync)));
        }
        self.pass_on(place);
        Ok(lines)
    }

    /// The step of a return notice.
    fn give_back(
        &mut self,
        model: &Model,
        giver: u32,
        returned: Returned,
        number: u16,
        amount: u32,
    ) -> Result<Vec<Line>, Fault> {
        let kind = match returned {
            Returned::Resource => {
                self.free[usize::from(number)] += amount;
                journal::RESOURCE_RETURNED
            }
            Returned::Bin => {
                let bin = &mut self.bins[usize::from(number)];
                *bin += amount;
                if *bin > MOST_IN_BIN {
                    return Err(BIN);
                }
                journal::BIN_RETURNED
            }
        };
        let mut lines = vec![self.line(kind, giver, i32::from(number))];
        lines.extend(self.walk(model));
        Ok(lines)
    }

    /// Goes once down the blocked list. As it goes, `self.blocked_list` holds those still blocked ahead.
    fn walk(&mut self, model: &Model) -> Vec<Line> {
        let mut lines = Vec::new();
        for place in std::mem::take(&mut self.blocked_list) {
            let action = self
                .action(model, place)
                .expect("a blocked process stands at a REQ or TRY");
            match self.branch_to_take(model, action.claims(), &self.blocked_list) {
                Some(branch) => {
                    lines.push(self.take(place, action, branch));
                    self.enter(
                        self.clock,
                        self.process(place).priority,
                        Entered::Process(place),
                    );
                }
                None => self.blocked_list.push(place),
            }
        }
        lines
    }

    /// The branch that a REQ or TRY takes, or why it takes none. Barred is said even where something is lacking too, so
    /// barring is looked at whatever the test of the claims would answer.
    fn branch_or_why(
        &self,
        model: &Model,
        claims: &[Claim],
        ahead: &[usize],
    ) -> Result<usize, Why> {
        if self.is_barred(model, claims, ahead) {
            return Err(Why::Barred);
        }
        self.first_met(claims).map_err(Why::Lacking)
    }

    /// The branch that a WHILE or one in a walk takes; nobody is told why it takes none. So barring is looked at last, as
    /// it costs more and most who are blocked can't be met.
    fn branch_to_take(&self, model: &Model, claims: &[Claim], ahead: &[usize]) -> Option<usize> {
        let branch = self.first_met(claims).ok()?;
        (!self.is_barred(model, claims, ahead)).then_some(branch)
    }

    /// The first branch that can be met, or the first lacking item of the first branch.
    fn first_met(&self, claims: &[Claim]) -> Result<usize, usize> {
        let lacking = match self.test(&claims[0]) {
            Tested::Met => return Ok(0),
            Tested::Lacking(item) => item,
        };
        (1..claims.len())
            .find(|branch| matches!(self.test(&claims[*branch]), Tested::Met))
            .ok_or(lacking)
    }

    /// Whether one of the blocked processes `ahead` bars every branch.
    fn is_barred(&self, model: &Model, claims: &[Claim], ahead: &[usize]) -> bool {
        ahead.iter().any(|blocked| {
            let action = self
                .action(model, *blocked)
                .expect("a blocked process stands at a REQ or TRY");
            bars(action.claims(), claims)
        })
    }

    pub fn test(&self, claim: &Claim) -> Tested {
        match claim.iter().position(|item| !self.is_met(item)) {
            None => Tested::Met,
            Some(item) => Tested::Lacking(item),
        }
    }

    fn is_met(&self, item: &Item) -> bool {
        let number = usize::from(item.number);
        let wanted = i64::from(item.amount);
        match item.kind {
            model::GET_R => i64::from(self.free[number]) >= wanted,
            model::GET_B => i64::from(self.bins[number]) >= wanted,
            model::GET_S => self.waiting_lists[number].len() as i64 >= wanted,
            _ => {
                let variable = self.variables[number];
                match item.relation {
                    1 => variable < item.amount,
                    2 => variable <= item.amount,
                    3 => variable == item.amount,
                    4 => variable != item.amount,
                    5 => variable >= item.amount,
                    6 => variable > item.amount,
                    _ => unreachable!("VALUE leaves the relations 1 to 6"),
                }
            }
        }
    }

    /// Takes a met branch: what its claim names goes to the process, which passes on or enters the block.
    fn take(&mut self, place: usize, action: &Action, branch: usize) -> Line {
        for item in &action.claims()[branch] {
            let number = usize::from(item.number);
            let amount = item.amount;
            match item.kind {
                model::GET_R => {
                    self.free[number] -= amount as u32;
                    self.process_mut(place).held[number] += amount as u32;
                }
                model::GET_B => self.bins[number] -= amount as u32,
                model::GET_S => {
                    let first: Vec<usize> = self.waiting_lists[number]
                        .drain(..amount as usize)
                        .collect();
                    let slaves = first.into_iter().map(|slave| (item.number, slave));
                    self.process_mut(place).slaves.extend(slaves);
                }
                _ => {}
            }
        }
        match action {
            Action::Try { blocks, .. } => self.enter_block(place, blocks[branch], 1),
            Action::While { block, .. } => self.enter_block(place, *block, 1),
            _ => self.pass_on(place),
        }
        self.line(journal::GRANTED, self.process(place).number, branch as i32)
    }

    /// A new process at the lowest-numbered free place, entered at `time`; there is one free.
    fn create(&mut self, model: &Model, class: u16, time: u32) -> usize {
        let place = self
            .places
            .iter()
            .position(Option::is_none)
            .expect("the caller leaves a place free");
        self.last_given += 1;
        let body = Standing {
            block: model.classes[usize::from(class)],
            place: 0,
            rounds_left: 1,
        };
        self.places[place] = Some(Process {
            number: self.last_given,
            priority: 0,
            locals: [0; LOCALS],
            held: vec![0; model.resources.len()],
            slaves: Vec::new(),
            blocks: vec![body],
        });
        self.enter(time, 0, Entered::Process(place));
        place
    }

    /// Enters the event list: earlier times first, then higher priorities, behind equals.
    fn enter(&mut self, time: u32, priority: i32, entered: Entered) {
        let at = self.event_list.partition_point(|event| {
            event.time < time || (event.time == time && event.priority >= priority)
        });
        self.event_list.insert(
            at,
            Event {
                time,
                priority,
                entered,
            },
        );
    }

    fn enter_notice(
        &mut self,
        giver: u32,
        returned: Returned,
        number: u16,
        amount: u32,
    ) -> Result<(), Fault> {
        let is_notice = |event: &&Event| matches!(event.entered, Entered::Notice { .. });
        if self.event_list.iter().filter(is_notice).count() == MOST_NOTICES {
            return Err(NOTICES);
        }
        self.enter(
            self.clock,
            NOTICE_PRIORITY,
            Entered::Notice {
                giver,
                returned,
                number,
                amount,
            },
        );
        Ok(())
    }

    /// How many of a list ordered by priority stand ahead of one who joins it behind equals.
    fn behind_equals(&self, list: &[usize], priority: i32) -> usize {
        list.partition_point(|place| self.process(*place).priority >= priority)
    }

    /// Clock plus offset.
    fn time_after(&self, offset: u32) -> Result<u32, Fault> {
        self.clock
            .checked_add(offset)
            .filter(|time| *time <= MOST_TIME)
            .ok_or(LATE)
    }

    fn value(&mut self, model: &Model, place: usize, expression: &[Node]) -> Result<i32, Fault> {
        self.node_value(model, place, &mut expression.iter())
    }

    /// The value of the tree that begins at the next node; both sides are always evaluated. The nodes are met in their
    /// order, and so are the draws among them.
    fn node_value<'a>(
        &mut self,
        model: &Model,
        place: usize,
        nodes: &mut impl Iterator<Item = &'a Node>,
    ) -> Result<i32, Fault> {
        let node = nodes.next().expect("SIZE leaves whole trees");
        let operand = node.operand;
        let mut below = || self.node_value(model, place, nodes).map(i64::from);
        let value = match node.op {
            model::LITERAL => i64::from(operand),
            model::GLOBAL => i64::from(self.variables[operand as usize]),
            model::LOCAL => i64::from(self.process(place).locals[operand as usize]),
            model::ADD => below()? + below()?,
            model::SUBTRACT => below()? - below()?,
            model::MULTIPLY => below()? * below()?,
            model::LESSER => below()?.min(below()?),
            model::GREATER => below()?.max(below()?),
            model::CLOCK => i64::from(self.clock),
            model::NEGATE => -below()?,
            model::DRAW => {
                let number = operand as usize;
                model.samplers[number].draw(&mut self.seeds[number])
            }
            _ => unreachable!("VALUE leaves the ops 0 to 10"),
        };
        i32::try_from(value).map_err(|_| SUM)
    }

    /// The action a process stands at, or nothing where its innermost block is exhausted.
    fn action<'a>(&self, model: &'a Model, place: usize) -> Option<&'a Action> {
        let innermost = self
            .process(place)
            .blocks
            .last()
            .expect("a living process is in a block");
        model.blocks[usize::from(innermost.block)].get(innermost.place)
    }

    fn pass_on(&mut self, place: usize) {
        self.innermost(place).place += 1;
    }

    fn enter_block(&mut self, place: usize, block: u16, rounds: u16) {
        self.process_mut(place).blocks.push(Standing {
            block,
            place: 0,
            rounds_left: rounds,
        });
    }

    fn innermost(&mut self, place: usize) -> &mut Standing {
        self.process_mut(place)
            .blocks
            .last_mut()
            .expect("a living process is in a block")
    }

    fn process(&self, place: usize) -> &Process {
        self.places[place]
            .as_ref()
            .expect("a listed place is a living process")
    }

    fn process_mut(&mut self, place: usize) -> &mut Process {
        self.places[place]
            .as_mut()
            .expect("a listed place is a living process")
    }

    fn line(&self, kind: u16, process: u32, value: i32) -> Line {
        Line {
            kind,
            time: self.clock,
            process,
            value,
        }
    }
}

/// Whether a blocked process B with the branches `b` bars a process Q with the branches `q`.
fn bars(b: &[Claim], q: &[Claim]) -> bool {
    let is_covered = |branch| b.iter().any(|other| covers(other, branch) != Covered::No);
    q.iter().all(is_covered)
}

/// How the branch `b` of a blocked process covers the branch `q`; both are of a model that passes the checks.
pub fn covers(b: &Claim, q: &Claim) -> Covered {
    // Those of one class often stand at one claim, and equal claims don't bar one another.
    if std::ptr::eq(b, q) {
        return Covered::No;
    }
    let part = names(q);
    if part == 0 {
        return Covered::No;
    }
    let whole = names(b);
    if part & !whole != 0 {
        Covered::No
    } else if part != whole {
        Covered::StrictPart
    } else if has_smaller_amounts(b, q) {
        Covered::SmallerAmounts
    } else {
        Covered::No
    }
}

/// Of branches that name the same things: whether no amount of `q` is larger and at least one is smaller. Things are
/// looked up by name, as their items may be written in another order.
fn has_smaller_amounts(b: &Claim, q: &Claim) -> bool {
    let mut one_is_smaller = false;
    for item in q.iter().filter(|item| item.kind != model::CONDITION) {
        let other = b
            .iter()
            .find(|other| (other.kind, other.number) == (item.kind, item.number))
            .expect("both name the same things");
        if item.amount > other.amount {
            return false;
        }
        one_is_smaller |= item.amount < other.amount;
    }
    one_is_smaller
}

/// What a claim names, conditions dropped, as one bit for each kind with its number.
fn names(claim: &Claim) -> u128 {
    claim
        .iter()
        .filter(|item| item.kind != model::CONDITION)
        .fold(0, |names, item| {
            names | 1 << (32 * u32::from(item.kind) + u32::from(item.number))
        })
}
