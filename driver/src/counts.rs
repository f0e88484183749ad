//! How often each number that the desk sees came up: the table at the end.

use crate::barred::asked;
use crate::drawn::Drawers;
use crate::waited::tests;
use reference::journal::{lines, BLOCKED};
use reference::model::{Action, Model};
use reference::run::{Answer, Entered, Outcome, State};

pub const REFUSALS: usize = 0;
pub const FAULTS: usize = 1;
pub const ACTIONS: usize = 2;
pub const ANSWERS: usize = 3;
pub const LINES: usize = 4;
pub const BOUNDS: usize = 5;
pub const SAMPLERS: usize = 6;
pub const SAMPLERS_REFUSED: usize = 7;
pub const DRAWS: usize = 8;
pub const DRAWS_UNDONE: usize = 9;
pub const SEEDS: usize = 10;
pub const PACES: usize = 11;
pub const WAITS: usize = 12;
pub const WAITED: usize = 13;
pub const AMOUNTS: usize = 14;
pub const BARRED: usize = 15;

struct Group {
    title: &'static str,
    /// The number of the first name.
    first: usize,
    names: &'static [&'static str],
}

const GROUPS: [Group; 16] = [
    Group {
        title: "refusals",
        first: 1,
        names: &["SHORT", "KIND", "PLACE", "MANY", "SIZE", "VALUE", "TWICE", "NAME", "ORDER", "DEEP"],
    },
    Group {
        title: "faults, of all calls",
        first: 21,
        names: &["SUM", "BACK", "LATE", "HELD", "OWNED", "OWING", "FULL", "BIN", "NOTICES", "JOURNAL"],
    },
    Group {
        title: "actions done, of the first 200 steps",
        first: 16,
        names: &[
            "HOLD", "PRIO", "SET", "LSET", "DO", "PUTR", "PUTB", "PUTS", "BECOME", "REQ", "TRY", "WHILE", "START", "TRACE",
            "CLOSE",
        ],
    },
    Group { title: "answers, of all calls", first: 0, names: &["CLOSED", "IDLE", "LIMIT", "FAULT"] },
    Group {
        title: "journal lines",
        first: 1,
        names: &[
            "started",
            "ended",
            "blocked",
            "granted",
            "resource returned",
            "bin returned",
            "waiting as slave",
            "freed",
            "TRACE",
            "closed",
        ],
    },
    Group { title: "bounds", first: 0, names: &["a number", "NONE", "OVER"] },
    Group {
        title: "samplers of models accepted",
        first: 0,
        names: &["seed 1", "seed 2,147,483,646", "one value", "1,000,001 values", "the sixteenth"],
    },
    Group {
        title: "samplers and draws refused",
        first: 0,
        names: &[
            "behind a BLOCK: 3",
            "the seventeenth: 4",
            "of another size: 5",
            "seed 0: 6",
            "seed 2,147,483,647: 6",
            "lowest one above highest: 6",
            "difference 1,000,001: 6",
            "op 11: 6",
            "a draw of the next sampler: 8",
            "a draw of a negative one: 8",
        ],
    },
    Group {
        title: "steps that draw, of the first 200",
        first: 0,
        names: &[
            "in HOLD",
            "in PRIO",
            "in SET",
            "in LSET",
            "in TRACE",
            "under lesser",
            "under greater",
            "twice from one sampler",
            "from two samplers",
            "after another job from the same",
        ],
    },
    Group {
        title: "faults of steps that had drawn, of all calls",
        first: 0,
        names: &["SUM: 21", "BACK: 22", "LATE: 23", "JOURNAL: 30"],
    },
    Group {
        title: "other seeds in rows handed in",
        first: 0,
        names: &["0", "1 to 2,147,483,646", "above 2,147,483,646", "where no sampler is"],
    },
    Group {
        title: "runs that draw, in calls of so many steps and few lines",
        first: 1,
        names: &["step", "steps", "steps", "steps", "steps", "steps", "steps"],
    },
    Group {
        title: "journal lines of those blocked, by the value",
        first: 0,
        names: &["barred: -1", "the first item is lacking", "the second", "the third", "the fourth"],
    },
    Group {
        title: "claims that wait or pass on, of the first 200 steps",
        first: 0,
        names: &[
            "barred, a branch could be met",
            "barred, no branch could be met",
            "a condition is lacking",
            "lacking behind a condition",
            "the last branch lacks another",
            "a WHILE passes on, barred",
            "a WHILE passes on, lacking",
        ],
    },
    Group {
        title: "branches of one ahead and of who asks, by their amounts, of the first 200 steps",
        first: 0,
        names: &[
            "smaller, of resources alone",
            "smaller, of bins alone",
            "smaller, of syncs alone",
            "some smaller, some equal",
            "smaller, in another order",
            "smaller, a condition beside",
            "equal",
            "equal, a condition beside",
            "larger",
            "some smaller, some larger",
            "a strict part, more of it",
        ],
    },
    Group {
        title: "who is barred by amounts alone, and who isn't, of the first 200 steps",
        first: 0,
        names: &[
            "blocked, a branch could be met",
            "blocked, no branch could be met",
            "its branches by one rule each",
            "by two branches of one ahead",
            "by more than there ever is",
            "goes: its branches by two ahead",
            "lacks: its branches by two ahead",
            "a WHILE that could be met",
            "goes past an equal claim",
            "goes past smaller and larger",
            "goes past more of lower priority",
            "left by a walk, could be met",
        ],
    },
];

/// What a run of the driver did besides.
#[derive(Clone, Default)]
pub struct Counts {
    seen: [[u64; 16]; GROUPS.len()],
    pub accepted: u64,
    pub calls: u64,
    pub steps: u64,
    /// Rows handed in that no call left so, and how many of them aren't sound.
    pub rows_handed: u64,
    pub rows_unsound: u64,
}

impl Counts {
    pub fn add(&mut self, group: usize, number: usize) {
        self.seen[group][number - GROUPS[group].first] += 1;
    }

    /// The answer of a call, and the state that it left.
    pub fn answered(&mut self, model: &Model, state: &State, outcome: &Outcome) {
        self.calls += 1;
        self.steps += u64::from(outcome.steps);
        let answer = match outcome.answer {
            Answer::Closed => 0,
            Answer::Idle => 1,
            Answer::Limit => 2,
            Answer::Fault(number) => {
                self.add(FAULTS, usize::from(number));
                if let Some(doing) = next(model, state) {
                    self.undone(number, doing.action);
                }
                3
            }
        };
        self.add(ANSWERS, answer);
    }

    pub fn wrote(&mut self, journal: &[u8]) {
        for line in lines(journal) {
            self.add(LINES, usize::from(line.kind));
            if line.kind == BLOCKED {
                let said = [-1, 1, 2, 3, 4].map(|value| line.value == value);
                self.add_each(WAITS, 0, &said);
            }
        }
    }

    /// Each that is so, counted under its place from `first` on.
    pub fn add_each(&mut self, group: usize, first: usize, so: &[bool]) {
        so.iter().enumerate().filter(|(_, so)| **so).for_each(|(i, _)| self.add(group, first + i));
    }

    /// The actions of at most so many steps from fresh, made again one by one.
    pub fn acted(&mut self, model: &Model, most: u32) {
        let mut state = State::fresh(model);
        let mut drawers = Drawers::default();
        for _ in 0..most {
            let doing = next(model, &state);
            let asked = doing.map(|doing| asked(model, &state, doing.place, doing.action));
            let tested = doing.map_or(Vec::new(), |doing| tests(&state, doing.action));
            let one = state.run(model, 1, usize::MAX);
            if one.steps == 0 {
                return;
            }
            if let (Some(doing), Some(asked)) = (doing, asked) {
                self.add(ACTIONS, kind_of(doing.action));
                self.drew(doing.action, doing.number, &mut drawers);
                self.waited(doing.action, &tested, &one.journal);
                self.asked(model, &asked, doing.action, &one.journal);
            }
            self.walked(model, &state, doing.map(|doing| doing.action), &one.journal);
        }
    }

    pub fn join(&mut self, other: &Counts) {
        for (mine, theirs) in self.seen.iter_mut().flatten().zip(other.seen.iter().flatten()) {
            *mine += theirs;
        }
        self.accepted += other.accepted;
        self.calls += other.calls;
        self.steps += other.steps;
        self.rows_handed += other.rows_handed;
        self.rows_unsound += other.rows_unsound;
    }

    /// The table; and the names that never came up.
    pub fn table(&self) -> (String, Vec<String>) {
        let mut text = String::new();
        let mut never = Vec::new();
        for (group, seen) in GROUPS.iter().zip(&self.seen) {
            text += &format!("{}\n", group.title);
            for (i, name) in group.names.iter().enumerate() {
                text += &format!("  {:>2} {:<31} {:>12}\n", group.first + i, name, seen[i]);
                if seen[i] == 0 {
                    never.push(format!("{}: {} {name}", group.title, group.first + i));
                }
            }
        }
        (text, never)
    }
}

/// Who makes the next step: its place and number, and its action.
#[derive(Clone, Copy)]
struct Doing<'a> {
    place: usize,
    number: u32,
    action: &'a Action,
}

/// Who makes the next step, unless that is a return or the end of a block.
fn next<'a>(model: &'a Model, state: &State) -> Option<Doing<'a>> {
    let place = match state.floor {
        Some(place) => place,
        None => match state.event_list.first()?.entered {
            Entered::Process(place) => place,
            Entered::Notice { .. } => return None,
        },
    };
    let process = state.places[place].as_ref()?;
    let standing = process.blocks.last()?;
    let action = model.blocks[usize::from(standing.block)].get(standing.place)?;
    Some(Doing { place, number: process.number, action })
}

fn kind_of(action: &Action) -> usize {
    match action {
        Action::Hold(_) => 16,
        Action::Prio(_) => 17,
        Action::Set { .. } => 18,
        Action::Lset { .. } => 19,
        Action::Do { .. } => 20,
        Action::Putr { .. } => 21,
        Action::Putb { .. } => 22,
        Action::Puts { .. } => 23,
        Action::Become { .. } => 24,
        Action::Req { .. } => 25,
        Action::Try { .. } => 26,
        Action::While { .. } => 27,
        Action::Start { .. } => 28,
        Action::Trace(_) => 29,
        Action::Close => 30,
    }
}
