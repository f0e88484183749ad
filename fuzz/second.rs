//! What the second program says of an input, in the numbers of desk/desk.h.

use crate::head::{Few, Head, CALLS};
use handed::row::{row_of, state_of, WORDS};
use handed::sound::is_sound;
use reference::bound::Bound;
use reference::model::{Model, Refusal};
use reference::run::{Answer, Outcome, State};

/// What is lent to be written holds this byte everywhere, and so do the bytes in front of it.
pub const UNTOUCHED: u8 = 0xa5;
pub const UNTOUCHED_WORD: u64 = u64::from_le_bytes([UNTOUCHED; 8]);
const STATE: u16 = 20;

/// What a run or a call tells, and its lines.
pub struct Told {
    pub word: u64,
    pub journal: Vec<u8>,
}

/// A call on an open run, and the row that it leaves.
pub struct Call {
    pub few: Few,
    pub told: Told,
    pub row: Vec<u64>,
}

pub struct Judgement {
    pub check: u32,
    pub bound: u64,
    pub run: Told,
    /// What opening leaves in a row, and the calls on it; of a refused file there are none.
    pub opened: Vec<u64>,
    pub calls: Vec<Call>,
    /// What opening tells of a row of another length.
    pub no_room: u32,
    /// The row that is handed in, and the calls on it.
    pub handed: Vec<u64>,
    pub handed_calls: Vec<Call>,
}

fn refusal(refusal: Refusal) -> u32 {
    u32::from(refusal.number) << 16 | refusal.place as u32
}

fn refused(told: Refusal) -> u64 {
    3 << 32 | u64::from(refusal(told))
}

fn number(answer: Answer) -> u16 {
    match answer {
        Answer::Closed => 0,
        Answer::Idle => 1,
        Answer::Limit => 2,
        Answer::Fault(number) => number,
    }
}

fn told(outcome: Outcome) -> Told {
    Told {
        word: u64::from(number(outcome.answer)) << 32 | u64::from(outcome.steps),
        journal: outcome.journal,
    }
}

fn bound(model: &[u8]) -> u64 {
    match reference::bound(model) {
        Ok(Bound::Number(number)) => u64::from(number),
        Ok(Bound::None) => 1 << 32,
        Ok(Bound::Over) => 2 << 32,
        Err(refusal) => refused(refusal),
    }
}

fn run(model: &[u8], few: Few) -> Told {
    match reference::run(model, few.limit, few.room) {
        Ok(outcome) => told(outcome),
        Err(refusal) => Told {
            word: refused(refusal),
            journal: Vec::new(),
        },
    }
}

fn call(model: &Model, run: &mut State, few: Few) -> Call {
    let told = told(run.run(model, few.limit, few.room));
    let row = row_of(run);
    Call { few, told, row }
}

/// The one call on a row that is not one of a sound run.
fn turned_away(few: Few, row: &[u64]) -> Call {
    Call {
        few,
        told: Told {
            word: u64::from(STATE) << 32,
            journal: Vec::new(),
        },
        row: row.to_vec(),
    }
}

/// The run as the calls before the change leave it.
pub fn left(model: &Model, head: &Head) -> State {
    let mut run = State::fresh(model);
    for few in (0..head.calls()).map(|call| head.few(call)) {
        run.run(model, few.limit, few.room);
    }
    run
}

/// The calls on a row that is handed in with a file that is refused, or has this model.
fn calls_on(model: Option<&Model>, row: &[u64], head: &Head) -> Vec<Call> {
    let shown = model
        .filter(|_| row.len() == WORDS)
        .and_then(|model| Some((model, state_of(model, row)?)))
        .filter(|(model, state)| is_sound(model, state));
    let Some((model, mut run)) = shown else {
        return vec![turned_away(head.few(0), row)];
    };
    let few = (0..CALLS).map(|call| head.few(call));
    few.map(|few| call(model, &mut run, few)).collect()
}

/// The calls from a fresh run on, and what opening leaves.
fn opened(model: &Model, head: &Head) -> (Vec<u64>, Vec<Call>) {
    let mut run = State::fresh(model);
    let row = row_of(&run);
    let few = (0..head.calls()).map(|call| head.few(call));
    (row, few.map(|few| call(model, &mut run, few)).collect())
}

pub fn judgement(model: &[u8], head: &Head) -> Judgement {
    let decoded = reference::model::decode(model);
    let check = decoded.as_ref().err().map_or(0, |told| refusal(*told));
    let decoded = decoded.ok();
    let (opened, calls) = match &decoded {
        Some(model) => opened(model, head),
        None => (vec![UNTOUCHED_WORD; WORDS], Vec::new()),
    };
    let mut handed = calls.last().map_or(&opened, |call| &call.row).clone();
    handed.resize(head.words(), UNTOUCHED_WORD);
    head.change(&mut handed);
    let no_room = u32::from(STATE) << 16;
    Judgement {
        check,
        bound: bound(model),
        run: run(model, head.whole()),
        opened,
        calls,
        no_room: if check == 0 { no_room } else { check },
        handed_calls: calls_on(decoded.as_ref(), &handed, head),
        handed,
    }
}
