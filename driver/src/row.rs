//! The second program's state as the row of 10,712 numbers that the desk holds of an open run, and back.
//! The layout is the one that crates/row_work/specs/Work.antt describes; no code of the engine is used.

use reference::model::{Model, LOCALS};
use reference::run::{Entered, Event, Process, Returned, Standing, State, PLACES};

pub const WORDS: usize = 10_712;

const FREE: usize = 8;
const BINS: usize = 40;
const VARIABLES: usize = 72;
const WAITING_COUNTS: usize = 104;
const BLOCKED: usize = 136;
const EVENT_KEYS: usize = 200;
const EVENT_WORDS: usize = 328;
const WAITING: usize = 456;
pub const PROCESSES: usize = 2_504;
pub const SEEDS: usize = 10_696;

const PROCESS_WORDS: usize = 128;
const OWN_LOCALS: usize = 4;
const HELD: usize = 12;
const BLOCKS: usize = 44;
const SLAVES: usize = 52;

/// Where each part of a row begins, from the last to the first.
pub const PARTS: [(usize, &str); 18] = [
    (SEEDS, "the seeds"),
    (PROCESSES, "the processes"),
    (WAITING, "the waiting lists"),
    (EVENT_WORDS, "what the events do"),
    (EVENT_KEYS, "the times and priorities of the events"),
    (BLOCKED, "the blocked list"),
    (WAITING_COUNTS, "how many wait for each sync"),
    (VARIABLES, "the variables"),
    (BINS, "the bins"),
    (FREE, "the free amounts"),
    (7, "unused"),
    (6, "how many are blocked"),
    (5, "how many events there are"),
    (4, "the living places"),
    (3, "the floor"),
    (2, "the last number given"),
    (1, "whether the run is closed"),
    (0, "the clock"),
];

/// What a word of the row says, for a reader.
pub fn part(word: isize) -> String {
    let outside = !(0..WORDS as isize).contains(&word);
    let at = word.unsigned_abs();
    match PARTS.iter().find(|(from, _)| *from <= at) {
        Some((PROCESSES, name)) if !outside => {
            let (place, own) = ((at - PROCESSES) / PROCESS_WORDS, (at - PROCESSES) % PROCESS_WORDS);
            format!("word {word} of the row ({name}: word {own} of place {place})")
        }
        Some((_, name)) if !outside => format!("word {word} of the row ({name})"),
        _ => format!("word {word}, outside the row,"),
    }
}

/// Whether a word is of a block that a process is in.
pub fn is_standing(word: usize) -> bool {
    (PROCESSES..SEEDS).contains(&word) && (BLOCKS..SLAVES).contains(&((word - PROCESSES) % PROCESS_WORDS))
}

/// An i32 as its code.
fn code(n: i32) -> u64 {
    (i64::from(n) + (1 << 31)) as u64
}

/// A higher priority has a lower rank.
fn rank(priority: i32) -> u64 {
    u64::from(u32::MAX) - code(priority)
}

pub fn row_of(state: &State) -> Vec<u64> {
    let mut row = vec![0; WORDS];
    row[0] = u64::from(state.clock);
    row[1] = u64::from(state.closed);
    row[2] = u64::from(state.last_given);
    row[3] = state.floor.map_or(0, |place| place as u64 + 1);
    row[5] = state.event_list.len() as u64;
    row[6] = state.blocked_list.len() as u64;
    for (i, n) in state.free.iter().enumerate() {
        row[FREE + i] = u64::from(*n);
    }
    for (i, n) in state.bins.iter().enumerate() {
        row[BINS + i] = u64::from(*n);
    }
    for (i, n) in state.variables.iter().enumerate() {
        row[VARIABLES + i] = code(*n);
    }
    for (i, n) in state.seeds.iter().enumerate() {
        row[SEEDS + i] = u64::from(*n);
    }
    waiters(state, &state.blocked_list, &mut row[BLOCKED..]);
    for (i, list) in state.waiting_lists.iter().enumerate() {
        row[WAITING_COUNTS + i] = list.len() as u64;
        waiters(state, list, &mut row[WAITING + 64 * i..]);
    }
    for (i, event) in state.event_list.iter().enumerate() {
        row[EVENT_KEYS + i] = (u64::from(event.time) << 32) + rank(event.priority);
        row[EVENT_WORDS + i] = event_word(&event.entered);
    }
    for (place, process) in state.places.iter().enumerate() {
        let own = &mut row[PROCESSES + PROCESS_WORDS * place..][..PROCESS_WORDS];
        own[1] = code(0);
        if let Some(process) = process {
            process_words(process, own);
            row[4] |= 1 << place;
        }
    }
    row
}

fn waiters(state: &State, list: &[usize], row: &mut [u64]) {
    for (i, place) in list.iter().enumerate() {
        let priority = state.places[*place].as_ref().map_or(0, |process| process.priority);
        row[i] = 64 * rank(priority) + *place as u64;
    }
}

fn event_word(entered: &Entered) -> u64 {
    let pack = |kind: u64, number: u64, amount: u32, giver: u32| {
        kind + 4 * (number + 64 * (u64::from(amount) + (1 << 20) * u64::from(giver)))
    };
    match *entered {
        Entered::Process(place) => pack(0, place as u64, 0, 0),
        Entered::Notice { giver, returned, number, amount } => {
            let kind = match returned {
                Returned::Resource => 1,
                Returned::Bin => 2,
            };
            pack(kind, u64::from(number), amount, giver)
        }
    }
}

fn process_words(process: &Process, own: &mut [u64]) {
    own[0] = u64::from(process.number);
    own[1] = code(process.priority);
    own[2] = process.blocks.len() as u64;
    own[3] = process.slaves.len() as u64;
    for (i, n) in process.locals.iter().enumerate() {
        own[OWN_LOCALS + i] = code(*n);
    }
    for (i, n) in process.held.iter().enumerate() {
        own[HELD + i] = u64::from(*n);
    }
    for (i, standing) in process.blocks.iter().enumerate() {
        let rounds = u64::from(standing.rounds_left);
        own[BLOCKS + i] = u64::from(standing.block) + 65_536 * (standing.place as u64 + 65_536 * rounds);
    }
    for (i, (sync, place)) in process.slaves.iter().enumerate() {
        own[SLAVES + i] = 64 * u64::from(*sync) + *place as u64;
    }
}

// ---- back

/// The state that a row shows, if it has the one form of a state of this model.
pub fn state_of(model: &Model, row: &[u64]) -> Option<State> {
    let few = |from: usize, many: usize| -> Option<Vec<u32>> {
        row[from..from + many].iter().map(|n| u32::try_from(*n).ok()).collect()
    };
    let events = usize::try_from(row[5]).ok().filter(|n| *n <= 128)?;
    let blocked = usize::try_from(row[6]).ok().filter(|n| *n <= 64)?;
    let place_of = |word: &u64| (*word % 64) as usize;
    let waiting = |sync: usize| {
        let many = usize::try_from(row[WAITING_COUNTS + sync]).ok().filter(|n| *n <= 64)?;
        Some(row[WAITING + 64 * sync..][..many].iter().map(place_of).collect())
    };
    let state = State {
        clock: u32::try_from(row[0]).ok()?,
        closed: row[1] != 0,
        last_given: u32::try_from(row[2]).ok()?,
        floor: row[3].checked_sub(1).map(|place| place as usize),
        free: few(FREE, model.resources.len())?,
        bins: few(BINS, model.bins.len())?,
        variables: row[VARIABLES..][..model.variables.len()].iter().map(|n| number(*n)).collect::<Option<_>>()?,
        seeds: few(SEEDS, model.samplers.len())?,
        event_list: (0..events).map(|i| event(row, i)).collect::<Option<_>>()?,
        blocked_list: row[BLOCKED..][..blocked].iter().map(place_of).collect(),
        waiting_lists: (0..model.syncs).map(waiting).collect::<Option<_>>()?,
        places: (0..PLACES).map(|place| process(model, row, place)).collect::<Option<_>>()?,
    };
    // Whatever was read too generously shows here: there is one row for a state.
    let listed = state.floor.iter().chain(&state.blocked_list).chain(state.waiting_lists.iter().flatten());
    let lives = |place: &usize| state.places.get(*place).is_some_and(Option::is_some);
    (listed.copied().all(|place| lives(&place)) && row_of(&state) == row).then_some(state)
}

fn number(code: u64) -> Option<i32> {
    i32::try_from(i64::try_from(code).ok()?.checked_sub(1 << 31)?).ok()
}

fn event(row: &[u64], i: usize) -> Option<Event> {
    let (key, word) = (row[EVENT_KEYS + i], row[EVENT_WORDS + i]);
    let number_of = (word / 4 % 64) as u16;
    let returned = match word % 4 {
        0 => None,
        1 => Some(Returned::Resource),
        2 => Some(Returned::Bin),
        _ => return None,
    };
    let entered = match returned {
        None => Entered::Process(usize::from(number_of)),
        Some(returned) => Entered::Notice {
            giver: (word >> 28).try_into().ok()?,
            returned,
            number: number_of,
            amount: (word >> 8 & 0xf_ffff) as u32,
        },
    };
    Some(Event { time: (key >> 32) as u32, priority: number(u64::from(u32::MAX) - (key & 0xffff_ffff))?, entered })
}

/// The process in a place, or nobody.
fn process(model: &Model, row: &[u64], place: usize) -> Option<Option<Process>> {
    if row[4] >> place & 1 == 0 {
        return Some(None);
    }
    let own = &row[PROCESSES + PROCESS_WORDS * place..][..PROCESS_WORDS];
    let blocks = usize::try_from(own[2]).ok().filter(|n| (1..=8).contains(n))?;
    let slaves = usize::try_from(own[3]).ok().filter(|n| *n <= PLACES)?;
    let mut locals = [0; LOCALS];
    for (i, local) in locals.iter_mut().enumerate() {
        *local = number(own[OWN_LOCALS + i])?;
    }
    let held = own[HELD..][..model.resources.len()].iter().map(|n| u32::try_from(*n).ok());
    let standing = |word: &u64| Standing {
        block: (*word & 0xffff) as u16,
        place: (*word >> 16 & 0xffff) as usize,
        rounds_left: (*word >> 32 & 0xffff) as u16,
    };
    let slave = |word: &u64| ((*word / 64) as u16, (*word % 64) as usize);
    Some(Some(Process {
        number: u32::try_from(own[0]).ok()?,
        priority: number(own[1])?,
        locals,
        held: held.collect::<Option<_>>()?,
        slaves: own[SLAVES..][..slaves].iter().map(slave).collect(),
        blocks: own[BLOCKS..][..blocks].iter().map(standing).collect(),
    }))
}
