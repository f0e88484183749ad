//! Rows that no call left so, by chance: a word of the row that the calls leave becomes another, or the state that it shows is
//! turned into one that is sound too, mostly.

use crate::chance::Chance;
use crate::head::{Change, MOST_CHANGES};
use crate::input::Input;
use crate::second::left;
use handed::row::{row_of, state_of, PARTS, PROCESSES, SEEDS, WORDS};
use handed::sound::is_sound;
use reference::model::{Action, Model};
use reference::run::{Entered, Event, Process, Returned, Standing, State, PLACES};

/// The word of the living places; the words of a process, and where each part of them begins.
const LIVING: usize = 4;
const OWN_WORDS: usize = 128;
const OWN_PARTS: [usize; 8] = [0, 1, 2, 3, 4, 12, 44, 52];
/// What one more of a part adds to a word that holds several.
const UNITS: [u64; 8] = [1, 1, 4, 64, 256, 1 << 16, 1 << 28, 1 << 32];
const LATEST: u32 = 2_000_000_000;
const LAST_NUMBER: u32 = 2_147_483_647;
const FULL_BIN: u32 = 1_000_000_000;
const LAST_SEED: u32 = 2_147_483_646;
const OF_RETURNS: i32 = -15_000;

/// The model, and the row that is handed in as the input says until now.
fn handed(input: &Input) -> Option<(Model, Vec<u64>)> {
    let model = reference::model::decode(&input.model()).ok()?;
    let mut row = row_of(&left(&model, &input.head));
    input.head.change(&mut row);
    Some((model, row))
}

/// Forgets the changes where what they make isn't the row of a sound run: there is little to find behind a second mistake.
pub fn forget_unsound(input: &mut Input) {
    let sound = handed(input).is_some_and(|(model, row)| {
        state_of(&model, &row).is_some_and(|state| is_sound(&model, &state))
    });
    if !sound {
        input.head.changes.clear();
    }
}

// ---- a word

/// Another word for one of this part of the row.
fn other_word(row: &[u64], at: usize, part: &[u64], chance: &mut Chance) -> u64 {
    let unit = UNITS[chance.below(UNITS.len())];
    match chance.below(9) {
        0 => chance.word(),
        1 => 0,
        2 => part[chance.below(part.len())],
        3 => row[at] ^ 1 << chance.below(64),
        4 => chance.number() as u64,
        5 | 6 => row[at].wrapping_sub(unit),
        _ => row[at].wrapping_add(unit),
    }
}

/// A word of some part, mostly one that is in use; at times the one behind those.
fn some_word(row: &[u64], from: usize, to: usize, chance: &mut Chance) -> usize {
    let plain = if chance.one_in(4) { 0 } else { 1 << 31 };
    let used: Vec<usize> = (from..to)
        .filter(|at| row[*at] != 0 && row[*at] != plain)
        .collect();
    match used.last() {
        Some(last) if chance.one_in(8) => (last + 1).min(to - 1),
        Some(_) => used[chance.below(used.len())],
        None => from + chance.below(to - from),
    }
}

/// The first word of some part of a process's row, or the one behind it.
fn some_own_word(row: &[u64], chance: &mut Chance) -> usize {
    let living: Vec<usize> = (0..PLACES)
        .filter(|at| row[LIVING] >> at & 1 == 1)
        .collect();
    let place = living.get(chance.below(living.len())).unwrap_or(&0);
    let own = OWN_PARTS[chance.below(OWN_PARTS.len())];
    PROCESSES + OWN_WORDS * place + own + chance.below(2)
}

/// One word of some part becomes another, often one that was changed before; at times all words do.
pub fn change_word(input: &mut Input, chance: &mut Chance) {
    let Some((_, row)) = handed(input) else {
        return;
    };
    let part = chance.below(PARTS.len());
    let from = PARTS[part].0;
    let to = part.checked_sub(1).map_or(WORDS, |next| PARTS[next].0);
    let changes = &input.head.changes;
    let changed = changes.get(chance.below(changes.len()));
    let at = match changed.map(|change| usize::from(change.at)) {
        Some(at) if at < WORDS && chance.one_in(2) => at,
        _ if chance.one_in(4) => some_own_word(&row, chance),
        _ => some_word(&row, from, to, chance),
    };
    let word = other_word(&row, at, &row[from..to], chance);
    let at = if chance.one_in(64) { WORDS } else { at };
    let change = Change {
        at: at as u16,
        word,
    };
    if input.head.changes.len() < MOST_CHANGES {
        input.head.changes.push(change);
    }
}

// ---- a state

/// Some living process's place.
fn living(state: &State, chance: &mut Chance) -> Option<usize> {
    let places: Vec<usize> = (0..state.places.len())
        .filter(|place| state.places[*place].is_some())
        .collect();
    places.get(chance.below(places.len())).copied()
}

fn process<'a>(state: &'a mut State, chance: &mut Chance) -> Option<&'a mut Process> {
    let place = living(state, chance)?;
    state.places[place].as_mut()
}

fn priority(state: &State, place: usize) -> i32 {
    state.places[place].as_ref().map_or(0, |one| one.priority)
}

/// All times as late as they may be, or nearly.
fn lift_times(_: &Model, state: &mut State, chance: &mut Chance) -> Option<()> {
    let latest = state.event_list.iter().map(|event| event.time);
    let up = LATEST - latest.max().unwrap_or(0).max(state.clock).min(LATEST);
    let up = up.saturating_sub(chance.below(3) as u32);
    state.clock += up;
    state
        .event_list
        .iter_mut()
        .for_each(|event| event.time += up);
    Some(())
}

/// Few numbers left to give, bins that are full or nearly, or too full, or a run that is closed.
fn fill(_: &Model, state: &mut State, chance: &mut Chance) -> Option<()> {
    let less = chance.below(3) as u32;
    match chance.below(3) {
        0 => state.last_given = LAST_NUMBER - less,
        1 => state
            .bins
            .iter_mut()
            .for_each(|bin| *bin = FULL_BIN + 1 - less),
        _ => state.closed = !state.closed,
    }
    Some(())
}

/// Another seed of a sampler, at its edge or past it; at times a seed where no sampler is.
fn reseed(_: &Model, state: &mut State, chance: &mut Chance) -> Option<()> {
    let many = state.seeds.len();
    if chance.one_in(8) && SEEDS + many < WORDS {
        state.seeds.push(1);
        return Some(());
    }
    let seed = state.seeds.get_mut(chance.below(many))?;
    *seed = [0, 1, 2, LAST_SEED - 1, LAST_SEED, LAST_SEED + 1][chance.below(6)];
    Some(())
}

fn enter(state: &mut State, event: Event) {
    let key = |event: &Event| (event.time, -i64::from(event.priority));
    let at = state
        .event_list
        .partition_point(|other| key(other) <= key(&event));
    state.event_list.insert(at, event);
}

/// Returns of a bin: one, or as many as may wait in all, or one more; at times of a giver that can't be.
fn give_to_bin(model: &Model, state: &mut State, chance: &mut Chance) -> Option<()> {
    let is_notice = |event: &&Event| matches!(event.entered, Entered::Notice { .. });
    let there = state.event_list.iter().filter(is_notice).count();
    let most = [there + 1, 63, 64, 65][chance.below(4)];
    let last = state.last_given as usize;
    let known = u32::from(!chance.one_in(4));
    for _ in there..most {
        let entered = Entered::Notice {
            giver: known * (1 + chance.below(last)) as u32,
            returned: Returned::Bin,
            number: chance.below(model.bins.len()) as u16,
            amount: 1,
        };
        let time = state.clock;
        let priority = OF_RETURNS;
        enter(
            state,
            Event {
                time,
                priority,
                entered,
            },
        );
    }
    Some(())
}

/// What is free of a resource is held by a process, or what it holds is on its way back.
fn hand_over(model: &Model, state: &mut State, chance: &mut Chance) -> Option<()> {
    let resource = chance.below(model.resources.len());
    let free = *state.free.get(resource)?;
    let holder = process(state, chance)?;
    let (giver, held) = (holder.number, holder.held[resource]);
    if chance.one_in(2) {
        let amount = (1 + chance.below(3) as u32).min(free);
        holder.held[resource] = holder.held[resource].saturating_add(amount);
        state.free[resource] -= amount;
        return Some(());
    }
    holder.held[resource] = 0;
    let entered = Entered::Notice {
        giver,
        returned: Returned::Resource,
        number: resource as u16,
        amount: held,
    };
    let time = state.clock.saturating_add(chance.below(2) as u32);
    let priority = OF_RETURNS;
    enter(
        state,
        Event {
            time,
            priority,
            entered,
        },
    );
    Some(())
}

/// A process stands elsewhere in one of its blocks, or in another block, or has other rounds left.
fn stand(model: &Model, state: &mut State, chance: &mut Chance) -> Option<()> {
    let blocks = &mut process(state, chance)?.blocks;
    let many = blocks.len();
    let standing = &mut blocks[if chance.one_in(2) {
        many - 1
    } else {
        chance.below(many)
    }];
    let actions = model.blocks.get(usize::from(standing.block))?.len();
    match chance.below(5) {
        0 => standing.rounds_left = chance.below(5) as u16,
        1 => standing.block = chance.below(model.blocks.len() + 1) as u16,
        2 => standing.place = actions + chance.below(2),
        _ => standing.place = chance.below(actions + 1),
    }
    Some(())
}

/// The block that an action enters, and its rounds.
fn entered_by(action: &Action, chance: &mut Chance) -> Option<(u16, u16)> {
    match action {
        Action::Do { rounds, block } => Some((*block, *rounds)),
        Action::Try { blocks, .. } => Some((blocks[chance.below(blocks.len())], 1)),
        Action::While { block, .. } => Some((*block, 1)),
        _ => None,
    }
}

/// A process goes into a block that an action of its innermost one enters, or out of that; at times into another, or for one
/// round too many or too few.
fn go_in_or_out(model: &Model, state: &mut State, chance: &mut Chance) -> Option<()> {
    let blocks = &mut process(state, chance)?.blocks;
    if chance.one_in(4) && blocks.len() > 1 {
        blocks.pop();
        return Some(());
    }
    let innermost = blocks.last_mut()?;
    let actions = model.blocks.get(usize::from(innermost.block))?;
    let entries: Vec<_> = (0..actions.len())
        .filter_map(|place| Some((place, entered_by(&actions[place], chance)?)))
        .collect();
    let (place, (block, rounds)) = *entries.get(chance.below(entries.len()))?;
    innermost.place = place;
    let (block, rounds_left) = match chance.below(8) {
        0 => (chance.below(model.blocks.len()) as u16, rounds),
        1 => (block, rounds.saturating_add(1)),
        2 | 3 => (block, rounds.saturating_sub(1)),
        _ => (block, rounds),
    };
    blocks.push(Standing {
        block,
        place: 0,
        rounds_left,
    });
    Some(())
}

/// Takes a process from wherever it is listed.
fn take_out(state: &mut State, place: usize) {
    state.floor = state.floor.filter(|other| *other != place);
    let entered = Entered::Process(place);
    state.event_list.retain(|event| event.entered != entered);
    state.blocked_list.retain(|other| *other != place);
    for list in &mut state.waiting_lists {
        list.retain(|other| *other != place);
    }
    for owner in state.places.iter_mut().flatten() {
        owner.slaves.retain(|(_, slave)| *slave != place);
    }
}

fn join(state: &State, list: &[usize], place: usize) -> usize {
    list.partition_point(|other| priority(state, *other) >= priority(state, place))
}

/// Lists a process somewhere, by its priority; at times as a slave of a sync that isn't there.
fn put_in(state: &mut State, place: usize, chance: &mut Chance) -> Option<()> {
    let sync = chance.below(state.waiting_lists.len());
    match chance.below(5) {
        0 if state.floor.is_none() => state.floor = Some(place),
        1 => {
            let at = join(state, &state.blocked_list, place);
            state.blocked_list.insert(at, place);
        }
        2 => {
            let at = join(state, state.waiting_lists.get(sync)?, place);
            state.waiting_lists[sync].insert(at, place);
        }
        3 => {
            let sync = chance.below(state.waiting_lists.len() + 1) as u16;
            process(state, chance)?.slaves.push((sync, place));
        }
        _ => {
            let time = state.clock.saturating_add(chance.below(3) as u32);
            let priority = priority(state, place);
            let entered = Entered::Process(place);
            enter(
                state,
                Event {
                    time,
                    priority,
                    entered,
                },
            );
        }
    }
    Some(())
}

/// A process is listed elsewhere, or once more; at times with another priority, or another number.
fn list_elsewhere(_: &Model, state: &mut State, chance: &mut Chance) -> Option<()> {
    let place = living(state, chance)?;
    let last = state.last_given;
    let own = state.places[place].as_mut()?;
    match chance.below(4) {
        0 => own.priority = chance.number() as i32,
        1 => own.priority = -10_000 - chance.below(2) as i32,
        2 => own.number = chance.below(last as usize + 2) as u32,
        _ => {}
    }
    if !chance.one_in(8) {
        take_out(state, place);
    }
    put_in(state, place, chance)
}

/// A process has another priority where it is listed, or two of a list change places: there its order may not be kept.
fn disorder(_: &Model, state: &mut State, chance: &mut Chance) -> Option<()> {
    let place = living(state, chance)?;
    let priority = chance.number() as i32;
    let sync = chance.below(state.waiting_lists.len() + 1);
    let list = match state.waiting_lists.get_mut(sync) {
        Some(list) => list,
        None => &mut state.blocked_list,
    };
    if chance.one_in(2) && list.len() > 1 {
        let (one, other) = (chance.below(list.len()), chance.below(list.len()));
        list.swap(one, other);
        return Some(());
    }
    state.places[place].as_mut()?.priority = priority;
    for event in &mut state.event_list {
        if event.entered == Entered::Process(place) {
            event.priority = priority;
        }
    }
    Some(())
}

/// A process more, like one that is there but for what it has; or one less.
fn double_or_drop(_: &Model, state: &mut State, chance: &mut Chance) -> Option<()> {
    let place = living(state, chance)?;
    if chance.one_in(3) {
        take_out(state, place);
        state.places[place] = None;
        return Some(());
    }
    let free = state.places.iter().position(Option::is_none)?;
    state.last_given = state.last_given.checked_add(1)?;
    let mut other = state.places[place].clone()?;
    other.number = state.last_given;
    other.held.iter_mut().for_each(|amount| *amount = 0);
    other.slaves.clear();
    state.places[free] = Some(other);
    put_in(state, free, chance)
}

type Turn = fn(&Model, &mut State, &mut Chance) -> Option<()>;

const TURNS: [Turn; 11] = [
    lift_times,
    fill,
    reseed,
    give_to_bin,
    hand_over,
    stand,
    go_in_or_out,
    list_elsewhere,
    list_elsewhere,
    disorder,
    double_or_drop,
];

/// The state that the row shows is turned into another one, where it shows one and few words change.
pub fn turn_state(input: &mut Input, chance: &mut Chance) {
    let Some((model, row)) = handed(input) else {
        return;
    };
    let Some(mut state) = state_of(&model, &row) else {
        return;
    };
    if TURNS[chance.below(TURNS.len())](&model, &mut state, chance).is_none() {
        return;
    }
    let turned = row_of(&state);
    let differs = (0..WORDS).filter(|at| row[*at] != turned[*at]);
    let changes: Vec<Change> = differs
        .map(|at| Change {
            at: at as u16,
            word: turned[at],
        })
        .collect();
    if input.head.changes.len() + changes.len() <= MOST_CHANGES {
        input.head.changes.extend(changes);
    }
}
