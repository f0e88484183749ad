//! Whether an open run is sound: document 01's sentence on it, clause by clause, on the second program's state. "Every number is
//! in its range" has a seed for each sampler, in 1..2147483646 (document 02, One).
//! Where its words leave a choice (docs/DECISIONS.md E8 to E12, S2) the one written there is taken.

use reference::model::{Action, Model};
use reference::run::{Entered, Event, Process, Returned, Standing, State, PLACES};

pub fn is_sound(model: &Model, state: &State) -> bool {
    in_range(model, state)
        && living(state).all(|(_, process)| stands_right(model, process))
        && ordered(state)
        && own_numbers(state)
        && in_exactly_one(state)
        && state.blocked_list.iter().all(|place| asks(model, state, *place))
        && adds_up(model, state)
}

fn living(state: &State) -> impl Iterator<Item = (usize, &Process)> {
    let processes = state.places.iter().enumerate();
    processes.filter_map(|(place, process)| process.as_ref().map(|process| (place, process)))
}

fn priority_at(state: &State, place: usize) -> Option<i32> {
    state.places.get(place)?.as_ref().map(|process| process.priority)
}

fn in_range(model: &Model, state: &State) -> bool {
    let notices = state.event_list.iter().filter(|event| matches!(event.entered, Entered::Notice { .. }));
    state.clock <= 2_000_000_000
        && state.last_given <= 2_147_483_647
        && state.bins.iter().all(|amount| *amount <= 1_000_000_000)
        && state.seeds.iter().all(|seed| (1..=2_147_483_646).contains(seed))
        && notices.count() <= 64
        && state.event_list.iter().all(|event| event_in_range(model, state, event))
        && living(state).all(|(_, process)| {
            let syncs_known = process.slaves.iter().all(|(sync, _)| usize::from(*sync) < model.syncs);
            process.priority >= -10_000 && syncs_known
        })
}

fn event_in_range(model: &Model, state: &State, event: &Event) -> bool {
    let right = match event.entered {
        Entered::Process(place) => priority_at(state, place) == Some(event.priority),
        Entered::Notice { giver, returned, number, amount } => {
            let many = match returned {
                Returned::Resource => model.resources.len(),
                Returned::Bin => model.bins.len(),
            };
            event.priority == -15_000
                && usize::from(number) < many
                && (1..=1_000_000).contains(&amount)
                && (1..=state.last_given).contains(&giver)
        }
    };
    right && event.time <= 2_000_000_000
}

fn action_at<'a>(model: &'a Model, standing: &Standing) -> Option<&'a Action> {
    model.blocks.get(usize::from(standing.block))?.get(standing.place)
}

/// A class body first, each next block named where the one before stands.
fn stands_right(model: &Model, process: &Process) -> bool {
    let in_block = |standing: &Standing| {
        let block = model.blocks.get(usize::from(standing.block));
        block.is_some_and(|actions| standing.place <= actions.len())
    };
    let body = &process.blocks[0];
    let named = process
        .blocks
        .windows(2)
        .all(|pair| action_at(model, &pair[0]).is_some_and(|action| enters(action, pair[1].block, pair[1].rounds_left)));
    process.blocks.iter().all(in_block) && model.classes.contains(&body.block) && body.rounds_left == 1 && named
}

fn enters(action: &Action, into: u16, rounds_left: u16) -> bool {
    match action {
        Action::Do { rounds, block } => *block == into && (1..=*rounds).contains(&rounds_left),
        Action::Try { blocks, .. } => blocks.contains(&into) && rounds_left == 1,
        Action::While { block, .. } => *block == into && rounds_left == 1,
        _ => false,
    }
}

fn ordered(state: &State) -> bool {
    let events = &state.event_list;
    let by_priority = |list: &Vec<usize>| list.is_sorted_by_key(|place| priority_at(state, *place).map(|p| -i64::from(p)));
    events.is_sorted_by_key(|event| (event.time, -i64::from(event.priority)))
        && by_priority(&state.blocked_list)
        && state.waiting_lists.iter().all(by_priority)
        && events.iter().all(|event| event.time >= state.clock)
}

fn own_numbers(state: &State) -> bool {
    let mut numbers: Vec<u32> = living(state).map(|(_, process)| process.number).collect();
    numbers.sort_unstable();
    let different = numbers.windows(2).all(|pair| pair[0] < pair[1]);
    different && numbers.iter().all(|number| (1..=state.last_given).contains(number))
}

fn in_exactly_one(state: &State) -> bool {
    let mut times = [0; PLACES];
    let entered = state.event_list.iter().filter_map(|event| match event.entered {
        Entered::Process(place) => Some(place),
        Entered::Notice { .. } => None,
    });
    let slaves = living(state).flat_map(|(_, process)| process.slaves.iter().map(|(_, place)| *place));
    let listed = state.floor.into_iter().chain(entered).chain(slaves);
    let waiting = state.blocked_list.iter().chain(state.waiting_lists.iter().flatten()).copied();
    for place in listed.chain(waiting) {
        match times.get_mut(place) {
            Some(many) => *many += 1,
            None => return false,
        }
    }
    (0..PLACES).all(|place| times[place] == u32::from(state.places[place].is_some()))
}

fn asks(model: &Model, state: &State, place: usize) -> bool {
    let standing = state.places[place].as_ref().and_then(|process| process.blocks.last());
    let action = standing.and_then(|standing| action_at(model, standing));
    matches!(action, Some(Action::Req { .. } | Action::Try { .. }))
}

fn adds_up(model: &Model, state: &State) -> bool {
    model.resources.iter().enumerate().all(|(resource, total)| {
        let held: u64 = living(state).map(|(_, process)| u64::from(process.held[resource])).sum();
        let returning: u64 = state.event_list.iter().map(|event| returning(event, resource)).sum();
        u64::from(state.free[resource]) + held + returning == u64::from(*total)
    })
}

fn returning(event: &Event, resource: usize) -> u64 {
    match event.entered {
        Entered::Notice { returned: Returned::Resource, number, amount, .. } if usize::from(number) == resource => {
            u64::from(amount)
        }
        _ => 0,
    }
}
