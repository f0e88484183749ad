//! Random models: what document 01 says of every run, held against many.

use crate::build::*;
use reference::bound::Bound;
use reference::journal::{Line, LINE_BYTES};
use reference::model::{self, decode, Action, Claim, Model};
use reference::run::{Answer, Entered, Returned, State, JOURNAL, PLACES};
use reference::sampler::MOST_SEED;
use std::collections::BTreeMap;

/// A plain xorshift generator, so that every test run sees the same models.
pub struct Random(pub u64);

impl Random {
    pub fn below(&mut self, end: u32) -> u32 {
        self.0 ^= self.0 << 13;
        self.0 ^= self.0 >> 7;
        self.0 ^= self.0 << 17;
        (self.0 >> 33) as u32 % end
    }

    fn word(&mut self, end: u32) -> u16 {
        self.below(end) as u16
    }

    fn expression(&mut self) -> Vec<Node> {
        let leaf = match self.below(5) {
            0 => global(self.below(2) as i32),
            1 => local(self.below(2) as i32),
            2 => draw(self.below(2) as i32),
            _ => lit(self.below(5) as i32),
        };
        match self.below(4) {
            0 => over(3 + self.word(5), &[leaf.clone(), lit(self.below(3) as i32)]),
            1 => over(3 + self.word(5), &[draw(self.below(2) as i32), leaf]),
            _ => leaf,
        }
    }

    fn claim(&mut self) -> Vec<Item> {
        let mut items: Vec<Item> = Vec::new();
        for _ in 0..self.below(4) {
            let amount = 1 + self.below(2) as i32;
            let item = match self.below(6) {
                0 => condition(1 + self.below(6) as u8, self.word(2), self.below(3) as i32),
                1 => get_s(self.word(2), amount),
                2 => get_b(self.word(2), amount),
                _ => get_r(self.word(2), amount),
            };
            if items
                .iter()
                .all(|other| item.0 == 3 || (other.0, other.2) != (item.0, item.2))
            {
                items.push(item);
            }
        }
        items
    }

    /// A claim whose takings need no giving back.
    fn claim_to_keep(&mut self) -> Vec<Item> {
        let mut items = self.claim();
        items.retain(|item| matches!(item.0, 1 | 3));
        items
    }

    /// A claim and, mostly, its giving back, so that long runs are made as well as faults.
    fn claim_and_return(&mut self) -> Vec<Vec<u8>> {
        let items = self.claim();
        let mut piece = vec![req(&items), hold(&lit(self.below(3) as i32))];
        for (kind, _, number, amount) in items {
            match kind {
                0 if self.below(30) > 0 => piece.push(putr(number, amount as u32)),
                2 if self.below(30) > 0 => piece.push(puts(number, amount as u16)),
                _ => {}
            }
        }
        piece
    }

    /// Some actions of block `own` of `blocks`; the last block names no other.
    fn piece(&mut self, own: u16, blocks: u16, classes: u16) -> Vec<Vec<u8>> {
        let later = |random: &mut Random| own + 1 + random.word(u32::from(blocks - own - 1));
        let amount = 1 + self.below(2);
        vec![match self.below(if own + 1 < blocks { 20 } else { 16 }) {
            0 => hold(&self.expression()),
            1 | 2 => prio(&self.expression()),
            3 => set(self.word(2), &self.expression()),
            4 => lset(self.word(2), &self.expression()),
            5 if self.below(10) == 0 => putr(self.word(2), amount),
            6 if self.below(10) == 0 => puts(self.word(2), 1),
            5..=7 => putb(self.word(2), amount),
            8 => become_slave(self.word(2)),
            9..=12 => return self.claim_and_return(),
            13 => trace(&self.expression()),
            14 if self.below(8) == 0 => close(),
            14 | 15 => start(self.word(u32::from(classes)), self.below(3), &[]),
            16 | 17 => do_rounds(self.word(4), later(self)),
            18 => {
                let branches: Vec<(u16, Vec<Item>)> = (0..1 + self.below(3))
                    .map(|_| (later(self), self.claim_to_keep()))
                    .collect();
                let branches: Vec<(u16, &[Item])> =
                    branches.iter().map(|(b, c)| (*b, &c[..])).collect();
                try_branches(&branches)
            }
            _ => while_met(later(self), &self.claim_to_keep()),
        }]
    }

    fn model(&mut self) -> Vec<u8> {
        let (classes, blocks) = (1 + self.word(3), 1 + self.word(6));
        let mut records = vec![
            res(self.below(4)),
            res(self.below(4)),
            bin(self.below(3)),
            bin(self.below(3)),
        ];
        records.extend([sync(), sync(), var(0), var(1)]);
        records.extend([sampler(0, 3, 1 + self.below(9)), sampler(-1, 1, MOST_SEED)]);
        records.extend((0..classes).map(|_| class(self.word(u32::from(blocks)))));
        for _ in 0..1 + self.below(6) {
            records.push(entity(self.word(u32::from(classes)), self.below(3)));
        }
        for own in 0..blocks {
            records.push(block());
            for _ in 0..self.below(5) {
                records.extend(self.piece(own, blocks, classes));
            }
        }
        model(&records)
    }

    /// Up to four items, the first of a bin, the others of bins or conditions.
    fn claim_of_bins(&mut self) -> Vec<Item> {
        let mut items = vec![get_b(self.word(4), 1 + self.below(2) as i32)];
        for _ in 0..self.below(4) {
            let item = match self.below(3) {
                0 => condition(1 + self.below(6) as u8, self.word(2), self.below(2) as i32),
                _ => get_b(self.word(4), 1 + self.below(2) as i32),
            };
            if item.0 == 3
                || items
                    .iter()
                    .all(|other| (other.0, other.2) != (item.0, item.2))
            {
                items.push(item);
            }
        }
        items
    }

    /// Many who claim of few bins, with waits of every kind among them.
    fn crowd(&mut self) -> Vec<u8> {
        let many = 12;
        let bodies: Vec<Vec<Vec<u8>>> = (0..many)
            .map(|_| {
                let branches = [self.claim_of_bins(), self.claim_of_bins()];
                let [first, second] = branches.each_ref().map(|claim| (many, &claim[..]));
                vec![
                    prio(&lit(self.below(3) as i32)),
                    set(self.word(2), &lit(self.below(2) as i32)),
                    putb(self.word(4), 1),
                    hold(&lit(self.below(3) as i32)),
                    req(&self.claim_of_bins()),
                    putb(self.word(4), 2),
                    while_met(many, &self.claim_of_bins()),
                    try_branches(&[first, second]),
                ]
            })
            .collect();
        let bodies: Vec<(u32, &[Vec<u8>])> = bodies
            .iter()
            .map(|body| (self.below(4), &body[..]))
            .collect();
        let declarations = [bin(1), bin(1), bin(0), bin(0), var(0), var(1)];
        [processes(&declarations, &bodies), block()].concat()
    }
}

/// What an open run must be when it is sound, as far as the state's form does not already see to it.
fn is_sound(model: &Model, state: &State) {
    let living = |place: &usize| {
        state.places[*place]
            .as_ref()
            .expect("only living processes are listed")
    };
    assert_eq!(state.seeds.len(), model.samplers.len());
    assert!(state
        .seeds
        .iter()
        .all(|seed| (1..=MOST_SEED).contains(seed)));
    let mut listed: Vec<usize> = state.floor.into_iter().collect();
    let mut amounts = state.free.clone();
    for event in &state.event_list {
        assert!(event.time >= state.clock);
        match event.entered {
            Entered::Process(place) => {
                assert_eq!(event.priority, living(&place).priority);
                listed.push(place);
            }
            Entered::Notice {
                returned,
                number,
                amount,
                ..
            } => {
                assert_eq!(event.priority, -15_000);
                if returned == Returned::Resource {
                    amounts[usize::from(number)] += amount;
                }
            }
        }
    }
    assert!(state.event_list.windows(2).all(|pair| {
        (pair[0].time, -i64::from(pair[0].priority)) <= (pair[1].time, -i64::from(pair[1].priority))
    }));
    for list in state.waiting_lists.iter().chain([&state.blocked_list]) {
        assert!(list
            .windows(2)
            .all(|pair| living(&pair[0]).priority >= living(&pair[1]).priority));
        listed.extend(list);
    }
    for place in &state.blocked_list {
        let innermost = living(place)
            .blocks
            .last()
            .expect("a process is in a block");
        let action = &model.blocks[usize::from(innermost.block)][innermost.place];
        assert!(matches!(action, Action::Req { .. } | Action::Try { .. }));
    }
    for process in state.places.iter().flatten() {
        assert!(process.priority >= -10_000 && process.number <= state.last_given);
        assert!((1..=8).contains(&process.blocks.len()));
        assert!(model.classes.contains(&process.blocks[0].block));
        for pair in process.blocks.windows(2) {
            let named = match &model.blocks[usize::from(pair[0].block)][pair[0].place] {
                Action::Do { block, rounds } => {
                    *block == pair[1].block && pair[1].rounds_left <= *rounds
                }
                Action::While { block, .. } => *block == pair[1].block && pair[1].rounds_left == 1,
                Action::Try { blocks, .. } => {
                    blocks.contains(&pair[1].block) && pair[1].rounds_left == 1
                }
                _ => false,
            };
            assert!(named && pair[1].rounds_left >= 1);
        }
        for (amount, held) in amounts.iter_mut().zip(&process.held) {
            *amount += held;
        }
        listed.extend(process.slaves.iter().map(|(_, slave)| slave));
    }
    assert_eq!(amounts, model.resources);
    listed.sort_unstable();
    let all: Vec<usize> = (0..PLACES)
        .filter(|place| state.places[*place].is_some())
        .collect();
    assert_eq!(listed, all);
}

/// What the line of the one who joined the blocked list at `at` must say, from the state after its step. Written with
/// maps, so that the program is not its own witness.
fn why_blocked(model: &Model, state: &State, at: usize) -> i32 {
    let claims = |at: usize| -> &[Claim] {
        let process = state.places[state.blocked_list[at]].as_ref();
        let innermost = process.and_then(|process| process.blocks.last());
        let innermost = innermost.expect("a blocked process lives, in a block");
        model.blocks[usize::from(innermost.block)][innermost.place].claims()
    };
    let amounts = |claim: &Claim| -> BTreeMap<(u8, u16), i32> {
        let named = claim.iter().filter(|item| item.kind != model::CONDITION);
        named
            .map(|item| ((item.kind, item.number), item.amount))
            .collect()
    };
    let is_covered = |claim: &Claim, other: &Claim| {
        let (part, whole) = (amounts(claim), amounts(other));
        let is_part = part.keys().all(|name| whole.contains_key(name));
        let has_larger = || part.iter().any(|(name, amount)| *amount > whole[name]);
        let is_smaller = || part != whole && !has_larger();
        !part.is_empty() && is_part && (part.len() < whole.len() || is_smaller())
    };
    let own = claims(at);
    let bars = |ahead: usize| {
        own.iter()
            .all(|claim| claims(ahead).iter().any(|other| is_covered(claim, other)))
    };
    if (0..at).any(bars) {
        return -1;
    }
    let lacking = own.iter().map(|claim| first_lacking(state, claim));
    let lacking: Option<Vec<i32>> = lacking.collect();
    lacking.expect("no branch is met")[0]
}

/// The first lacking item, counted from 1.
fn first_lacking(state: &State, claim: &Claim) -> Option<i32> {
    let lacks = |item: &model::Item| {
        let number = usize::from(item.number);
        let there = match item.kind {
            model::GET_R => state.free[number] as i32,
            model::GET_B => state.bins[number] as i32,
            model::GET_S => state.waiting_lists[number].len() as i32,
            _ => state.variables[number],
        };
        let order = there.cmp(&item.amount);
        match item.relation {
            1 => order.is_ge(),
            2 => order.is_gt(),
            3 => order.is_ne(),
            4 => order.is_eq(),
            // What is claimed must be there at the least, as with 5.
            0 | 5 => order.is_lt(),
            _ => order.is_le(),
        }
    };
    (1..)
        .zip(claim)
        .find(|(_, item)| lacks(item))
        .map(|(count, _)| count)
}

/// A step's blocked lines are those of who joined the blocked list, and say why; so a walk and a WHILE write none.
fn blocked_lines_say_why(model: &Model, before: &State, after: &State, lines: &[Line]) -> Vec<i32> {
    let joined = (0..after.blocked_list.len())
        .filter(|at| !before.blocked_list.contains(&after.blocked_list[*at]));
    let expected: Vec<(u32, i32)> = joined
        .map(|at| {
            let process = after.places[after.blocked_list[at]].as_ref();
            let number = process.expect("a blocked process lives").number;
            (number, why_blocked(model, after, at))
        })
        .collect();
    let blocked = lines.iter().filter(|line| line.kind == 3);
    let written: Vec<(u32, i32)> = blocked.map(|line| (line.process, line.value)).collect();
    assert_eq!(written, expected);
    written.into_iter().map(|(_, value)| value).collect()
}

#[test]
fn runs_are_sound_keep_their_bound_and_may_be_cut_anywhere() {
    let mut random = Random(88_172_645_463_325_252);
    let mut answers = [0; 4];
    for _ in 0..1_000 {
        let bytes = random.model();
        let model = decode(&bytes).expect("the generator makes sound models");
        let (limit, room) = (2_000, 70_000 * LINE_BYTES);
        let mut whole = State::fresh(&model);
        let long = whole.run(&model, limit, room);
        answers[match long.answer {
            Answer::Closed => 0,
            Answer::Idle => 1,
            Answer::Fault(_) => 2,
            Answer::Limit => 3,
        }] += 1;
        if let Ok(Bound::Number(number)) = reference::bound(&bytes) {
            assert!(long.steps <= number);
            assert!(long.answer != Answer::Limit || number > limit);
        }
        // Step by step, the same journal and the same end.
        let mut state = State::fresh(&model);
        is_sound(&model, &state);
        let mut journal = Vec::new();
        for _ in 0..long.steps {
            let (after, lines) = state.step(&model).expect("the long call made this step");
            journal.extend(lines.iter().flat_map(|line| line.bytes()));
            blocked_lines_say_why(&model, &state, &after, &lines);
            state = after;
            is_sound(&model, &state);
        }
        assert_eq!((&state, &journal), (&whole, &long.journal));
        // Calls of any limit and any room that grows when 30 comes, the same once more.
        let mut state = State::fresh(&model);
        let (mut steps, mut journal, mut lines) = (0, Vec::new(), 1);
        let answer = loop {
            let part = random.below(20).min(limit - steps);
            let outcome = state.run(&model, part, lines * LINE_BYTES);
            steps += outcome.steps;
            journal.extend(outcome.journal);
            match outcome.answer {
                Answer::Fault(JOURNAL) => lines += 1,
                Answer::Limit if steps < limit => lines = 1,
                answer => break answer,
            }
        };
        assert_eq!(
            (answer, steps, &journal, &state),
            (long.answer, long.steps, &long.journal, &whole)
        );
    }
    assert!(answers.iter().all(|count| *count > 10), "{answers:?}");
}

#[test]
fn a_crowd_is_told_why_it_waits() {
    let mut random = Random(362_436_069_521_288_629);
    // By value, from -1 to 4.
    let mut reasons = [0; 6];
    for _ in 0..500 {
        let model = decode(&random.crowd()).expect("the generator makes sound models");
        let mut state = State::fresh(&model);
        while state.floor.is_some() || !state.event_list.is_empty() {
            let (after, lines) = state.step(&model).expect("bins alone give no fault");
            for value in blocked_lines_say_why(&model, &state, &after, &lines) {
                reasons[(value + 1) as usize] += 1;
            }
            state = after;
        }
    }
    assert_eq!(reasons[1], 0);
    let met = reasons.iter().filter(|count| **count > 10).count();
    assert_eq!(met, 5, "{reasons:?}");
}

#[test]
fn any_bytes_get_an_answer() {
    let mut random = Random(1_234_567_891_011);
    for _ in 0..20_000 {
        let mut bytes = random.model();
        for _ in 0..1 + random.below(3) {
            let at = random.below(bytes.len() as u32) as usize;
            match random.below(3) {
                0 => bytes[at] = random.below(256) as u8,
                1 => bytes[at] = bytes[at].wrapping_add(1),
                _ => bytes.truncate(at + 1),
            }
        }
        match reference::check(&bytes) {
            Ok(()) => {
                reference::run(&bytes, 300, 100 * LINE_BYTES).expect("a model that passes runs");
            }
            Err(refusal) => {
                assert!((1..=10).contains(&refusal.number) && refusal.place < bytes.len())
            }
        }
    }
}
