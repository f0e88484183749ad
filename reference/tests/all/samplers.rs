//! Samplers: the generator, the draws of an expression in the order of its nodes, and seeds put back by a fault.

use crate::build::*;
use reference::journal::{lines, LINE_BYTES};
use reference::model::decode;
use reference::run::{Answer, State, JOURNAL};
use reference::sampler::{next, Sampler, MOST_SEED};

const ROOM: usize = 1_000 * LINE_BYTES;
/// The seeds that follow 1.
const SEEDS: [u32; 5] = [
    16_807,
    282_475_249,
    1_622_650_073,
    984_943_658,
    1_144_108_930,
];

/// The values traced by a run to its end.
fn traced(bytes: &[u8]) -> Vec<i32> {
    let outcome = reference::run(bytes, 10_000, ROOM).expect("a sound model");
    assert_eq!(outcome.answer, Answer::Idle);
    let traces = lines(&outcome.journal).filter(|line| line.kind == 9);
    traces.map(|line| line.value).collect()
}

/// What one process traces, with one sampler of 0..999,999 and seed 1 and one of 4..7 and seed 1.
fn draws(body: &[Vec<u8>]) -> Vec<i32> {
    traced(&one_process(
        &[sampler(0, 999_999, 1), sampler(4, 7, 1)],
        &[body],
    ))
}

/// The draw of 0..999,999 by a seed.
fn wide(seed: u32) -> i32 {
    (seed % 1_000_000) as i32
}

#[test]
fn the_10_000th_seed_from_1_is_1043618065() {
    let mut seed = 1;
    for at in 0..10_000 {
        seed = next(seed);
        if let Some(expected) = SEEDS.get(at) {
            assert_eq!(seed, *expected);
        }
    }
    assert_eq!(seed, 1_043_618_065);
}

#[test]
fn a_run_comes_to_the_same_seed() {
    // 1,250 rounds of eight draws each.
    let sum = [vec![(3, 0); 7], vec![(10, 0); 8]].concat();
    let blocks: [&[Vec<u8>]; 2] = [&[do_rounds(1_250, 1)], &[lset(0, &sum)]];
    let bytes = one_process(&[sampler(1, 1_000_000, 1)], &blocks);
    let model = decode(&bytes).expect("a sound model");
    let mut state = State::fresh(&model);
    assert_eq!(state.seeds, [1]);
    // The DO, and each round with its end.
    state.run(&model, 1 + 2 * 1_250, ROOM);
    assert_eq!(state.seeds, [1_043_618_065]);
}

#[test]
fn a_seed_stays_in_its_range_and_a_draw_between_lowest_and_highest() {
    for seed in (1..=1_000)
        .chain(MOST_SEED - 1_000..=MOST_SEED)
        .chain((1..MOST_SEED).step_by(99_991))
    {
        assert!((1..=MOST_SEED).contains(&next(seed)));
        for (lowest, highest) in [
            (4, 7),
            (-3, 3),
            (0, 1_000_000),
            (5, 5),
            (i32::MIN, i32::MIN + 1),
            (i32::MAX - 1, i32::MAX),
        ] {
            let sampler = Sampler {
                lowest,
                highest,
                seed,
            };
            let mut own = seed;
            let value = sampler.draw(&mut own);
            assert_eq!(own, next(seed));
            assert!((i64::from(lowest)..=i64::from(highest)).contains(&value));
        }
    }
    assert_eq!(next(MOST_SEED), 2_147_466_840);
}

#[test]
fn a_draw_answers_from_the_new_seed() {
    assert_eq!(
        draws(&vec![trace(&draw(1)); 5]),
        SEEDS.map(|seed| 4 + (seed % 4) as i32)
    );
    assert_eq!(draws(&vec![trace(&draw(1)); 5]), [7, 5, 5, 6, 6]);
    assert_eq!(draws(&vec![trace(&draw(0)); 5]), SEEDS.map(wide));
    // One value only: the seed moves on all the same.
    let bytes = one_process(&[sampler(-9, -9, 1)], &[&[trace(&draw(0))]]);
    assert_eq!(traced(&bytes), [-9]);
    let model = decode(&bytes).expect("a sound model");
    let mut state = State::fresh(&model);
    state.run(&model, 1, ROOM);
    assert_eq!(state.seeds, [SEEDS[0]]);
}

#[test]
fn draws_are_made_in_the_order_of_the_nodes() {
    let [first, second, third, ..] = SEEDS.map(wide);
    assert_eq!(
        draws(&[trace(&over(4, &[draw(0), draw(0)]))]),
        [first - second]
    );
    // (a - b) - c, and a - (b - c).
    let left = over(4, &[over(4, &[draw(0), draw(0)]), draw(0)]);
    assert_eq!(draws(&[trace(&left)]), [first - second - third]);
    let right = over(4, &[draw(0), over(4, &[draw(0), draw(0)])]);
    assert_eq!(draws(&[trace(&right)]), [first - (second - third)]);
    // Each sampler has its own seed.
    let mixed = over(4, &[draw(1), over(4, &[draw(0), draw(1)])]);
    assert_eq!(draws(&[trace(&mixed)]), [7 - (first - 5)]);
}

#[test]
fn both_sides_of_lesser_and_greater_are_drawn() {
    for op in [6, 7] {
        for sides in [[draw(0), lit(-1)], [lit(-1), draw(0)], [draw(0), draw(0)]] {
            let many = sides.iter().filter(|side| **side == draw(0)).count();
            let values = draws(&[lset(0, &over(op, &sides)), trace(&draw(0))]);
            assert_eq!(values, [wide(SEEDS[many])]);
        }
    }
}

#[test]
fn every_action_with_an_expression_draws() {
    for action in [
        hold(&draw(1)),
        prio(&draw(1)),
        set(0, &draw(1)),
        lset(0, &draw(1)),
        trace(&draw(1)),
    ] {
        let bytes = one_process(&[var(0), sampler(0, 9, 5), sampler(4, 7, 1)], &[&[action]]);
        let model = decode(&bytes).expect("a sound model");
        let mut state = State::fresh(&model);
        state.run(&model, 1, ROOM);
        assert_eq!(state.seeds, [5, SEEDS[0]]);
    }
    // 7 is what is drawn: the time, the priority and the value.
    let bytes = processes(
        &[sampler(4, 7, 1)],
        &[(0, &[hold(&draw(0)), trace(&clock())])],
    );
    assert_eq!(traced(&bytes), [7]);
    let bytes = processes(
        &[sampler(4, 7, 1)],
        &[
            (0, &[prio(&lit(6)), hold(&lit(1)), trace(&lit(1))]),
            (0, &[prio(&draw(0)), hold(&lit(1)), trace(&lit(2))]),
            (0, &[prio(&lit(8)), hold(&lit(1)), trace(&lit(3))]),
        ],
    );
    assert_eq!(traced(&bytes), [3, 2, 1]);
}

#[test]
fn jobs_that_share_a_sampler_draw_in_the_order_of_their_steps() {
    let [first, second, third, fourth, ..] = SEEDS.map(wide);
    let body = [trace(&draw(0)), hold(&lit(2)), trace(&draw(0))];
    let bytes = processes(&[sampler(0, 999_999, 1)], &[(1, &body), (0, &body)]);
    // The second enters first: at 0, 1, 2 and 3 they draw in turn.
    assert_eq!(traced(&bytes), [first, second, third, fourth]);
}

#[test]
fn a_fault_puts_the_seeds_back() {
    // One draw is made and kept; the step after it draws, and faults.
    let kept = lset(0, &draw(0));
    let most = lit(i32::MAX);
    for (action, number) in [
        (trace(&over(3, &[draw(0), most.clone()])), 21),
        // Both are drawn before and behind the node that leaves the range.
        (trace(&over(6, &[over(3, &[draw(0), most]), draw(0)])), 21),
        (hold(&over(9, &[draw(0)])), 22),
        (hold(&over(3, &[draw(0), lit(2_000_000_000)])), 23),
    ] {
        let bytes = one_process(&[sampler(1, 9, 1)], &[&[kept.clone(), action]]);
        let model = decode(&bytes).expect("a sound model");
        let mut state = State::fresh(&model);
        let outcome = state.run(&model, 99, ROOM);
        assert_eq!((outcome.answer, outcome.steps), (Answer::Fault(number), 1));
        assert_eq!(state.seeds, [SEEDS[0]]);
        assert_eq!(state.step(&model), Err(number));
        assert_eq!(state.seeds, [SEEDS[0]]);
    }
}

#[test]
fn thirty_puts_the_seeds_back_and_the_same_is_drawn_again() {
    let bytes = one_process(&[sampler(0, 999_999, 1)], &[&vec![trace(&draw(0)); 4]]);
    let model = decode(&bytes).expect("a sound model");
    let whole = State::fresh(&model).run(&model, 99, ROOM);
    assert_eq!(
        traced(&bytes),
        SEEDS[..4].iter().map(|s| wide(*s)).collect::<Vec<_>>()
    );
    let mut state = State::fresh(&model);
    let mut journal = Vec::new();
    for drawn in 0..4 {
        let none = state.run(&model, 99, LINE_BYTES - 1);
        assert_eq!((none.answer, none.steps), (Answer::Fault(JOURNAL), 0));
        assert_eq!(
            state.seeds[0],
            if drawn == 0 { 1 } else { SEEDS[drawn - 1] }
        );
        let one = state.run(&model, 99, LINE_BYTES);
        assert_eq!((one.answer, one.steps), (Answer::Fault(JOURNAL), 1));
        assert_eq!(state.seeds[0], SEEDS[drawn]);
        journal.extend(one.journal);
    }
    journal.extend(state.run(&model, 99, ROOM).journal);
    assert_eq!(journal, whole.journal);
}
