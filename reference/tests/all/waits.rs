//! Why a job waits: the value of a blocked line.

use crate::build::*;
use reference::journal::{lines, LINE_BYTES};
use reference::run::Answer;

const ROOM: usize = 1_000 * LINE_BYTES;

/// The journal of a run to its end, as (time, process, kind, value).
fn journal(bytes: &[u8]) -> Vec<(u32, u32, u16, i32)> {
    let outcome = reference::run(bytes, 10_000, ROOM).expect("a sound model");
    assert_eq!(outcome.answer, Answer::Idle);
    lines(&outcome.journal)
        .map(|line| (line.time, line.process, line.kind, line.value))
        .collect()
}

/// Who is blocked and why, in order, as (process, value).
fn waits(bytes: &[u8]) -> Vec<(u32, i32)> {
    let blocked = journal(bytes)
        .into_iter()
        .filter(|(_, _, kind, _)| *kind == 3);
    blocked
        .map(|(_, process, _, value)| (process, value))
        .collect()
}

/// What the second process is told at 1, if it is blocked; the first is blocked from 0 with bins 0 and 1, of which 0
/// is there and 1 is not. Bin 2 is there, bin 3 is not; the variable is 0; all blocks named must be 2.
fn told(priority: i32, claims: Vec<u8>) -> Option<i32> {
    let bytes = processes(
        &[bin(9), bin(0), bin(9), bin(0), var(0)],
        &[
            (0, &[req(&[get_b(0, 1), get_b(1, 1)])]),
            (1, &[prio(&lit(priority)), claims]),
        ],
    );
    let waits = waits(&[bytes, block()].concat());
    assert_eq!(waits[0], (1, 2));
    assert!(waits.len() <= 2);
    waits.get(1).map(|(process, value)| {
        assert_eq!(*process, 2);
        *value
    })
}

#[test]
fn the_example_s_second_line_ends_in_1() {
    let body = [req(&[get_r(0, 1)]), hold(&lit(3)), putr(0, 1)];
    let head = [res(1), class(0), entity(0, 0), entity(0, 0), block()];
    let bytes = model(&[&head[..], &body].concat());
    assert_eq!(
        journal(&bytes),
        [
            (0, 1, 4, 0),
            (0, 2, 3, 1),
            (3, 1, 2, 0),
            (3, 1, 5, 0),
            (3, 2, 4, 0),
            (6, 2, 2, 0),
            (6, 2, 5, 0)
        ]
    );
}

#[test]
fn the_value_is_an_i32_of_the_line() {
    let whole = [req(&[get_b(0, 1), get_b(1, 1)])];
    let bytes = processes(
        &[bin(1), bin(0)],
        &[(0, &whole), (0, &[req(&[get_b(0, 1)])])],
    );
    let outcome = reference::run(&bytes, 10, ROOM).expect("a sound model");
    assert_eq!(outcome.journal.len(), 2 * LINE_BYTES);
    assert_eq!(outcome.journal[12..16], [2, 0, 0, 0]);
    assert_eq!(outcome.journal[28..32], [255; 4]);
}

#[test]
fn each_item_of_four_conditions_counted() {
    let holds = condition(3, 0, 0);
    let fails = condition(3, 0, 1);
    let lacks = get_b(3, 1);
    assert_eq!(told(0, req(&[lacks])), Some(1));
    assert_eq!(told(0, req(&[holds, lacks])), Some(2));
    assert_eq!(told(0, req(&[holds, get_b(2, 9), lacks])), Some(3));
    assert_eq!(told(0, req(&[holds, get_b(2, 9), holds, lacks])), Some(4));
    // A condition that fails is a lacking item as any other.
    assert_eq!(told(0, req(&[fails])), Some(1));
    assert_eq!(told(0, req(&[get_b(2, 1), fails])), Some(2));
    assert_eq!(told(0, req(&[get_b(2, 1), holds, fails])), Some(3));
    assert_eq!(told(0, req(&[holds, holds, holds, fails])), Some(4));
    assert_eq!(told(0, req(&[holds, holds, holds, holds])), None);
    assert_eq!(told(0, req(&[])), None);
}

#[test]
fn the_first_lacking_and_not_the_last() {
    let fails = condition(3, 0, 1);
    assert_eq!(told(0, req(&[get_b(3, 1), fails])), Some(1));
    assert_eq!(told(0, req(&[fails, get_b(3, 1)])), Some(1));
    assert_eq!(
        told(0, req(&[get_b(2, 1), fails, fails, get_b(3, 1)])),
        Some(2)
    );
    assert_eq!(told(0, req(&[get_b(2, 10), get_b(3, 1)])), Some(1));
}

/// A slave, if it is there, and at 1 one who claims of each kind of item, the four turned by `turn`.
fn four_kinds(lacking: [bool; 4], turn: usize) -> Vec<u8> {
    let [resource, variable, bin_amount, slaves] = lacking.map(|lacks| !lacks);
    let mut items = [get_r(0, 1), condition(6, 0, 0), get_b(0, 1), get_s(0, 1)];
    items.rotate_left(turn);
    let declarations = [
        res(resource.into()),
        var(variable.into()),
        bin(bin_amount.into()),
        sync(),
    ];
    let slave = vec![become_slave(0); slaves.into()];
    let claimer = [req(&items), putr(0, 1), puts(0, 1)];
    processes(&declarations, &[(0, &slave), (1, &claimer)])
}

#[test]
fn every_kind_at_every_place_lacking_or_not() {
    for turn in 0..4 {
        for set in 0..16 {
            let lacking = [1, 2, 4, 8].map(|bit| set & bit != 0);
            let mut turned = lacking;
            turned.rotate_left(turn);
            let first = turned.iter().position(|lacks| *lacks);
            let expected: Vec<_> = first.map(|item| (2, item as i32 + 1)).into_iter().collect();
            assert_eq!(waits(&four_kinds(lacking, turn)), expected);
        }
    }
}

#[test]
fn barred_is_said_though_something_is_lacking() {
    // Bin 0 is there: barred alone. Bin 1, ten of bin 0, or the condition is lacking besides.
    assert_eq!(told(0, req(&[get_b(0, 1)])), Some(-1));
    assert_eq!(told(0, req(&[get_b(1, 1)])), Some(-1));
    assert_eq!(told(0, req(&[get_b(0, 10)])), Some(-1));
    assert_eq!(told(0, req(&[condition(3, 0, 1), get_b(0, 1)])), Some(-1));
    assert_eq!(told(-1, req(&[get_b(1, 1)])), Some(-1));
    // Of higher priority it isn't barred, and is told what is lacking.
    assert_eq!(told(1, req(&[get_b(0, 1)])), None);
    assert_eq!(told(1, req(&[get_b(1, 1)])), Some(1));
    assert_eq!(told(1, req(&[get_b(0, 1), condition(3, 0, 1)])), Some(2));
    // The same names, more than they, or none: not barred.
    assert_eq!(told(0, req(&[get_b(0, 1), get_b(1, 1)])), Some(2));
    assert_eq!(
        told(0, req(&[get_b(0, 1), get_b(2, 1), get_b(3, 1)])),
        Some(3)
    );
    assert_eq!(told(0, req(&[condition(3, 0, 1)])), Some(1));
}

#[test]
fn a_try_is_told_of_its_first_branch() {
    let second: &[Item] = &[get_b(2, 1), get_b(3, 1)];
    let first: &[Item] = &[get_b(3, 1)];
    let third: &[Item] = &[get_b(2, 1), condition(3, 0, 0), condition(3, 0, 1)];
    assert_eq!(told(0, try_branches(&[(2, first)])), Some(1));
    assert_eq!(told(0, try_branches(&[(2, second), (2, first)])), Some(2));
    assert_eq!(told(0, try_branches(&[(2, first), (2, second)])), Some(1));
    let all: [(u16, &[Item]); 4] = [(2, third), (2, second), (2, first), (2, second)];
    assert_eq!(told(0, try_branches(&all)), Some(3));
    // Lacking in the first is said only where no other branch can be met.
    let met: &[Item] = &[get_b(2, 1)];
    assert_eq!(
        told(0, try_branches(&[(2, second), (2, first), (2, met)])),
        None
    );
}

#[test]
fn a_try_is_barred_only_in_every_branch() {
    let there: &[Item] = &[get_b(0, 1)];
    let lacking: &[Item] = &[get_b(1, 1)];
    let free: &[Item] = &[condition(3, 0, 0), get_b(3, 1)];
    assert_eq!(told(0, try_branches(&[(2, lacking), (2, there)])), Some(-1));
    assert_eq!(
        told(0, try_branches(&[(2, lacking), (2, lacking)])),
        Some(-1)
    );
    // The first branch alone would be barred; as the other isn't, its lacking item is said.
    assert_eq!(told(0, try_branches(&[(2, lacking), (2, free)])), Some(1));
    assert_eq!(told(0, try_branches(&[(2, free), (2, lacking)])), Some(2));
}

#[test]
fn a_while_that_passes_on_writes_nothing() {
    // Barred alone, barred and lacking, lacking alone by a bin and by a condition.
    for item in [get_b(0, 1), get_b(1, 1), get_b(2, 1), condition(3, 0, 1)] {
        let bytes = processes(
            &[bin(1), bin(0), bin(0), var(0)],
            &[
                (0, &[req(&[get_b(0, 1), get_b(1, 1)])]),
                (1, &[while_met(2, &[item]), trace(&lit(7))]),
            ],
        );
        assert_eq!(
            journal(&[bytes, block()].concat()),
            [(0, 1, 3, 2), (1, 2, 9, 7), (1, 2, 2, 0)]
        );
    }
}

#[test]
fn a_walk_says_nothing_of_those_who_stay_blocked() {
    // The returned bin and the SET change what the first lacks, and the second stays barred; the slave changes neither.
    let bytes = processes(
        &[bin(0), bin(0), var(0), sync()],
        &[
            (0, &[req(&[get_b(0, 1), condition(3, 0, 1), get_b(1, 1)])]),
            (0, &[req(&[get_b(1, 1)])]),
            (1, &[putb(0, 1), hold(&lit(1)), set(0, &lit(1))]),
            (3, &[become_slave(0)]),
            (4, &[req(&[get_b(0, 1), condition(3, 0, 1), get_b(1, 1)])]),
        ],
    );
    assert_eq!(
        journal(&bytes),
        [
            (0, 1, 3, 1),
            (0, 2, 3, -1),
            (1, 3, 6, 0),
            (2, 3, 2, 0),
            (3, 4, 7, 0),
            // One who comes with the first one's claim is told what that one lacks by now.
            (4, 5, 3, 3)
        ]
    );
}

#[test]
fn who_blocks_again_is_told_why_it_does_then() {
    let bytes = processes(
        &[bin(0), bin(0)],
        &[
            (0, &[do_rounds(3, 2)]),
            (1, &[putb(0, 2), putb(1, 1), hold(&lit(1)), putb(1, 1)]),
        ],
    );
    let bytes = [bytes, block(), req(&[get_b(0, 1), get_b(1, 1)])].concat();
    assert_eq!(waits(&bytes), [(1, 1), (1, 2), (1, 1)]);
}
