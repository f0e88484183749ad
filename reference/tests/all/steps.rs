//! Single rules of the step: claims and barring, walks, slaves, START, lists, expressions, and calls in a row.

use crate::build::*;
use reference::journal::{lines, LINE_BYTES};
use reference::model::decode;
use reference::run::{Answer, Entered, State};

const ROOM: usize = 1_000 * LINE_BYTES;

/// The journal of a run to its end, as (time, process, kind, value).
fn journal(bytes: &[u8]) -> Vec<(u32, u32, u16, i32)> {
    let outcome = reference::run(bytes, 10_000, ROOM).expect("a sound model");
    assert_eq!(outcome.answer, Answer::Idle);
    lines(&outcome.journal)
        .map(|line| (line.time, line.process, line.kind, line.value))
        .collect()
}

/// Only the values traced, in order.
fn traced(bytes: &[u8]) -> Vec<i32> {
    journal(bytes)
        .into_iter()
        .filter(|(_, _, kind, _)| *kind == 9)
        .map(|(_, _, _, value)| value)
        .collect()
}

/// Who is blocked and who is granted, in order, as (time, process, kind).
fn claims(bytes: &[u8]) -> Vec<(u32, u32, u16)> {
    let kept = journal(bytes)
        .into_iter()
        .filter(|(_, _, kind, _)| matches!(*kind, 3 | 4));
    kept.map(|(time, process, kind, _)| (time, process, kind))
        .collect()
}

#[test]
fn lines_are_16_bytes() {
    let outcome = reference::run(
        &one_process(&[], &[&[hold(&lit(258)), trace(&lit(-2))]]),
        2,
        ROOM,
    );
    let bytes = outcome.expect("a sound model").journal;
    assert_eq!(
        bytes,
        [14, 0, 9, 0, 2, 1, 0, 0, 1, 0, 0, 0, 254, 255, 255, 255]
    );
}

#[test]
fn expressions() {
    let value = |expression: &[Node]| {
        traced(&one_process(
            &[var(7)],
            &[&[hold(&lit(5)), trace(expression)]],
        ))[0]
    };
    assert_eq!(value(&lit(i32::MIN)), i32::MIN);
    assert_eq!(value(&global(0)), 7);
    assert_eq!(value(&local(3)), 0);
    assert_eq!(value(&over(3, &[lit(2), lit(3)])), 5);
    assert_eq!(value(&over(4, &[lit(2), lit(3)])), -1);
    assert_eq!(value(&over(5, &[lit(-2), lit(3)])), -6);
    assert_eq!(value(&over(6, &[lit(2), lit(3)])), 2);
    assert_eq!(value(&over(7, &[lit(2), lit(3)])), 3);
    assert_eq!(value(&clock()), 5);
    assert_eq!(value(&over(9, &[lit(2)])), -2);
    // Prefix order: (7 - 2) x (1 - 5).
    let nested = over(
        5,
        &[over(4, &[global(0), lit(2)]), over(4, &[lit(1), clock()])],
    );
    assert_eq!(value(&nested), -20);
}

#[test]
fn locals_are_each_process_s_own_and_variables_are_shared() {
    let add_one = |node: Vec<Node>| over(3, &[node, lit(1)]);
    let body = [
        lset(2, &add_one(local(2))),
        set(0, &add_one(global(0))),
        trace(&local(2)),
        trace(&global(0)),
    ];
    let bytes = model(
        &[
            &[var(0), class(0), entity(0, 0), entity(0, 0), block()][..],
            &body,
        ]
        .concat(),
    );
    assert_eq!(traced(&bytes), [1, 1, 1, 2]);
}

#[test]
fn event_list_order() {
    // Earlier first; at one time higher priority first; behind equals, so HOLD 0 lets equals go first.
    let at = |priority: i32, time: i32, value: i32| {
        [prio(&lit(priority)), hold(&lit(time)), trace(&lit(value))]
    };
    let (a, b, c, d) = (at(0, 4, 1), at(5, 4, 2), at(0, 4, 3), at(-5, 3, 4));
    assert_eq!(
        traced(&processes(&[], &[(0, &a), (0, &b), (0, &c), (0, &d)])),
        [4, 2, 1, 3]
    );
    let zero = [trace(&lit(1)), hold(&lit(0)), trace(&lit(2))];
    assert_eq!(
        traced(&processes(&[], &[(0, &zero), (0, &zero)])),
        [1, 1, 2, 2]
    );
}

#[test]
fn the_floor_is_kept_against_higher_priority() {
    // The freed process has the higher priority, yet the one on the floor goes on until it holds.
    let bytes = processes(
        &[var(0)],
        &[
            (
                0,
                &[prio(&lit(9)), req(&[condition(3, 0, 1)]), trace(&lit(1))],
            ),
            (
                1,
                &[
                    set(0, &lit(1)),
                    trace(&lit(2)),
                    prio(&lit(-9)),
                    trace(&lit(3)),
                    hold(&lit(0)),
                    trace(&lit(4)),
                ],
            ),
        ],
    );
    assert_eq!(traced(&bytes), [2, 3, 1, 4]);
}

#[test]
fn blocks_and_rounds() {
    let bytes = one_process(
        &[],
        &[
            &[do_rounds(2, 1), trace(&lit(9))],
            &[trace(&lit(1)), do_rounds(2, 2), do_rounds(0, 2)],
            &[trace(&lit(2))],
        ],
    );
    assert_eq!(traced(&bytes), [1, 2, 2, 1, 2, 2, 9]);
    let outcome = reference::run(&bytes, 1_000, ROOM).expect("a sound model");
    // This run has no branch and no wait, so it takes exactly its bound.
    assert_eq!(
        reference::bound(&bytes),
        Ok(reference::bound::Bound::Number(outcome.steps))
    );
}

#[test]
fn while_is_met_again_until_it_is_not() {
    let bytes = one_process(
        &[bin(3)],
        &[
            &[while_met(1, &[get_b(0, 1)]), trace(&lit(9))],
            &[trace(&lit(1))],
        ],
    );
    assert_eq!(
        journal(&bytes),
        [
            (0, 1, 4, 0),
            (0, 1, 9, 1),
            (0, 1, 4, 0),
            (0, 1, 9, 1),
            (0, 1, 4, 0),
            (0, 1, 9, 1),
            (0, 1, 9, 9),
            (0, 1, 2, 0)
        ]
    );
    // 3 rounds of WHILE, TRACE and leaving; WHILE not met, TRACE, end.
    assert_eq!(
        reference::run(&bytes, 1_000, ROOM)
            .expect("a sound model")
            .steps,
        12
    );
}

#[test]
fn while_barred_passes_on() {
    // The second waits for both bins, so a WHILE for one of them passes on, though it could be met.
    let waiter = [req(&[get_b(0, 1), get_b(1, 1)])];
    let loops = |priority: i32| {
        processes(
            &[bin(2), bin(0)],
            &[
                (0, &waiter),
                (1, &[prio(&lit(priority)), while_met(2, &[get_b(0, 1)])]),
            ],
        )
    };
    let with_block = |bytes: Vec<u8>| [bytes, block()].concat();
    assert_eq!(claims(&with_block(loops(0))), [(0, 1, 3)]);
    assert_eq!(claims(&with_block(loops(-1))), [(0, 1, 3)]);
    assert_eq!(
        claims(&with_block(loops(1))),
        [(0, 1, 3), (1, 2, 4), (1, 2, 4)]
    );
}

#[test]
fn try_takes_the_first_branch_that_can_be_met() {
    let bytes = one_process(
        &[res(1), bin(1)],
        &[
            &[
                try_branches(&[
                    (1, &[get_r(0, 2)]),
                    (2, &[get_r(0, 1), get_b(0, 1)]),
                    (3, &[]),
                ]),
                try_branches(&[(1, &[get_r(0, 1)]), (2, &[get_b(0, 1)]), (3, &[])]),
                putr(0, 1),
            ],
            &[trace(&lit(1))],
            &[trace(&lit(2))],
            &[trace(&lit(3))],
        ],
    );
    let found: Vec<_> = journal(&bytes)
        .into_iter()
        .map(|(_, _, kind, value)| (kind, value))
        .collect();
    assert_eq!(found, [(4, 1), (9, 2), (4, 2), (9, 3), (2, 0), (5, 0)]);
}

#[test]
fn a_blocked_try_is_granted_its_branch_in_a_walk() {
    let bytes = processes(
        &[res(1), bin(0)],
        &[
            (
                0,
                &[
                    req(&[get_r(0, 1)]),
                    hold(&lit(2)),
                    putb(0, 1),
                    hold(&lit(1)),
                    putr(0, 1),
                ],
            ),
            (
                1,
                &[
                    try_branches(&[(2, &[get_r(0, 1)]), (3, &[get_b(0, 1)])]),
                    trace(&lit(9)),
                ],
            ),
        ],
    );
    let bytes = [
        bytes,
        block(),
        trace(&lit(1)),
        putr(0, 1),
        block(),
        trace(&lit(2)),
    ]
    .concat();
    assert_eq!(
        journal(&bytes),
        [
            (0, 1, 4, 0),
            (1, 2, 3, 1),
            (2, 1, 6, 0),
            (2, 2, 4, 1),
            (2, 2, 9, 2),
            (2, 2, 9, 9),
            (2, 2, 2, 0),
            (3, 1, 2, 0),
            (3, 1, 5, 0)
        ]
    );
}

#[test]
fn conditions_hold_or_not() {
    let met = |relation: u8, value: i32| {
        let bytes = one_process(
            &[var(value)],
            &[&[while_met(1, &[condition(relation, 0, 5)])], &[close()]],
        );
        reference::run(&bytes, 100, ROOM)
            .expect("a sound model")
            .answer
            == Answer::Closed
    };
    let expected = [
        [true, false, false],
        [true, true, false],
        [false, true, false],
        [true, false, true],
        [false, true, true],
        [false, false, true],
    ];
    for (relation, row) in (1..).zip(expected) {
        assert_eq!([met(relation, 4), met(relation, 5), met(relation, 6)], row);
    }
}

#[test]
fn a_return_waits_for_all_others_at_that_instant() {
    // At 3 the giver gives back, and then the second claims before the notice is first: it blocks, although
    // its priority is the least there is.
    let bytes = processes(
        &[res(1)],
        &[
            (
                0,
                &[
                    req(&[get_r(0, 1)]),
                    hold(&lit(3)),
                    putr(0, 1),
                    hold(&lit(1)),
                ],
            ),
            (
                3,
                &[
                    prio(&lit(-20_000)),
                    hold(&lit(0)),
                    req(&[get_r(0, 1)]),
                    putr(0, 1),
                ],
            ),
        ],
    );
    assert_eq!(
        journal(&bytes),
        [
            (0, 1, 4, 0),
            (3, 2, 3, 1),
            (3, 1, 5, 0),
            (3, 2, 4, 0),
            (3, 2, 2, 0),
            (3, 2, 5, 0),
            (4, 1, 2, 0)
        ]
    );
}

#[test]
fn a_walk_goes_on_past_one_that_cannot_go() {
    // The first waits for one bin, the second for another: other names, so no one is barred.
    let bytes = processes(
        &[bin(0), bin(0)],
        &[
            (0, &[req(&[get_b(0, 1)])]),
            (0, &[req(&[get_b(1, 1)])]),
            (1, &[putb(1, 1)]),
        ],
    );
    assert_eq!(claims(&bytes), [(0, 1, 3), (0, 2, 3), (1, 2, 4)]);
}

#[test]
fn a_walk_bars_only_by_those_still_blocked_ahead() {
    // Bin 1 comes in twos. The first takes bins 0 and 1; it no longer bars the second, which wants bin 1.
    let first = [req(&[get_b(0, 1), get_b(1, 1)])];
    let second = [req(&[get_b(1, 1)])];
    let giver = [putb(1, 2)];
    let granted = processes(&[bin(1), bin(0)], &[(0, &first), (0, &second), (1, &giver)]);
    assert_eq!(
        claims(&granted),
        [(0, 1, 3), (0, 2, 3), (1, 1, 4), (1, 2, 4)]
    );
    // With bin 0 empty the first is still blocked ahead and bars the second.
    let barred = processes(&[bin(0), bin(0)], &[(0, &first), (0, &second), (1, &giver)]);
    assert_eq!(claims(&barred), [(0, 1, 3), (0, 2, 3)]);
    // One blocked behind bars no one in a walk.
    let behind = processes(&[bin(0), bin(0)], &[(0, &second), (0, &first), (1, &giver)]);
    assert_eq!(claims(&behind), [(0, 1, 3), (0, 2, 3), (1, 1, 4)]);
    // Higher priority stands ahead though it came later.
    let raised = [prio(&lit(1)), req(&[get_b(0, 1), get_b(1, 1)])];
    let ahead = processes(
        &[bin(0), bin(0)],
        &[(0, &second), (0, &raised), (1, &giver)],
    );
    assert_eq!(claims(&ahead), [(0, 1, 3), (0, 2, 3)]);
}

#[test]
fn a_newcomer_of_the_same_claim_and_equal_priority_is_barred_too() {
    let whole = [req(&[get_b(0, 1), get_b(1, 1)])];
    let part = [req(&[get_b(0, 1)])];
    let bytes = processes(&[bin(1), bin(0)], &[(0, &whole), (1, &part), (2, &part)]);
    assert_eq!(claims(&bytes), [(0, 1, 3), (1, 2, 3), (2, 3, 3)]);
}

#[test]
fn what_bars_on_the_floor() {
    // The first waits for bins 0 and 1, of which 0 is there; the second comes at 1 with these claims.
    let blocked_first = |branches: &[(u16, &[Item])]| {
        let whole: &[Item] = &[get_b(0, 1), get_b(1, 1)];
        let other: &[Item] = &[get_b(2, 1), condition(3, 0, 1)];
        let bytes = processes(
            &[bin(9), bin(0), var(0), bin(9)],
            &[
                (0, &[try_branches(&[(2, whole), (2, other)])]),
                (1, &[try_branches(branches)]),
            ],
        );
        claims(&[bytes, block()].concat())[1] == (1, 2, 3)
    };
    // A strict part is barred, with any amount and with conditions beside it.
    assert!(blocked_first(&[(2, &[get_b(0, 1)])]));
    assert!(blocked_first(&[(2, &[get_b(0, 9), condition(3, 0, 0)])]));
    // Bin 2 is no part of the first branch, and the whole of the second, with the same amount.
    assert!(!blocked_first(&[(2, &[get_b(2, 1)])]));
    // Something else beside it is no part.
    assert!(!blocked_first(&[(2, &[get_b(0, 1), get_b(2, 1)])]));
    // A branch that names nothing, or a free branch, frees all: the first that can be met is taken.
    assert!(!blocked_first(&[(2, &[])]));
    assert!(!blocked_first(&[(2, &[condition(3, 0, 0)])]));
    assert!(!blocked_first(&[(2, &[get_b(0, 1)]), (2, &[get_b(2, 1)])]));
    assert!(blocked_first(&[(2, &[get_b(0, 1)]), (2, &[get_b(1, 1)])]));
}

#[test]
fn one_blocked_process_must_bar_every_branch() {
    // One waits for bins 0 and 1, another for bins 2 and 1: neither bars both branches of the third.
    let bytes = processes(
        &[bin(9), bin(0), bin(9)],
        &[
            (0, &[req(&[get_b(0, 1), get_b(1, 1)])]),
            (0, &[req(&[get_b(2, 1), get_b(1, 1)])]),
            (
                1,
                &[try_branches(&[(3, &[get_b(0, 1)]), (3, &[get_b(2, 1)])])],
            ),
        ],
    );
    let bytes = [bytes, block()].concat();
    assert_eq!(claims(&bytes), [(0, 1, 3), (0, 2, 3), (1, 3, 4)]);
}

#[test]
fn names_are_kinds_with_numbers() {
    // Resource 0 is no part of bins 0 and 1.
    let bytes = processes(
        &[res(1), bin(9), bin(0)],
        &[
            (0, &[req(&[get_b(0, 1), get_b(1, 1)])]),
            (1, &[req(&[get_r(0, 1)]), putr(0, 1)]),
        ],
    );
    assert_eq!(claims(&bytes), [(0, 1, 3), (1, 2, 4)]);
}

#[test]
fn a_claim_above_the_total_waits_for_ever() {
    assert_eq!(
        journal(&one_process(&[res(1)], &[&[req(&[get_r(0, 2)])]])),
        [(0, 1, 3, 1)]
    );
}

#[test]
fn blocked_list_is_by_priority_behind_equals() {
    let waits = |priority: i32| [prio(&lit(priority)), req(&[get_b(0, 1)])];
    let (a, b, c) = (waits(0), waits(3), waits(0));
    let bytes = processes(
        &[bin(0)],
        &[
            (0, &a),
            (0, &b),
            (0, &c),
            (1, &[putb(0, 1), hold(&lit(1)), putb(0, 2)]),
        ],
    );
    assert_eq!(claims(&bytes)[3..], [(1, 2, 4), (2, 1, 4), (2, 3, 4)]);
}

#[test]
fn slaves_wait_by_priority_and_are_freed_in_the_order_claimed() {
    let slave =
        |priority: i32, value: i32| [prio(&lit(priority)), become_slave(0), trace(&lit(value))];
    let (a, b, c) = (slave(0, 1), slave(7, 2), slave(0, 3));
    // The master claims process 2 first, as it waits by priority, then 1, and later 3; it frees two, then one.
    let master = [
        req(&[get_s(0, 1)]),
        req(&[get_s(0, 2)]),
        puts(0, 2),
        trace(&lit(8)),
        hold(&lit(1)),
        puts(0, 1),
        trace(&lit(9)),
    ];
    let bytes = processes(&[sync()], &[(0, &a), (0, &b), (0, &c), (1, &master)]);
    assert_eq!(
        journal(&bytes),
        [
            (0, 1, 7, 0),
            (0, 2, 7, 0),
            (0, 3, 7, 0),
            (1, 4, 4, 0),
            (1, 4, 4, 0),
            (1, 2, 8, 0),
            (1, 1, 8, 0),
            (1, 4, 9, 8),
            (1, 2, 9, 2),
            (1, 2, 2, 0),
            (1, 1, 9, 1),
            (1, 1, 2, 0),
            (2, 3, 8, 0),
            (2, 4, 9, 9),
            (2, 4, 2, 0),
            (2, 3, 9, 3),
            (2, 3, 2, 0)
        ]
    );
}

#[test]
fn puts_frees_in_the_order_claimed_not_by_priority() {
    // Process 1 is claimed first, alone; process 2, of higher priority, comes later. PUTS 1 frees process 1.
    let slave = |priority: i32| [prio(&lit(priority)), become_slave(0)];
    let (low, high) = (slave(0), slave(7));
    let master = [
        req(&[get_s(0, 1)]),
        req(&[get_s(0, 1)]),
        puts(0, 1),
        hold(&lit(1)),
        puts(0, 1),
    ];
    let bytes = processes(&[sync()], &[(0, &low), (2, &high), (1, &master)]);
    let freed: Vec<_> = journal(&bytes)
        .into_iter()
        .filter(|(_, _, kind, _)| *kind == 8)
        .collect();
    assert_eq!(freed, [(2, 1, 8, 0), (3, 2, 8, 0)]);
}

#[test]
fn puts_takes_slaves_of_that_sync_alone() {
    let bytes = processes(
        &[sync(), sync()],
        &[
            (0, &[become_slave(0)]),
            (0, &[become_slave(1)]),
            (
                1,
                &[req(&[get_s(0, 1), get_s(1, 1)]), puts(1, 1), puts(0, 1)],
            ),
        ],
    );
    let freed: Vec<_> = journal(&bytes)
        .into_iter()
        .filter(|(_, _, kind, _)| *kind == 8)
        .collect();
    assert_eq!(freed, [(1, 2, 8, 1), (1, 1, 8, 0)]);
}

#[test]
fn become_walks_and_its_own_line_comes_first() {
    let bytes = processes(
        &[sync()],
        &[
            (0, &[req(&[get_s(0, 1)]), puts(0, 1)]),
            (1, &[become_slave(0)]),
        ],
    );
    assert_eq!(
        journal(&bytes),
        [
            (0, 1, 3, 1),
            (1, 2, 7, 0),
            (1, 1, 4, 0),
            (1, 2, 8, 0),
            (1, 1, 2, 0),
            (1, 2, 2, 0)
        ]
    );
}

#[test]
fn set_walks_and_lset_does_not() {
    let waits = [req(&[condition(5, 0, 1)])];
    let bytes = processes(
        &[var(0)],
        &[
            (0, &waits),
            (1, &[lset(0, &lit(1)), hold(&lit(1)), set(0, &lit(1))]),
        ],
    );
    assert_eq!(claims(&bytes), [(0, 1, 3), (2, 1, 4)]);
}

#[test]
fn start_hands_over() {
    // The new process holds 2 of the 3, starts at clock + 4 with priority 0 and locals 0, and gives back.
    let bytes = model(&[
        res(3),
        class(0),
        class(1),
        entity(0, 1),
        block(),
        prio(&lit(5)),
        lset(0, &lit(8)),
        req(&[get_r(0, 3)]),
        start(1, 4, &[(0, 2)]),
        putr(0, 1),
        block(),
        trace(&local(0)),
        putr(0, 2),
    ]);
    assert_eq!(
        journal(&bytes),
        [
            (1, 1, 4, 0),
            (1, 2, 1, 1),
            (1, 1, 2, 0),
            (1, 1, 5, 0),
            (5, 2, 9, 0),
            (5, 2, 2, 0),
            (5, 2, 5, 0)
        ]
    );
    let decoded = decode(&bytes).expect("a sound model");
    let mut state = State::fresh(&decoded);
    state.run(&decoded, 4, ROOM);
    let [Some(starter), Some(started)] = &state.places[..2] else {
        panic!("two live")
    };
    assert_eq!(
        (&starter.held[..], starter.priority, starter.locals[0]),
        (&[1][..], 5, 8)
    );
    assert_eq!(
        (&started.held[..], started.priority, started.locals[0]),
        (&[2][..], 0, 0)
    );
    assert_eq!((started.number, state.floor), (2, Some(0)));
    assert_eq!(
        (state.event_list[0].time, state.event_list[0].entered),
        (5, Entered::Process(1))
    );
}

#[test]
fn a_new_process_takes_the_lowest_free_place() {
    let bytes = model(&[
        class(0),
        class(1),
        entity(0, 0),
        entity(0, 0),
        entity(1, 1),
        block(),
        block(),
        start(1, 1, &[]),
        start(1, 1, &[]),
    ]);
    let decoded = decode(&bytes).expect("a sound model");
    let mut state = State::fresh(&decoded);
    // Processes 1 and 2 end, process 3 starts 4 and 5 in their places, ends, and 4 starts 6 in its place.
    state.run(&decoded, 4, ROOM);
    let numbers =
        |state: &State| -> Vec<u32> { state.places.iter().flatten().map(|p| p.number).collect() };
    assert_eq!(numbers(&state), [4, 5, 3]);
    state.run(&decoded, 2, ROOM);
    assert_eq!(numbers(&state), [4, 5, 6]);
    assert_eq!(state.last_given, 6);
}

#[test]
fn limit_comes_after_closed_and_idle() {
    let ending = one_process(&[], &[&[]]);
    let closing = one_process(&[], &[&[close()]]);
    let answer = |bytes: &[u8], limit: u32| {
        let outcome = reference::run(bytes, limit, ROOM).expect("a sound model");
        (outcome.answer, outcome.steps)
    };
    assert_eq!(answer(&[], 0), (Answer::Idle, 0));
    assert_eq!(answer(&ending, 0), (Answer::Limit, 0));
    assert_eq!(answer(&ending, 1), (Answer::Idle, 1));
    assert_eq!(answer(&closing, 0), (Answer::Limit, 0));
    assert_eq!(answer(&closing, 1), (Answer::Closed, 1));
    // An ended run answers the same again, with no step.
    let decoded = decode(&closing).expect("a sound model");
    let mut state = State::fresh(&decoded);
    assert_eq!(state.run(&decoded, 5, ROOM).answer, Answer::Closed);
    let again = state.run(&decoded, 0, ROOM);
    assert_eq!((again.answer, again.steps), (Answer::Closed, 0));
}

#[test]
fn a_blocked_or_waiting_process_alone_is_idle() {
    assert_eq!(
        journal(&one_process(&[sync()], &[&[become_slave(0)]])),
        [(0, 1, 7, 0)]
    );
}

#[test]
fn calls_in_a_row_equal_one_long_call() {
    let bytes = processes(
        &[res(2), bin(0), sync(), var(0)],
        &[
            (0, &[do_rounds(3, 4), become_slave(0)]),
            (0, &[do_rounds(3, 4), set(0, &lit(1))]),
            (2, &[req(&[get_s(0, 1)]), hold(&lit(2)), puts(0, 1)]),
            (
                0,
                &[
                    prio(&lit(3)),
                    req(&[condition(3, 0, 1)]),
                    trace(&clock()),
                    close(),
                ],
            ),
        ],
    );
    let bytes = [
        bytes,
        block(),
        req(&[get_r(0, 2)]),
        hold(&lit(2)),
        putr(0, 2),
    ]
    .concat();
    let decoded = decode(&bytes).expect("a sound model");
    let mut whole = State::fresh(&decoded);
    let long = whole.run(&decoded, u32::MAX, ROOM);
    assert_eq!(long.answer, Answer::Closed);
    for limit in 1..=long.steps {
        let mut state = State::fresh(&decoded);
        let (mut steps, mut journal) = (0, Vec::new());
        let answer = loop {
            let outcome = state.run(&decoded, limit, ROOM);
            steps += outcome.steps;
            journal.extend(outcome.journal);
            if outcome.answer != Answer::Limit {
                break outcome.answer;
            }
            assert_eq!(outcome.steps, limit);
        };
        assert_eq!(
            (answer, steps, &journal, &state),
            (long.answer, long.steps, &long.journal, &whole)
        );
    }
}
