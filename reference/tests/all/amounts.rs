//! Small claims behind large ones: barring where both name the same things.

use crate::build::*;
use reference::journal::{lines, LINE_BYTES};
use reference::model;
use reference::run::{covers, Answer, Covered};

const ROOM: usize = 1_000 * LINE_BYTES;

/// The answer of a run and its journal, as (time, process, kind, value).
fn run(bytes: &[u8]) -> (Answer, Vec<(u32, u32, u16, i32)>) {
    let outcome = reference::run(bytes, 10_000, ROOM).expect("a sound model");
    let lines = lines(&outcome.journal)
        .map(|line| (line.time, line.process, line.kind, line.value))
        .collect();
    (outcome.answer, lines)
}

/// The journal of a run to its end.
fn journal(bytes: &[u8]) -> Vec<(u32, u32, u16, i32)> {
    let (answer, lines) = run(bytes);
    assert_eq!(answer, Answer::Idle);
    lines
}

/// A REQ of one branch or a TRY of several, all of block 2.
fn claims(branches: &[&[Item]]) -> Vec<u8> {
    match branches {
        [claim] => req(claim),
        _ => {
            let branches: Vec<(u16, &[Item])> = branches.iter().map(|claim| (2, *claim)).collect();
            try_branches(&branches)
        }
    }
}

/// A condition that never holds where variable 0 is 0.
fn never() -> Item {
    condition(3, 0, 1)
}

/// Whether one who comes at 1 with the branches `q` is barred by one who is blocked from 0 with the branches `b`. There
/// is plenty of bins 0 to 2, so `never` is put behind each branch of B, and Q, if it isn't barred, takes its first branch.
fn bars(b: &[&[Item]], q: &[&[Item]]) -> bool {
    let with_never: Vec<Vec<Item>> = b
        .iter()
        .map(|claim| [claim, &[never()][..]].concat())
        .collect();
    let with_never: Vec<&[Item]> = with_never.iter().map(|claim| &claim[..]).collect();
    let bytes = processes(
        &[bin(99), bin(99), bin(99), var(0)],
        &[(0, &[claims(&with_never)]), (1, &[claims(q)])],
    );
    let lines = journal(&[bytes, block()].concat());
    assert_eq!(lines[0], (0, 1, 3, with_never[0].len() as i32));
    let is_barred = lines[1..] == [(1, 2, 3, -1)];
    assert!(is_barred || lines[1..] == [(1, 2, 4, 0), (1, 2, 2, 0)]);
    is_barred
}

/// Three licences. Trailers of this priority come at 0, 1 and 2 and take one each, for 3 hours and again and again; the
/// feature comes at 2 and needs three. The day ends at 12.
fn day(priority: i32) -> Vec<u8> {
    model(&[
        res(3),
        class(0),
        class(1),
        class(2),
        entity(0, 0),
        entity(0, 1),
        entity(0, 2),
        entity(1, 2),
        entity(2, 12),
        block(),
        prio(&lit(priority)),
        do_rounds(9, 3),
        block(),
        req(&[get_r(0, 3)]),
        hold(&lit(2)),
        putr(0, 3),
        block(),
        close(),
        block(),
        req(&[get_r(0, 1)]),
        hold(&lit(3)),
        putr(0, 1),
    ])
}

#[test]
fn the_feature_starts_though_trailers_go_on_all_day() {
    let expected = [
        (0, 1, 4, 0),
        (1, 2, 4, 0),
        (2, 3, 4, 0),
        (2, 4, 3, 1),
        // Each trailer that gives its licence back is barred when it comes again, so the licences add up.
        (3, 1, 3, -1),
        (3, 1, 5, 0),
        (4, 2, 3, -1),
        (4, 2, 5, 0),
        (5, 3, 3, -1),
        (5, 3, 5, 0),
        (5, 4, 4, 0),
        (7, 4, 2, 0),
        (7, 4, 5, 0),
        (7, 1, 4, 0),
        (7, 2, 4, 0),
        (7, 3, 4, 0),
        // Trailers alone don't bar one another.
        (10, 1, 3, 1),
        (10, 2, 3, 1),
        (10, 3, 3, 1),
        (10, 1, 5, 0),
        (10, 1, 4, 0),
        (10, 2, 5, 0),
        (10, 2, 4, 0),
        (10, 3, 5, 0),
        (10, 3, 4, 0),
        (12, 5, 10, 0),
    ];
    assert_eq!(run(&day(0)), (Answer::Closed, expected.to_vec()));
}

#[test]
fn trailers_of_higher_priority_still_starve_the_feature() {
    let mut expected = vec![(0, 1, 4, 0), (1, 2, 4, 0), (2, 3, 4, 0), (2, 4, 3, 1)];
    for time in 3..12 {
        let trailer = time % 3 + 1;
        expected.extend([3, 5, 4].map(|kind| (time, trailer, kind, i32::from(kind == 3))));
    }
    expected.extend([(12, 1, 3, 1), (12, 5, 10, 0)]);
    assert_eq!(run(&day(1)), (Answer::Closed, expected));
}

#[test]
fn a_smaller_amount_is_barred_an_equal_or_larger_one_is_not() {
    let two: &[&[Item]] = &[&[get_b(0, 2)]];
    assert!(bars(two, &[&[get_b(0, 1)]]));
    assert!(!bars(two, &[&[get_b(0, 2)]]));
    assert!(!bars(two, &[&[get_b(0, 3)]]));
}

#[test]
fn of_several_amounts_none_larger_and_one_smaller() {
    // By thing, how much Q wants above B.
    let table = [
        ([0, 0, 0], false),
        ([-1, 0, 0], true),
        ([0, -1, 0], true),
        ([0, 0, -1], true),
        ([-3, -1, 0], true),
        ([-1, -2, -3], true),
        ([1, 0, 0], false),
        ([0, 1, 0], false),
        ([0, 0, 1], false),
        ([-1, 1, 0], false),
        ([1, -1, -1], false),
        ([-1, 1, -1], false),
        ([-1, -1, 1], false),
        ([2, 1, 3], false),
    ];
    let b = [get_b(0, 4), get_b(1, 40), get_b(2, 20)];
    let reversed = [b[2], b[1], b[0]];
    for (above, expected) in table {
        let mut q = b;
        for (item, above) in q.iter_mut().zip(above) {
            item.3 += above;
        }
        for _ in 0..3 {
            q.rotate_left(1);
            assert_eq!(bars(&[&b], &[&q]), expected, "{above:?}");
            assert_eq!(bars(&[&reversed], &[&q]), expected, "{above:?}");
        }
    }
}

#[test]
fn items_in_another_order() {
    let b: &[&[Item]] = &[&[get_b(0, 5), get_b(1, 1)]];
    // Compared place by place, the first would have a larger amount and the second would not.
    assert!(bars(b, &[&[get_b(1, 1), get_b(0, 4)]]));
    assert!(!bars(b, &[&[get_b(1, 2), get_b(0, 1)]]));
    // Equal claims.
    assert!(!bars(b, &[&[get_b(1, 1), get_b(0, 5)]]));
    // Conditions between them.
    let holds = condition(3, 0, 0);
    assert!(bars(b, &[&[holds, get_b(1, 1), holds, get_b(0, 4)]]));
    assert!(!bars(b, &[&[holds, get_b(1, 1), holds, get_b(0, 5)]]));
}

#[test]
fn a_strict_part_is_barred_with_any_amounts() {
    let whole: &[&[Item]] = &[&[get_b(0, 2), get_b(1, 2)]];
    for amount in [1, 2, 3, 99] {
        assert!(bars(whole, &[&[get_b(0, amount)]]));
        assert!(bars(whole, &[&[get_b(1, amount)]]));
        // More things than B's, or others, with any amounts are no part.
        assert!(!bars(
            whole,
            &[&[get_b(0, amount), get_b(1, 1), get_b(2, 1)]]
        ));
        assert!(!bars(whole, &[&[get_b(0, 1), get_b(2, amount)]]));
        assert!(!bars(whole, &[&[get_b(2, amount)]]));
    }
    let three: &[&[Item]] = &[&[get_b(0, 5), get_b(1, 5), get_b(2, 5)]];
    assert!(bars(three, &[&[get_b(2, 1), get_b(0, 9)]]));
}

#[test]
fn conditions_are_dropped() {
    let two: &[&[Item]] = &[&[get_b(0, 2)]];
    // The condition's amount is larger than that of B's condition, and then smaller: neither counts.
    assert!(bars(two, &[&[get_b(0, 1), condition(1, 0, 50)]]));
    assert!(bars(two, &[&[condition(1, 0, 50), get_b(0, 1)]]));
    assert!(!bars(two, &[&[get_b(0, 2), condition(6, 0, -50)]]));
    assert!(!bars(two, &[&[condition(6, 0, -50), get_b(0, 2)]]));
    // B's conditions stand first.
    let behind: &[&[Item]] = &[&[condition(1, 0, 50), condition(4, 0, 1), get_b(0, 2)]];
    assert!(bars(behind, &[&[get_b(0, 1)]]));
    assert!(!bars(behind, &[&[get_b(0, 2)]]));
    assert!(!bars(behind, &[&[condition(1, 0, 40), get_b(0, 2)]]));
}

#[test]
fn conditions_alone_are_never_barred_and_never_bar() {
    let holds = condition(1, 0, 50);
    let small: &[Item] = &[condition(1, 0, 1)];
    for b in [&[][..], &[holds], &[holds, holds]] {
        assert!(!bars(&[b], &[&[]]));
        assert!(!bars(&[b], &[small]));
        assert!(!bars(&[b], &[&[get_b(0, 1)]]));
    }
    for q in [&[][..], small, &[holds, holds]] {
        assert!(!bars(&[&[get_b(0, 2)]], &[q]));
        assert!(!bars(&[&[get_b(0, 2), get_b(1, 2)]], &[q]));
        // Nor is a TRY with such a branch.
        assert!(!bars(&[&[get_b(0, 2)]], &[&[get_b(0, 1)], q]));
        assert!(!bars(&[&[get_b(0, 2)]], &[q, &[get_b(0, 1)]]));
    }
}

#[test]
fn a_try_of_names_and_amounts_under_one_b() {
    let b: &[&[Item]] = &[&[get_b(0, 2), get_b(1, 1)]];
    let by_names: &[Item] = &[get_b(0, 9)];
    let by_amounts: &[Item] = &[get_b(1, 1), get_b(0, 1)];
    assert!(bars(b, &[by_names, by_amounts]));
    assert!(bars(b, &[by_amounts, by_names]));
    assert!(bars(b, &[by_amounts, by_names, by_amounts, by_names]));
    // One branch that is not covered frees all.
    let equal: &[Item] = &[get_b(0, 2), get_b(1, 1)];
    let mixed: &[Item] = &[get_b(0, 1), get_b(1, 2)];
    let other: &[Item] = &[get_b(2, 1)];
    for free in [equal, mixed, other] {
        assert!(!bars(b, &[by_names, by_amounts, free]));
        assert!(!bars(b, &[by_amounts, free, by_names]));
        assert!(!bars(b, &[free, by_names, by_amounts]));
    }
}

#[test]
fn a_b_of_two_branches_each_covering_another() {
    let b: &[&[Item]] = &[&[get_b(0, 2)], &[get_b(1, 2)]];
    assert!(bars(b, &[&[get_b(0, 1)], &[get_b(1, 1)]]));
    assert!(bars(b, &[&[get_b(1, 1)], &[get_b(0, 1)]]));
    assert!(bars(b, &[&[get_b(1, 1)]]));
    assert!(!bars(b, &[&[get_b(0, 1)], &[get_b(1, 2)]]));
    assert!(!bars(b, &[&[get_b(0, 2)], &[get_b(1, 1)]]));
    // One covers by its names, the other by its amounts.
    let b: &[&[Item]] = &[&[get_b(0, 1), get_b(1, 1)], &[get_b(2, 2)]];
    assert!(bars(b, &[&[get_b(2, 1)], &[get_b(0, 5)]]));
    // No branch of B's covers alone: the first is equal, the second has a smaller amount and a larger one.
    let b: &[&[Item]] = &[&[get_b(0, 2), get_b(1, 2)], &[get_b(0, 3), get_b(1, 1)]];
    assert!(!bars(b, &[&[get_b(0, 2), get_b(1, 2)]]));
    // Equal TRYs, with a branch that covers another: the largest isn't covered.
    let both: &[&[Item]] = &[&[get_b(0, 1)], &[get_b(0, 2)]];
    assert!(!bars(both, both));
}

#[test]
fn two_blocked_processes_do_not_share_the_branches() {
    // Each of the first two covers one branch of the third, by amounts and then one by names. The last two show that.
    let by_amounts: &[Item] = &[get_b(0, 2), never()];
    let by_names: &[Item] = &[get_b(0, 1), get_b(2, 1), never()];
    for first in [by_amounts, by_names] {
        let bytes = processes(
            &[bin(9), bin(9), bin(9), var(0)],
            &[
                (0, &[req(first)]),
                (0, &[req(&[get_b(1, 2), never()])]),
                (
                    1,
                    &[try_branches(&[(5, &[get_b(0, 1)]), (5, &[get_b(1, 1)])])],
                ),
                (2, &[req(&[get_b(0, 1)])]),
                (2, &[req(&[get_b(1, 1)])]),
            ],
        );
        assert_eq!(
            journal(&[bytes, block()].concat()),
            [
                (0, 1, 3, first.len() as i32),
                (0, 2, 3, 2),
                (1, 3, 4, 0),
                (1, 3, 2, 0),
                (2, 4, 3, -1),
                (2, 5, 3, -1)
            ]
        );
    }
}

#[test]
fn two_of_one_class_do_not_bar_one_another() {
    // Both stand at one TRY, whose first branch is covered by its second.
    let head = [bin(0), class(0), entity(0, 0), entity(0, 0), block()];
    let body = [
        try_branches(&[(1, &[get_b(0, 1)]), (1, &[get_b(0, 2)])]),
        block(),
    ];
    assert_eq!(
        journal(&model(&[&head[..], &body].concat())),
        [(0, 1, 3, 1), (0, 2, 3, 1)]
    );
}

#[test]
fn a_walk_passes_over_small_claims_while_a_large_one_is_blocked_ahead() {
    let bytes = processes(
        &[bin(0)],
        &[
            (0, &[req(&[get_b(0, 3)])]),
            (0, &[req(&[get_b(0, 2)])]),
            (0, &[req(&[get_b(0, 1)])]),
            (
                1,
                &[
                    putb(0, 2),
                    hold(&lit(1)),
                    putb(0, 2),
                    hold(&lit(1)),
                    putb(0, 2),
                ],
            ),
        ],
    );
    assert_eq!(
        journal(&bytes),
        [
            (0, 1, 3, 1),
            // Barred is said though there is nothing to take.
            (0, 2, 3, -1),
            (0, 3, 3, -1),
            // There are 2: enough for the second or the third, and they wait.
            (1, 4, 6, 0),
            // There are 4: the first takes 3. The second lacks one, and it bars the third.
            (2, 4, 6, 0),
            (2, 1, 4, 0),
            (2, 1, 2, 0),
            (3, 4, 2, 0),
            // There are 3: the second is granted, and no longer bars the third.
            (3, 4, 6, 0),
            (3, 2, 4, 0),
            (3, 3, 4, 0),
            (3, 2, 2, 0),
            (3, 3, 2, 0)
        ]
    );
}

#[test]
fn a_large_claim_behind_does_not_bar_a_small_one_ahead() {
    let small = |priority: i32| [prio(&lit(priority)), req(&[get_b(0, 1)])];
    let (equal, higher) = (small(0), small(1));
    let large = [req(&[get_b(0, 3)])];
    let giver = [putb(0, 1)];
    // Behind as it came later.
    let bytes = processes(&[bin(0)], &[(0, &equal), (0, &large), (1, &giver)]);
    assert_eq!(
        journal(&bytes),
        [
            (0, 1, 3, 1),
            (0, 2, 3, 1),
            (1, 3, 2, 0),
            (1, 3, 6, 0),
            (1, 1, 4, 0),
            (1, 1, 2, 0)
        ]
    );
    // Behind as its priority is lower, though it came first.
    let bytes = processes(&[bin(0)], &[(0, &large), (0, &higher), (1, &giver)]);
    assert_eq!(
        journal(&bytes),
        [
            (0, 1, 3, 1),
            (0, 2, 3, 1),
            (1, 3, 2, 0),
            (1, 3, 6, 0),
            (1, 2, 4, 0),
            (1, 2, 2, 0)
        ]
    );
}

#[test]
fn a_while_for_less_passes_on() {
    let loops = |priority: i32| {
        let body = [
            prio(&lit(priority)),
            while_met(2, &[get_b(0, 1)]),
            trace(&lit(7)),
        ];
        let bytes = processes(&[bin(2)], &[(0, &[req(&[get_b(0, 3)])]), (1, &body)]);
        journal(&[bytes, block()].concat())
    };
    let passed = [(0, 1, 3, 1), (1, 2, 9, 7), (1, 2, 2, 0)];
    assert_eq!(loops(0), passed);
    assert_eq!(loops(-1), passed);
    let granted = [
        (0, 1, 3, 1),
        (1, 2, 4, 0),
        (1, 2, 4, 0),
        (1, 2, 9, 7),
        (1, 2, 2, 0),
    ];
    assert_eq!(loops(1), granted);
}

#[test]
fn slaves_add_up_for_the_larger_claim() {
    let bytes = processes(
        &[sync()],
        &[
            (0, &[become_slave(0), become_slave(0)]),
            (3, &[become_slave(0)]),
            (0, &[req(&[get_s(0, 2)]), puts(0, 2)]),
            (1, &[req(&[get_s(0, 1)]), puts(0, 1)]),
        ],
    );
    assert_eq!(
        journal(&bytes),
        [
            (0, 1, 7, 0),
            (0, 3, 3, 1),
            // One slave waits, yet the claim of one waits too.
            (1, 4, 3, -1),
            (3, 2, 7, 0),
            (3, 3, 4, 0),
            (3, 1, 8, 0),
            (3, 2, 8, 0),
            (3, 3, 2, 0),
            // The first slave waits once more, and nobody is blocked ahead.
            (3, 1, 7, 0),
            (3, 4, 4, 0),
            (3, 2, 2, 0),
            (3, 1, 8, 0),
            (3, 4, 2, 0),
            (3, 1, 2, 0)
        ]
    );
}

#[test]
fn a_claim_above_the_total_bars_smaller_ones_for_ever() {
    let bytes = processes(
        &[res(2)],
        &[
            (0, &[req(&[get_r(0, 3)])]),
            (1, &[req(&[get_r(0, 1)]), putr(0, 1)]),
            (2, &[req(&[get_r(0, 3)])]),
            (3, &[req(&[get_r(0, 4)])]),
            (
                4,
                &[
                    prio(&lit(1)),
                    req(&[get_r(0, 2)]),
                    hold(&lit(1)),
                    putr(0, 2),
                ],
            ),
        ],
    );
    assert_eq!(
        journal(&bytes),
        [
            (0, 1, 3, 1),
            (1, 2, 3, -1),
            // An equal claim and a larger one aren't barred, but lack.
            (2, 3, 3, 1),
            (3, 4, 3, 1),
            // One of higher priority goes; its return helps nobody.
            (4, 5, 4, 0),
            (5, 5, 2, 0),
            (5, 5, 5, 0)
        ]
    );
}

/// A branch as the library has it.
fn branch(items: &[Item]) -> model::Claim {
    let items = items
        .iter()
        .map(|(kind, relation, number, amount)| model::Item {
            kind: *kind,
            relation: *relation,
            number: *number,
            amount: *amount,
        });
    items.collect()
}

#[test]
fn how_a_branch_covers() {
    let covered = |b: &[Item], q: &[Item]| covers(&branch(b), &branch(q));
    let b = [get_r(0, 2), get_b(0, 3), get_s(0, 4), get_s(31, 1)];
    let mut q = b;
    assert_eq!(covered(&b, &q), Covered::No);
    q.reverse();
    assert_eq!(covered(&b, &q), Covered::No);
    assert_eq!(covered(&b, &q[..3]), Covered::StrictPart);
    assert_eq!(covered(&b, &[get_s(0, 1_000_000)]), Covered::StrictPart);
    assert_eq!(covered(&b[..3], &q), Covered::No);
    assert_eq!(covered(&b, &[get_b(31, 1)]), Covered::No);
    // Each amount counts, whatever its kind, and things of one number and other kinds are not mixed up.
    for item in 1..4 {
        let mut smaller = q;
        smaller[item].3 -= 1;
        assert_eq!(covered(&b, &smaller), Covered::SmallerAmounts);
        assert_eq!(covered(&smaller, &b), Covered::No);
        smaller[0].3 += 1;
        assert_eq!(covered(&b, &smaller), Covered::No);
    }
    let holds = condition(5, 0, 0);
    assert_eq!(
        covered(&[holds, b[0]], &[get_r(0, 1)]),
        Covered::SmallerAmounts
    );
    assert_eq!(covered(&[holds, holds], &[holds]), Covered::No);
    let same = branch(&b);
    assert_eq!(covers(&same, &same), Covered::No);
}

#[test]
fn every_pair_of_branches_of_three_things() {
    // By thing, 0 where it isn't named.
    let all: Vec<[i32; 3]> = (0..64).map(|n| [n % 4, n / 4 % 4, n / 16]).collect();
    let items = |amounts: [i32; 3]| -> Vec<Item> {
        let [first, second, third] = amounts;
        let items = [get_r(0, first), get_b(0, second), get_b(1, third)];
        items.into_iter().filter(|item| item.3 > 0).collect()
    };
    let mut counts = [0; 3];
    for b in &all {
        for q in &all {
            let pairs = || b.iter().zip(q);
            let expected = if *q == [0; 3] || pairs().any(|(b, q)| *b == 0 && *q > 0) {
                Covered::No
            } else if pairs().any(|(b, q)| *b > 0 && *q == 0) {
                Covered::StrictPart
            } else if b != q && pairs().all(|(b, q)| q <= b) {
                Covered::SmallerAmounts
            } else {
                Covered::No
            };
            let mut turned = items(*q);
            turned.reverse();
            assert_eq!(covers(&branch(&items(*b)), &branch(&items(*q))), expected);
            assert_eq!(covers(&branch(&items(*b)), &branch(&turned)), expected);
            counts[expected as usize] += 1;
        }
    }
    // A named thing has 3 amounts. Strict parts: one thing of two in 6 ways, one of three in 3, two of three in 3. Of the 9
    // pairs of amounts of one thing 6 are not larger and 3 are equal.
    assert_eq!(
        counts[1..],
        [6 * 27 + 3 * 81 + 3 * 243, 3 * 3 + 3 * 27 + 189]
    );
}
