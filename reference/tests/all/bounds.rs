//! The bound: weights, NONE, OVER, and the exact edge of OVER.

use crate::build::*;
use reference::bound;
use reference::bound::Bound::{self, None, Number, Over};

fn of(bytes: &[u8]) -> Bound {
    bound(bytes).expect("a sound model")
}

#[test]
fn refused_models_have_no_bound() {
    assert!(bound(&[1]).is_err());
}

#[test]
fn own_weights() {
    assert_eq!(of(&[]), Number(0));
    // A class weighs its body plus 1, and only entities count.
    assert_eq!(of(&model(&[class(0), block(), close()])), Number(0));
    let declarations = [res(1), bin(1), sync(), var(1)];
    let weight = |action: Vec<u8>| match of(&one_process(&declarations, &[&[action], &[close()]])) {
        Number(number) => number - 1,
        other => panic!("{other:?}"),
    };
    for action in [
        hold(&lit(1)),
        prio(&lit(1)),
        trace(&lit(1)),
        set(0, &lit(1)),
        lset(0, &lit(1)),
        close(),
    ] {
        assert_eq!(weight(action), 1);
    }
    assert_eq!(weight(puts(0, 64)), 1);
    assert_eq!(weight(become_slave(0)), 1);
    assert_eq!(weight(req(&[get_r(0, 1)])), 1);
    assert_eq!(weight(putr(0, 1)), 2);
    assert_eq!(weight(putb(0, 1)), 2);
    assert_eq!(weight(do_rounds(0, 1)), 1);
    assert_eq!(weight(do_rounds(7, 1)), 1 + 7 * 2);
    assert_eq!(weight(try_branches(&[(1, &[])])), 3);
}

#[test]
fn try_takes_its_largest_branch_and_start_adds_its_class() {
    let bytes = model(&[
        class(0),
        class(2),
        entity(0, 0),
        entity(0, 5),
        entity(1, 0),
        block(),
        try_branches(&[(1, &[]), (2, &[]), (1, &[])]),
        start(1, 0, &[]),
        block(),
        close(),
        block(),
        close(),
        close(),
    ]);
    // TRY 1 + 3, START 1 + 3, class 0 is 9; class 1 is 3.
    assert_eq!(of(&bytes), Number(9 + 9 + 3));
}

#[test]
fn none() {
    // A WHILE anywhere, even where no class reaches it and no entity is.
    assert_eq!(of(&model(&[block(), while_met(1, &[]), block()])), None);
    let started = |body: u16| {
        of(&model(&[
            class(0),
            class(body),
            block(),
            block(),
            start(1, 0, &[]),
            block(),
        ]))
    };
    assert_eq!(started(0), None);
    assert_eq!(started(1), None);
    assert_eq!(started(2), Number(0));
    // NONE comes before OVER.
    let endless = [do_rounds(65_535, 1), while_met(1, &[])];
    let doubled = [do_rounds(65_535, 2)];
    assert_eq!(
        of(&one_process(&[], &[&endless, &doubled, &[close()]])),
        None
    );
}

#[test]
fn over_is_exact() {
    // 1 + 65,535 x (1 + 65,534 + 1) + 1 + n + 1 = 4,294,901,763 + n.
    let with_rounds = |n: u16| {
        let body = [do_rounds(65_535, 1), do_rounds(n, 2)];
        of(&one_process(&[], &[&body, &[do_rounds(65_534, 2)], &[]]))
    };
    assert_eq!(with_rounds(0), Number(4_294_901_763));
    assert_eq!(with_rounds(65_532), Number(u32::MAX));
    assert_eq!(with_rounds(65_533), Over);
}

#[test]
fn huge_weights_stop_and_zero_rounds_drop_them() {
    // Six DO of 65,535 rounds inside each other weigh more than the greatest u64.
    let blocks = |first: Vec<Vec<u8>>| {
        let mut records = vec![class(0), entity(0, 0), block()];
        records.extend(first);
        for next in 2..8 {
            records.extend([block(), do_rounds(65_535, next)]);
        }
        records.push(block());
        model(&records)
    };
    assert_eq!(of(&blocks(vec![do_rounds(65_535, 1)])), Over);
    assert_eq!(of(&blocks(vec![do_rounds(1, 1), close()])), Over);
    assert_eq!(of(&blocks(vec![do_rounds(0, 1), close()])), Number(3));
}

#[test]
fn each_block_is_measured_once() {
    // Each class starts the next twice: 2 to the power of 63 visits if measured anew.
    let mut records: Vec<Vec<u8>> = (0..64).map(class).collect();
    records.push(entity(0, 0));
    for number in 0..64 {
        records.push(block());
        if number < 63 {
            records.extend([start(number + 1, 0, &[]), start(number + 1, 0, &[])]);
        }
    }
    assert_eq!(of(&model(&records)), Over);
}
