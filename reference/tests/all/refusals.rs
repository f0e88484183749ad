//! Checks 1 to 10: each refusal, its byte place, and the order of the checks.

use crate::build::*;
use reference::check;
use reference::model::Refusal;

fn refused(records: &[Vec<u8>], number: u16, index: usize) {
    let found = check(&model(records));
    assert_eq!(
        found,
        Err(Refusal {
            number,
            place: place(records, index)
        })
    );
}

fn passes(records: &[Vec<u8>]) {
    assert_eq!(check(&model(records)), Ok(()));
}

/// A model with one thing of each kind and this action in block 0; block 1 is empty.
fn with_action(action: Vec<u8>) -> Vec<Vec<u8>> {
    vec![
        res(1),
        bin(1),
        sync(),
        var(0),
        sampler(4, 7, 1),
        class(0),
        block(),
        action,
        block(),
    ]
}

fn action_refused(action: Vec<u8>, number: u16) {
    refused(&with_action(action), number, 7);
}

fn action_passes(action: Vec<u8>) {
    passes(&with_action(action));
}

#[test]
fn too_many_bytes_come_first() {
    assert_eq!(
        check(&vec![0; 65_536]),
        Err(Refusal {
            number: 4,
            place: 0
        })
    );
    // 65,535 bytes of nothing sound are SHORT, as their first length is 0.
    assert_eq!(
        check(&vec![0; 65_535]),
        Err(Refusal {
            number: 1,
            place: 0
        })
    );
}

#[test]
fn short() {
    assert_eq!(check(&[]), Ok(()));
    assert_eq!(
        check(&[2]),
        Err(Refusal {
            number: 1,
            place: 0
        })
    );
    assert_eq!(
        check(&[2, 0]),
        Err(Refusal {
            number: 1,
            place: 0
        })
    );
    assert_eq!(
        check(&[2, 0, 6]),
        Err(Refusal {
            number: 1,
            place: 0
        })
    );
    assert_eq!(
        check(&[1, 0, 6]),
        Err(Refusal {
            number: 1,
            place: 0
        })
    );
    assert_eq!(
        check(&[1, 0, 6, 0]),
        Err(Refusal {
            number: 1,
            place: 0
        })
    );
    assert_eq!(check(&[2, 0, 6, 0]), Ok(()));
    refused(&[res(1), sync(), vec![3]], 1, 2);
    // The record's bytes end before its length does, though the kind is unknown as well.
    refused(&[sync(), vec![9, 0, 99, 0, 1]], 1, 1);
}

#[test]
fn kind() {
    for kind in [0, 9, 15, 31, 256 + 6, 256 + 8, 65_535] {
        refused(&[sync(), record(kind, &[])], 2, 1);
    }
    // KIND comes before SIZE.
    refused(&[record(9, &[1, 2, 3])], 2, 0);
}

#[test]
fn declaration_after_a_block_or_action_before_any() {
    for declaration in [
        res(1),
        bin(1),
        sync(),
        var(1),
        class(0),
        entity(0, 0),
        sampler(4, 7, 1),
    ] {
        refused(&[block(), declaration], 3, 1);
    }
    for action in [
        hold(&lit(1)),
        prio(&lit(1)),
        do_rounds(1, 1),
        close(),
        trace(&lit(1)),
        start(0, 0, &[]),
    ] {
        refused(&[action], 3, 0);
    }
    // PLACE comes before SIZE and VALUE.
    refused(&[block(), record(1, &[])], 3, 1);
    refused(&[block(), record(8, &[])], 3, 1);
    refused(&[block(), sampler(4, 7, 0)], 3, 1);
    refused(&[record(30, &[1])], 3, 0);
}

#[test]
fn one_more_than_a_limit() {
    for declaration in [res(1), bin(1), sync(), var(1)] {
        let mut records = vec![declaration.clone(); 32];
        passes(&records);
        records.push(declaration);
        refused(&records, 4, 32);
    }
    let mut records = vec![sampler(4, 7, 1); 16];
    passes(&records);
    records.push(sampler(7, 4, 0));
    refused(&records, 4, 16);
    let mut records = vec![class(0); 64];
    records.push(block());
    passes(&records);
    records.insert(0, class(0));
    refused(&records, 4, 64);
    let mut records = vec![class(0)];
    records.extend(vec![entity(0, 0); 64]);
    records.push(block());
    passes(&records);
    records.insert(1, entity(0, 0));
    refused(&records, 4, 65);
    let mut records = vec![block(); 256];
    passes(&records);
    records.push(block());
    refused(&records, 4, 256);
    // Actions of all kinds and blocks share the limit of 1,024.
    let mut records = vec![block()];
    records.extend(vec![close(); 1_000]);
    records.push(block());
    records.extend(vec![hold(&lit(1)); 24]);
    passes(&records);
    records.push(trace(&lit(1)));
    refused(&records, 4, 1_026);
    // MANY comes before SIZE.
    let mut records = vec![sync(); 32];
    records.push(record(3, &[1]));
    refused(&records, 4, 32);
}

#[test]
fn size() {
    let last_cut = |bytes: Vec<u8>| {
        record(
            u16::from_le_bytes([bytes[2], bytes[3]]),
            &bytes[4..bytes.len() - 1],
        )
    };
    let one_over = |bytes: Vec<u8>| {
        record(
            u16::from_le_bytes([bytes[2], bytes[3]]),
            &[&bytes[4..], &[0][..]].concat(),
        )
    };
    for declaration in [
        res(1),
        bin(1),
        var(1),
        class(0),
        entity(0, 0),
        sampler(4, 7, 1),
    ] {
        refused(&[last_cut(declaration.clone())], 5, 0);
        refused(&[one_over(declaration)], 5, 0);
    }
    refused(&[one_over(sync())], 5, 0);
    refused(&[one_over(block())], 5, 0);
    for action in [
        hold(&lit(1)),
        prio(&lit(1)),
        trace(&lit(1)),
        set(0, &lit(1)),
        lset(0, &lit(1)),
        do_rounds(1, 1),
        putr(0, 1),
        putb(0, 1),
        puts(0, 1),
        become_slave(0),
        req(&[get_r(0, 1)]),
        req(&[]),
        try_branches(&[(1, &[get_r(0, 1)]), (1, &[])]),
        while_met(1, &[get_r(0, 1)]),
        start(0, 0, &[(0, 1)]),
        start(0, 0, &[]),
    ] {
        action_passes(action.clone());
        action_refused(last_cut(action.clone()), 5);
        action_refused(one_over(action), 5);
    }
    action_refused(one_over(close()), 5);
}

#[test]
fn size_of_expressions() {
    // No node, a tree cut short, a node too many.
    action_refused(hold(&[]), 5);
    action_refused(set(0, &[]), 5);
    action_refused(hold(&over(3, &[lit(1)])), 5);
    action_refused(hold(&over(9, &[])), 5);
    action_refused(hold(&[lit(1), lit(1)].concat()), 5);
    action_passes(hold(&over(3, &[lit(1), over(9, &[clock()])])));
    // 16 nodes pass, 17 do not.
    let negations = |count: usize| [vec![(9, 0); count - 1], lit(1)].concat();
    action_passes(hold(&negations(16)));
    action_refused(hold(&negations(17)), 5);
    // An unknown op is a leaf: alone it is VALUE, with a node below it SIZE.
    action_refused(hold(&[(11, 0)]), 6);
    action_refused(hold(&[(11, 0), (0, 1)]), 5);
    action_refused(hold(&over(3, &[vec![(11, 0)], lit(1)])), 6);
    // A draw is a leaf.
    action_passes(hold(&draw(0)));
    action_passes(hold(&over(3, &[draw(0), over(9, &[draw(0)])])));
    action_refused(hold(&[draw(0), lit(1)].concat()), 5);
    action_refused(hold(&over(3, &[draw(0)])), 5);
}

#[test]
fn size_reads_counts_as_written() {
    let five = vec![get_r(0, 1); 5];
    action_refused(req(&five), 6);
    let branch: (u16, &[Item]) = (1, &[]);
    action_refused(try_branches(&[]), 6);
    action_refused(try_branches(&[branch; 5]), 6);
    action_passes(try_branches(&[branch; 4]));
    action_refused(start(0, 0, &[(0, 1); 5]), 6);
    // The count says five, four items follow.
    action_refused(
        record(25, &[&[5, 0][..], &claim(&five[..4])[2..]].concat()),
        5,
    );
}

#[test]
fn value() {
    passes(&[
        res(0),
        res(1_000_000),
        bin(0),
        bin(1_000_000),
        var(i32::MIN),
    ]);
    refused(&[res(1_000_001)], 6, 0);
    refused(&[bin(1_000_001)], 6, 0);
    passes(&[class(0), entity(0, 1_000_000), block()]);
    refused(&[class(0), entity(0, 1_000_001), block()], 6, 1);
    for amount in [0, 1_000_001, u32::MAX] {
        action_refused(putr(0, amount), 6);
        action_refused(putb(0, amount), 6);
        action_refused(start(0, 0, &[(0, amount)]), 6);
    }
    action_refused(puts(0, 0), 6);
    action_passes(puts(0, 64));
    action_refused(puts(0, 65), 6);
    action_passes(start(0, 1_000_000, &[]));
    action_refused(start(0, 1_000_001, &[]), 6);
    // Ops 3 to 9 carry operand 0.
    action_refused(hold(&[(8, 1)]), 6);
    action_refused(hold(&[(3, 1), (0, 1), (0, 1)]), 6);
    action_refused(trace(&[(9, -1), (0, 1)]), 6);
}

#[test]
fn value_of_samplers() {
    let last = 2_147_483_646;
    for (lowest, highest) in [
        (4, 7),
        (5, 5),
        (0, 1_000_000),
        (-500_000, 500_000),
        (i32::MIN, i32::MIN + 1_000_000),
        (i32::MAX - 1_000_000, i32::MAX),
    ] {
        for seed in [1, 2, last] {
            passes(&[sampler(lowest, highest, seed)]);
        }
        for seed in [0, last + 1, last + 2, u32::MAX] {
            refused(&[sync(), sampler(lowest, highest, seed)], 6, 1);
        }
    }
    for (lowest, highest) in [
        (7, 6),
        (0, 1_000_001),
        (-500_001, 500_000),
        (1, i32::MIN),
        (i32::MIN, i32::MAX),
        (i32::MAX, i32::MIN),
        (-1, i32::MAX),
    ] {
        refused(&[sync(), sampler(lowest, highest, 1)], 6, 1);
    }
}

#[test]
fn value_of_items() {
    for kind in 0..3 {
        action_passes(req(&[(kind, 0, 0, 1_000_000)]));
        for item in [
            (kind, 0, 0, 0),
            (kind, 0, 0, -1),
            (kind, 0, 0, 1_000_001),
            (kind, 1, 0, 1),
        ] {
            action_refused(req(&[item]), 6);
            action_refused(while_met(1, &[item]), 6);
            action_refused(try_branches(&[(1, &[]), (1, &[item])]), 6);
        }
    }
    action_refused(req(&[(4, 0, 0, 1)]), 6);
    for relation in 1..=6 {
        action_passes(req(&[condition(relation, 0, i32::MIN)]));
    }
    action_refused(req(&[condition(0, 0, 1)]), 6);
    action_refused(req(&[condition(7, 0, 1)]), 6);
}

#[test]
fn twice() {
    action_refused(req(&[get_r(0, 1), get_r(0, 2)]), 7);
    action_refused(req(&[get_b(0, 1), get_r(0, 1), get_b(0, 1)]), 7);
    action_refused(while_met(1, &[get_s(0, 1), get_s(0, 1)]), 7);
    action_refused(
        try_branches(&[(1, &[]), (1, &[get_s(0, 1), get_s(0, 1)])]),
        7,
    );
    action_refused(start(0, 0, &[(0, 1), (0, 1)]), 7);
    // Conditions, other kinds of one number, and other branches are not twice.
    action_passes(req(&[condition(1, 0, 1), condition(1, 0, 1)]));
    action_passes(req(&[get_r(0, 1), get_b(0, 1), get_s(0, 1)]));
    action_passes(try_branches(&[(1, &[get_r(0, 1)]), (1, &[get_r(0, 1)])]));
    // TWICE comes before NAME, VALUE before TWICE.
    action_refused(req(&[get_r(9, 1), get_r(9, 1)]), 7);
    action_refused(req(&[get_r(0, 1), get_r(0, 0)]), 6);
}

#[test]
fn name() {
    refused(&[class(0)], 8, 0);
    refused(&[class(1), block()], 8, 0);
    refused(&[entity(0, 0)], 8, 0);
    for action in [
        set(1, &lit(1)),
        set(0, &global(1)),
        hold(&global(-1)),
        hold(&local(-1)),
        hold(&local(8)),
        hold(&draw(1)),
        prio(&draw(16)),
        trace(&draw(-1)),
        set(0, &draw(i32::MIN)),
        lset(0, &draw(i32::MAX)),
        hold(&over(6, &[draw(0), draw(65_536)])),
        lset(8, &lit(1)),
        lset(0, &over(3, &[local(0), local(8)])),
        do_rounds(0, 2),
        putr(1, 1),
        putb(1, 1),
        puts(1, 1),
        become_slave(1),
        req(&[get_r(1, 1)]),
        req(&[get_b(1, 1)]),
        req(&[get_s(1, 1)]),
        req(&[condition(1, 1, 1)]),
        try_branches(&[(1, &[]), (2, &[])]),
        try_branches(&[(1, &[]), (1, &[get_r(1, 1)])]),
        while_met(2, &[]),
        while_met(1, &[get_s(1, 1)]),
        start(1, 0, &[]),
        start(0, 0, &[(1, 1)]),
    ] {
        action_refused(action, 8);
    }
    action_passes(lset(7, &local(7)));
    // The last of sixteen, and one more.
    let drawn = |number: i32| {
        [
            vec![sampler(4, 7, 1); 16],
            vec![block(), hold(&draw(number))],
        ]
        .concat()
    };
    passes(&drawn(15));
    refused(&drawn(16), 8, 17);
    // A later SIZE comes before an earlier NAME, as 8 begins when 1 to 7 all pass.
    refused(&[class(9), record(3, &[1])], 5, 1);
}

#[test]
fn order() {
    for named in [0, 1] {
        let records = |action: Vec<u8>| vec![class(0), block(), block(), action, block()];
        refused(&records(do_rounds(0, named)), 9, 3);
        refused(&records(while_met(named, &[])), 9, 3);
        refused(&records(try_branches(&[(2, &[]), (named, &[])])), 9, 3);
    }
    passes(&[class(0), block(), block(), do_rounds(1, 2), block()]);
    // In one record NAME comes before ORDER; over records, the earlier record decides.
    refused(&[block(), try_branches(&[(0, &[]), (5, &[])])], 8, 1);
    refused(&[block(), do_rounds(1, 0), do_rounds(1, 5)], 9, 1);
    refused(&[block(), do_rounds(1, 5), do_rounds(1, 0)], 8, 1);
}

#[test]
fn deep() {
    let chain = |classes: &[u16], blocks: u16| {
        let mut records: Vec<Vec<u8>> = classes.iter().map(|body| class(*body)).collect();
        for next in 1..=blocks {
            records.push(block());
            if next < blocks {
                // The kinds of naming change, and DO 0 nests as well.
                records.push(match next % 3 {
                    0 => do_rounds(0, next),
                    1 => try_branches(&[(next, &[])]),
                    _ => while_met(next, &[]),
                });
            }
        }
        records
    };
    passes(&chain(&[0], 8));
    refused(&chain(&[0], 9), 10, 0);
    passes(&chain(&[1], 9));
    // Only what a class reaches counts, and the first class that is too deep decides.
    refused(&chain(&[5, 4, 3], 13), 10, 1);
    passes(&chain(&[5], 13));
    // START does not nest.
    let records = [
        class(0),
        class(7),
        block(),
        start(1, 0, &[]),
        block(),
        block(),
        block(),
        block(),
        block(),
    ];
    passes(
        &[
            &records[..],
            &[block(), block(), do_rounds(1, 8), block()][..],
        ]
        .concat(),
    );
}

#[test]
fn order_of_checks_over_records() {
    // An earlier record's higher number comes before a later record's lower number among 1 to 7.
    refused(&[res(1_000_001), record(99, &[])], 6, 0);
    // Among 8 and 9 likewise; DEEP comes last of all.
    let mut records = vec![class(0)];
    for next in 1..=9 {
        records.extend([block(), do_rounds(1, next)]);
    }
    records.push(block());
    refused(&records, 10, 0);
    records.push(do_rounds(1, 0));
    let last = records.len() - 1;
    refused(&records, 9, last);
}
