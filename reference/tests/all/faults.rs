//! Faults 21 to 30: each one, the lowest first, and that a fault undoes its step.

use crate::build::*;
use reference::journal::LINE_BYTES;
use reference::model::decode;
use reference::run::{Answer, State, JOURNAL};

const ROOM: usize = 10_000 * LINE_BYTES;

/// The run faults with this number after these steps, its state is the one before the step, and it faults again.
fn faults(bytes: &[u8], number: u16, steps: u32) {
    let model = decode(bytes).expect("a sound model");
    let mut state = State::fresh(&model);
    let outcome = state.run(&model, u32::MAX, ROOM);
    assert_eq!(
        (outcome.answer, outcome.steps),
        (Answer::Fault(number), steps)
    );
    let mut before = State::fresh(&model);
    let stopped = before.run(&model, steps, ROOM);
    assert_eq!((stopped.answer, stopped.steps), (Answer::Limit, steps));
    assert_eq!((&state, outcome.journal), (&before, stopped.journal));
    assert_eq!(state.step(&model), Err(number));
    let again = state.run(&model, 1, ROOM);
    assert_eq!(
        (again.answer, again.steps, again.journal.len()),
        (Answer::Fault(number), 0, 0)
    );
    assert_eq!(state, before);
}

fn body_faults(declarations: &[Vec<u8>], body: &[Vec<u8>], number: u16, steps: u32) {
    faults(&one_process(declarations, &[body]), number, steps);
}

#[test]
fn sum() {
    let most = || lit(i32::MAX);
    let least = || lit(i32::MIN);
    let too_much = [
        over(3, &[most(), lit(1)]),
        over(4, &[least(), lit(1)]),
        over(5, &[most(), lit(2)]),
        over(5, &[least(), least()]),
        over(9, &[least()]),
        // A node inside leaves the range, though the whole would not.
        over(4, &[over(3, &[most(), lit(1)]), lit(1)]),
        over(6, &[lit(0), over(9, &[least()])]),
    ];
    for expression in &too_much {
        for action in [
            hold(expression),
            prio(expression),
            trace(expression),
            set(0, expression),
            lset(0, expression),
        ] {
            body_faults(&[var(0)], &[hold(&lit(1)), action], 21, 1);
        }
    }
}

#[test]
fn back() {
    body_faults(&[], &[hold(&lit(7)), hold(&lit(-1))], 22, 1);
    body_faults(&[], &[hold(&lit(i32::MIN))], 22, 0);
}

#[test]
fn late() {
    let last = 2_000_000_000;
    body_faults(
        &[],
        &[hold(&lit(last)), hold(&lit(0)), hold(&lit(1))],
        23,
        2,
    );
    body_faults(&[], &[hold(&lit(last)), hold(&lit(i32::MAX))], 23, 1);
    body_faults(
        &[],
        &[hold(&lit(last - 9)), start(0, 9, &[]), start(0, 10, &[])],
        23,
        2,
    );
}

#[test]
fn held() {
    body_faults(&[res(3)], &[putr(0, 1)], 24, 0);
    body_faults(
        &[res(3)],
        &[req(&[get_r(0, 2)]), putr(0, 1), putr(0, 2)],
        24,
        2,
    );
    body_faults(
        &[res(3), res(3)],
        &[req(&[get_r(0, 2)]), start(0, 0, &[(0, 2), (1, 1)])],
        24,
        1,
    );
    body_faults(
        &[res(3)],
        &[req(&[get_r(0, 2)]), start(0, 0, &[(0, 3)])],
        24,
        1,
    );
}

#[test]
fn owned() {
    let master = |count: u16| [hold(&lit(1)), req(&[get_s(0, 2)]), puts(0, count)];
    let slave = [become_slave(0)];
    // Two slaves wait, two are claimed, three are to be freed; or one of another sync.
    let bytes = processes(
        &[sync(), sync()],
        &[(0, &slave), (0, &slave), (0, &master(3))],
    );
    faults(&bytes, 25, 4);
    let other = [hold(&lit(1)), req(&[get_s(0, 2)]), puts(1, 1)];
    faults(
        &processes(&[sync(), sync()], &[(0, &slave), (0, &slave), (0, &other)]),
        25,
        4,
    );
    body_faults(&[sync()], &[puts(0, 1)], 25, 0);
}

#[test]
fn owing() {
    body_faults(&[res(2)], &[req(&[get_r(0, 2)]), putr(0, 1)], 26, 2);
    faults(
        &processes(
            &[sync()],
            &[(0, &[become_slave(0)]), (1, &[req(&[get_s(0, 1)])])],
        ),
        26,
        2,
    );
}

#[test]
fn full() {
    // 62 hold, then the first starts two more, and there is no place for a third.
    let mut records = vec![class(0)];
    records.extend(vec![entity(0, 0); 62]);
    records.extend([
        block(),
        hold(&lit(1)),
        start(0, 0, &[]),
        start(0, 0, &[]),
        start(0, 0, &[]),
    ]);
    faults(&model(&records), 27, 62 + 2);
    // A blocked process and a slave live as well.
    let mut records = vec![sync(), class(0), class(1)];
    records.extend(vec![entity(0, 0); 63]);
    records.extend([entity(1, 1), block(), become_slave(0), block()]);
    records.extend([req(&[get_s(0, 60)]), start(0, 0, &[])]);
    faults(&model(&records), 27, 63 + 1);
}

#[test]
fn full_when_the_last_number_was_given() {
    let bytes = one_process(&[], &[&[start(0, 1, &[])]]);
    let model = decode(&bytes).expect("a sound model");
    let mut state = State::fresh(&model);
    state.last_given = 2_147_483_646;
    let (mut after, lines) = state.step(&model).expect("one number is left");
    assert_eq!(
        (after.last_given, lines[0].process),
        (2_147_483_647, 2_147_483_647)
    );
    let before = after.step(&model).expect("the first ends").0;
    after = before.clone();
    let outcome = after.run(&model, 9, ROOM);
    assert_eq!((outcome.answer, outcome.steps), (Answer::Fault(27), 0));
    assert_eq!(after, before);
}

#[test]
fn bin_passes_its_limit_when_the_notice_adds() {
    // 999 more than the start amount of 1,000,000 fill the bin to 1,000,000,000; one more is too much.
    let rounds = [do_rounds(999, 1), putb(0, 1), hold(&lit(1))];
    let inner = [putb(0, 1_000_000), hold(&lit(1))];
    let bytes = one_process(&[bin(1_000_000)], &[&rounds, &inner]);
    // DO, 999 rounds of PUTB, its notice, HOLD and the round; then PUTB and HOLD, and the notice faults.
    faults(&bytes, 28, 1 + 999 * 4 + 2);
    let filled = one_process(&[bin(1_000_000)], &[&rounds[..1], &inner]);
    assert_eq!(
        reference::run(&filled, u32::MAX, ROOM)
            .expect("a sound model")
            .answer,
        Answer::Idle
    );
}

#[test]
fn notices() {
    let puts = |count: usize| vec![putb(0, 1); count];
    body_faults(&[bin(0)], &puts(65), 29, 64);
    let bytes = one_process(&[bin(0)], &[&puts(64)]);
    assert_eq!(
        reference::run(&bytes, u32::MAX, ROOM)
            .expect("a sound model")
            .answer,
        Answer::Idle
    );
    // Both kinds of return count together.
    let mut body = vec![req(&[get_r(0, 2)]), putr(0, 1)];
    body.extend(puts(63));
    body.push(putr(0, 1));
    body_faults(&[bin(0), res(2)], &body, 29, 65);
}

#[test]
fn the_lowest_number_is_given() {
    // 64 live: FULL alone, HELD before FULL, LATE before both.
    let crowd = |body: &[Vec<u8>]| {
        let mut records = vec![res(1), class(0), class(1)];
        records.extend(vec![entity(0, 1_000_000); 63]);
        records.extend([
            entity(1, 0),
            block(),
            hold(&lit(2_000_000_000 - 1_000_000)),
            block(),
        ]);
        records.extend_from_slice(body);
        model(&records)
    };
    faults(&crowd(&[start(1, 0, &[])]), 27, 0);
    faults(&crowd(&[start(1, 0, &[(0, 1)])]), 24, 0);
    let late = [hold(&lit(2_000_000_000)), start(1, 1, &[(0, 1)])];
    // The others hold up to the same time but enter later, and so come later.
    faults(&crowd(&late), 23, 1 + 63);
    // HELD before NOTICES.
    let mut body = vec![putb(0, 1); 64];
    body.push(putr(0, 1));
    body_faults(&[bin(0), res(1)], &body, 24, 64);
    // Ending with a resource, with no room for the line: OWING, not JOURNAL.
    let bytes = one_process(&[res(1)], &[&[req(&[get_r(0, 1)])]]);
    let outcome = reference::run(&bytes, 9, LINE_BYTES).expect("a sound model");
    assert_eq!((outcome.answer, outcome.steps), (Answer::Fault(26), 1));
}

#[test]
fn journal_room() {
    let bytes = one_process(&[], &[&[trace(&lit(1)), lset(0, &lit(1)), trace(&lit(2))]]);
    let found = |room: usize| {
        let outcome = reference::run(&bytes, 99, room).expect("a sound model");
        (outcome.answer, outcome.steps, outcome.journal.len())
    };
    for room in [0, 15] {
        assert_eq!(found(room), (Answer::Fault(JOURNAL), 0, 0));
    }
    // A step without lines wants no room.
    for room in [16, 31] {
        assert_eq!(found(room), (Answer::Fault(JOURNAL), 2, 16));
    }
    assert_eq!(found(47), (Answer::Fault(JOURNAL), 3, 32));
    assert_eq!(found(48), (Answer::Idle, 4, 48));
}

#[test]
fn limit_comes_before_a_step_without_room() {
    let bytes = one_process(&[], &[&[trace(&lit(1))]]);
    let outcome = reference::run(&bytes, 0, 0).expect("a sound model");
    assert_eq!((outcome.answer, outcome.steps), (Answer::Limit, 0));
}

#[test]
fn thirty_writes_nothing_of_its_step_and_is_no_end() {
    // The notice's step writes three lines: the return and two grants.
    let waiter = [req(&[get_b(0, 1)])];
    let bytes = processes(
        &[bin(0)],
        &[
            (0, &waiter),
            (0, &waiter),
            (1, &[putb(0, 2), hold(&lit(9))]),
        ],
    );
    let model = decode(&bytes).expect("a sound model");
    let mut state = State::fresh(&model);
    // Two lines are written by the waiters, two more have room: the step of three lines does not fit.
    let outcome = state.run(&model, 99, 4 * LINE_BYTES);
    assert_eq!((outcome.answer, outcome.steps), (Answer::Fault(JOURNAL), 4));
    assert_eq!(outcome.journal.len(), 2 * LINE_BYTES);
    let mut before = State::fresh(&model);
    before.run(&model, 4, ROOM);
    assert_eq!(state, before);
    let rest = state.run(&model, 99, ROOM);
    assert_eq!(rest.answer, Answer::Idle);
    let mut whole = State::fresh(&model);
    let long = whole.run(&model, 99, ROOM);
    assert_eq!(
        (
            outcome.steps + rest.steps,
            [outcome.journal, rest.journal].concat()
        ),
        (long.steps, long.journal)
    );
    assert_eq!(state, whole);
}

#[test]
fn refused_models_do_not_run() {
    let refusal = reference::run(&[1], 9, ROOM).expect_err("one byte is SHORT");
    assert_eq!((refusal.number, refusal.place), (1, 0));
}
