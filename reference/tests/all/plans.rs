//! The program `plan`: the example of 72 bytes, the twelve plans, and what it prints for each answer.

use crate::build::*;
use std::io::Write;
use std::process::{Command, Stdio};

/// What `plan` prints for this input.
fn plan(bytes: &[u8]) -> String {
    let mut program = Command::new(env!("CARGO_BIN_EXE_plan"))
        .stdin(Stdio::piped())
        .stdout(Stdio::piped())
        .spawn()
        .expect("plan starts");
    let mut input = program.stdin.take().expect("a pipe");
    // The program may stop reading before the end; what it prints is what counts.
    let _ = input.write_all(bytes);
    drop(input);
    let output = program.wait_with_output().expect("plan ends");
    assert!(output.status.success());
    String::from_utf8(output.stdout).expect("plain text")
}

fn prints(bytes: &[u8], lines: &[&str]) {
    assert_eq!(
        plan(bytes),
        lines
            .iter()
            .map(|line| format!("{line}\n"))
            .collect::<String>()
    );
}

#[test]
fn plan_1_empty_file() {
    prints(&[], &["idle 0 bound 0"]);
}

#[test]
fn plan_2_the_example_of_72_bytes() {
    let bytes = model(&[
        res(1),
        class(0),
        entity(0, 0),
        entity(0, 0),
        block(),
        req(&[get_r(0, 1)]),
        hold(&lit(3)),
        putr(0, 1),
    ]);
    assert_eq!(bytes.len(), 72);
    // The same bytes written by hand, so that the builder is not its own witness.
    let by_hand: [&[u8]; 8] = [
        &[6, 0, 1, 0, 1, 0, 0, 0],
        &[4, 0, 5, 0, 0, 0],
        &[8, 0, 7, 0, 0, 0, 0, 0, 0, 0],
        &[8, 0, 7, 0, 0, 0, 0, 0, 0, 0],
        &[2, 0, 6, 0],
        &[12, 0, 25, 0, 1, 0, 0, 0, 0, 0, 1, 0, 0, 0],
        &[8, 0, 16, 0, 0, 0, 3, 0, 0, 0],
        &[8, 0, 21, 0, 0, 0, 1, 0, 0, 0],
    ];
    assert_eq!(bytes, by_hand.concat());
    prints(
        &bytes,
        &[
            "0 1 4 0",
            "0 2 3 1",
            "3 1 2 0",
            "3 1 5 0",
            "3 2 4 0",
            "6 2 2 0",
            "6 2 5 0",
            "idle 10 bound 10",
        ],
    );
}

#[test]
fn plan_3_do_0() {
    prints(
        &one_process(&[], &[&[do_rounds(0, 1)], &[]]),
        &["0 1 2 0", "idle 2 bound 2"],
    );
}

#[test]
fn plan_4_do_3_of_an_empty_block() {
    prints(
        &one_process(&[], &[&[do_rounds(3, 1)], &[]]),
        &["0 1 2 0", "idle 5 bound 5"],
    );
}

#[test]
fn plan_5_hold_below_0() {
    prints(
        &one_process(&[], &[&[hold(&lit(-1))]]),
        &["fault 22 0 bound 2"],
    );
}

#[test]
fn plan_6_hold_to_the_last_time() {
    prints(
        &one_process(&[], &[&[hold(&lit(2_000_000_000))]]),
        &["2000000000 1 2 0", "idle 2 bound 2"],
    );
    prints(
        &one_process(&[], &[&[hold(&lit(2_000_000_001))]]),
        &["fault 23 0 bound 2"],
    );
}

/// X holds A from 0; Y waits for A and B from 1; Z claims B at 2, with this priority; A is returned at 5.
fn plan_7_to_9(priority: i32) -> Vec<u8> {
    processes(
        &[res(1), res(1)],
        &[
            (0, &[req(&[get_r(0, 1)]), hold(&lit(5)), putr(0, 1)]),
            (
                1,
                &[
                    req(&[get_r(0, 1), get_r(1, 1)]),
                    hold(&lit(5)),
                    putr(0, 1),
                    putr(1, 1),
                ],
            ),
            (
                2,
                &[
                    prio(&lit(priority)),
                    req(&[get_r(1, 1)]),
                    hold(&lit(1)),
                    putr(1, 1),
                ],
            ),
        ],
    )
}

#[test]
fn plans_7_and_9_a_claim_of_a_part_waits_and_the_whole_goes_first() {
    prints(
        &plan_7_to_9(0),
        &[
            "0 1 4 0",
            "1 2 3 1",
            "2 3 3 -1",
            "5 1 2 0",
            "5 1 5 0",
            "5 2 4 0",
            "10 2 2 0",
            "10 2 5 0",
            "10 2 5 1",
            "10 3 4 0",
            "11 3 2 0",
            "11 3 5 1",
            "idle 18 bound 18",
        ],
    );
}

#[test]
fn plan_8_higher_priority_is_not_barred() {
    prints(
        &plan_7_to_9(1),
        &[
            "0 1 4 0",
            "1 2 3 1",
            "2 3 4 0",
            "3 3 2 0",
            "3 3 5 1",
            "5 1 2 0",
            "5 1 5 0",
            "5 2 4 0",
            "10 2 2 0",
            "10 2 5 0",
            "10 2 5 1",
            "idle 18 bound 18",
        ],
    );
}

#[test]
fn plan_10_priority_floor() {
    // Two of priority -20,000 and -10,000 hold to one instant: equals, so in the order they entered.
    let lowest =
        |priority: i32, traced: i32| [prio(&lit(priority)), hold(&lit(1)), trace(&lit(traced))];
    let first = lowest(-20_000, 1);
    let second = lowest(-10_000, 2);
    let third = lowest(-9_999, 3);
    prints(
        &processes(&[], &[(0, &first), (0, &second), (0, &third)]),
        &[
            "1 3 9 3",
            "1 3 2 0",
            "1 1 9 1",
            "1 1 2 0",
            "1 2 9 2",
            "1 2 2 0",
            "idle 12 bound 12",
        ],
    );
}

#[test]
fn plan_11_giving_back_2_of_1_held() {
    prints(
        &one_process(&[res(2)], &[&[req(&[get_r(0, 1)]), putr(0, 2)]]),
        &["0 1 4 0", "fault 24 1 bound 4"],
    );
}

#[test]
fn plan_12_ending_with_1_held() {
    prints(
        &one_process(&[res(1)], &[&[req(&[get_r(0, 1)])]]),
        &["0 1 4 0", "fault 26 1 bound 2"],
    );
}

#[test]
fn two_jobs_that_draw_from_one_sampler() {
    // Of 4 to 7 the seeds from 1 draw 7, 5, 5, 6.
    let first = [hold(&draw(0)), trace(&clock())];
    let second = [hold(&draw(0)), trace(&over(4, &[draw(0), draw(0)]))];
    prints(
        &processes(&[sampler(4, 7, 1)], &[(0, &first), (0, &second)]),
        &[
            "5 2 9 -1",
            "5 2 2 0",
            "7 1 9 7",
            "7 1 2 0",
            "idle 6 bound 6",
        ],
    );
}

#[test]
fn a_draw_below_0_and_a_sampler_behind_a_block() {
    prints(
        &one_process(&[sampler(-7, -4, 1)], &[&[hold(&draw(0))]]),
        &["fault 22 0 bound 2"],
    );
    prints(&model(&[block(), sampler(4, 7, 1)]), &["refused 3 at 4"]);
}

#[test]
fn the_10_000th_draws() {
    // 1043618065 leaves 617022 by 1,000,001 and 618065 by 1,000,000.
    let samplers = [sampler(0, 1_000_000, 1), sampler(0, 999_999, 1)];
    let body = [do_rounds(9_999, 1), trace(&draw(0)), trace(&draw(1))];
    let round = [lset(0, &over(3, &[draw(0), draw(1)]))];
    prints(
        &one_process(&samplers, &[&body, &round]),
        &[
            "0 1 9 617022",
            "0 1 9 618065",
            "0 1 2 0",
            "idle 20002 bound 20002",
        ],
    );
}

#[test]
fn closed_and_over_and_none() {
    prints(
        &one_process(&[], &[&[close(), hold(&lit(1))]]),
        &["0 1 10 0", "closed 1 bound 3"],
    );
    prints(
        &one_process(
            &[],
            &[
                &[close(), do_rounds(65_535, 1)],
                &[do_rounds(65_535, 2)],
                &[],
            ],
        ),
        &["0 1 10 0", "closed 1 bound over"],
    );
    prints(
        &one_process(&[], &[&[close(), while_met(1, &[])], &[]]),
        &["0 1 10 0", "closed 1 bound none"],
    );
}

#[test]
fn the_limit_is_a_million_steps() {
    let endless = plan(&one_process(&[], &[&[while_met(1, &[])], &[]]));
    assert_eq!(endless.lines().count(), 500_001);
    assert_eq!(endless.lines().last(), Some("limit 1000000 bound none"));
}

#[test]
fn idle_at_the_limit_is_idle() {
    let exact = |more: usize| {
        let mut body = vec![do_rounds(55_553, 1)];
        body.extend(vec![lset(0, &lit(0)); more]);
        plan(&one_process(&[], &[&body, &vec![lset(0, &lit(0)); 17][..]]))
    };
    // 1 + 55,553 x 18 + 44 + 1 is a million.
    assert_eq!(exact(44).lines().last(), Some("idle 1000000 bound 1000000"));
    assert_eq!(
        exact(45).lines().last(),
        Some("limit 1000000 bound 1000001")
    );
}

#[test]
fn refusals_print_one_line() {
    prints(&[1], &["refused 1 at 0"]);
    prints(&model(&[sync(), res(1_000_001)]), &["refused 6 at 4"]);
    prints(&vec![0; 65_536], &["refused 4 at 0"]);
    prints(&vec![0; 200_000], &["refused 4 at 0"]);
}

#[test]
fn steps_with_many_lines_meet_no_30() {
    // 63 wait for a bin and are granted in one walk, again and again, over several calls of the program.
    let mut records = vec![bin(0), class(0), class(1)];
    records.extend(vec![entity(0, 0); 63]);
    records.extend([
        entity(1, 1),
        block(),
        do_rounds(40, 2),
        block(),
        do_rounds(40, 3),
    ]);
    records.extend([
        block(),
        req(&[get_b(0, 1)]),
        block(),
        putb(0, 63),
        hold(&lit(1)),
    ]);
    let printed = plan(&model(&records));
    let granted = printed
        .lines()
        .filter(|line| line.split(' ').nth(2) == Some("4"))
        .count();
    assert_eq!(granted, 63 * 40);
    assert!(printed
        .lines()
        .last()
        .is_some_and(|line| line.starts_with("idle")));
}
