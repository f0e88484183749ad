//! Which of several troubles is told, and where: sections 5 and 7 of TEXT.md.

use super::*;

/// A sum of so many nodes, an odd number of them.
fn sum(nodes: usize) -> String {
    ["1", &"+1".repeat(nodes / 2)].concat()
}

#[test]
fn each_refusal_at_a_first_a_middle_and_a_last_place() {
    refused(51, "^@ res(a, 1); res(b, 1);");
    refused(51, "res(a, 1); ^@ res(b, 1);");
    refused(51, "res(a, 1); res(b, 1);^@");
    refused(51, "res(a, 1); res(b, 1^");
    refused(52, "entity(^c, 1); res(a, 1);");
    refused(52, "res(a, 1); class c { hold(^a); } res(b, 1);");
    refused(52, "res(a, 1); class c { } entity(^a");
    refused(53, "res(a, 1); res(^a, 1); res(b, 1); res(c, 1);");
    refused(53, "res(a, 1); res(b, 1); res(^b, 1); res(c, 1);");
    refused(53, "res(a, 1); res(b, 1); res(^a");
    refused(54, "^res(a, 1000001); res(b, 1);");
    refused(
        54,
        "sync(s); class c { close; ^putS(s, 0); close; } res(b, 1);",
    );
    refused(54, "res(a, 1); res(b, 1); ^res(c, 1000001);");
}

#[test]
fn the_first_trouble_is_the_answer() {
    refused(51, "res(a, ^@); res(a, 1000001); res(a, 1);");
    refused(52, "class c { putR(^a, 1); @ } res(c, 1);");
    refused(53, "res(a, 1); res(^a, 1000001); @");
    refused(53, "res(a, 1); res(^a, 99999999999);");
    refused(54, "^res(a, 1000001); res(a, 1); @");
    refused(54, "class c { ^hold(1+1+1+1+1+1+1+1+1); hold(a); @");
    refused(51, "res(a, 1000001) ^@");
    refused(51, "res(a, 1000001^");
    refused(52, "class c { hold(1+1+1+1+1+1+1+1+1+1+^a); }");
}

/// A declaration or action that isn't complete is looked at by no cut.
#[test]
fn what_is_not_complete_writes_nothing() {
    refused(51, "class c { hold(1+1+1+1+1+1+1+1+1) ^}");
    refused(51, "sampler(a, 2, 1, 0) ^@");
    refused(51, "sync(s); class c { putS(s, 65) ^@");
    refused(
        51,
        "var(x, 0); class c { while [x<1, x<1, x<1, x<1, x<1] ^@",
    );
    refused(
        51,
        "var(x, 0); class c { try [x<1, x<1, x<1, x<1, x<1] then ^@",
    );
    refused(
        54,
        "var(x, 0); class c { ^try [x<1, x<1, x<1, x<1, x<1] then { @",
    );
    refused(
        51,
        "var(x, 0); class c { try [] then { } etry [x<1, x<1, x<1, x<1, x<1] then ^@",
    );
    refused(
        54,
        "var(x, 0); class c { ^try [] then { } etry [x<1, x<1, x<1, x<1, x<1] then { @",
    );
}

/// At the `{` and not at the `}`: what stands inside isn't read.
#[test]
fn a_block_s_action_is_looked_at_where_it_begins() {
    body_refused(54, "^while [getR(r, 0)] { hold(u); }");
    body_refused(54, "^try [getR(r, 0)] then { hold(u); }");
    body_refused(
        52,
        "try [getR(r, 1)] then { hold(^u); } etry [getR(r, 0)] then { }",
    );
    body_refused(54, "do 1 { ^hold(1+1+1+1+1+1+1+1+1); } hold(u);");
}

#[test]
fn unknown_comes_before_too_long() {
    body_refused(52, &["^u := ", &sum(17), ";"].concat());
    body_refused(54, &["^x := ", &sum(17), ";"].concat());
    body_refused(52, &["x := ", &sum(17), " + ^u;"].concat());
}

/// A DO of one action, and 1,022 more actions behind it: 1,024, of which the inner one stands last in the file.
fn full(inner: &str) -> String {
    [
        &["do 1 { ", inner, " }"].concat(),
        &"hold(1);".repeat(1_022)[..],
    ]
    .concat()
}

#[test]
fn the_1025th_action() {
    body_is_right(&"hold(1);".repeat(1_024));
    body_refused(
        54,
        &["hold(1);".repeat(1_024), "^close; @".to_string()].concat(),
    );
    body_refused(
        54,
        &["hold(1);".repeat(1_024), "^do 1 { @".to_string()].concat(),
    );
    body_refused(
        54,
        &["hold(1);".repeat(1_024), "^try [] then { @".to_string()].concat(),
    );
    body_refused(
        51,
        &["hold(1);".repeat(1_024), "close ^@".to_string()].concat(),
    );
}

#[test]
fn the_1025th_action_stands_elsewhere() {
    body_is_right(&full("trace(1);"));
    body_refused(54, &[&full("^trace(1);"), "close; @"].concat());
    body_refused(54, &[&full("^trace(1);"), "do 1 { @"].concat());
    body_refused(54, &[&full("^trace(1);"), "try [] then { @"].concat());
    // Read inside the inner block it is the last itself.
    let early = [
        "hold(1);".repeat(1_022),
        "do 1 { trace(1); ^close; @".to_string(),
    ]
    .concat();
    body_refused(54, &early);
    // A later class begins a later block.
    let text = in_body(&full("trace(1);")) + " class d { ^close; @";
    refused(54, &text);
    // The last of two inner blocks.
    let two = [
        "do 1 { trace(1); } do 1 { ^trace(1); }",
        &"hold(1);".repeat(1_020),
        "close; @",
    ];
    body_refused(54, &two.concat());
    // The inner block of a branch stands behind that of the branch before.
    let branches = [
        "try [] then { trace(1); } etry [] then { ^trace(1); }",
        &"hold(1);".repeat(1_021),
        "close; @",
    ];
    body_refused(54, &branches.concat());
}

/// The first record that fails in the order of the file: a wrong one before the 1,025th.
#[test]
fn a_wrong_value_before_the_1025th_action() {
    body_refused(54, &[&full("trace(1);"), "^putS(s, 65); @"].concat());
    body_refused(
        54,
        &[&full("trace(1);"), "^while [getR(r, 0)] { @"].concat(),
    );
    // It is the 1,025th itself: also 54, and also here.
    let last = ["hold(1);".repeat(1_024), "^putS(s, 65); @".to_string()].concat();
    body_refused(54, &last);
}

/// The 257th BLOCK stands behind the 1,025th action.
#[test]
fn the_257th_block_with_the_1025th_action() {
    let blocks = ["do 1 { } ".repeat(254), "do 1 { ^trace(1); }".to_string()].concat();
    let full = [&blocks, &"hold(1);".repeat(768)[..]].concat();
    body_is_right(&full.replace('^', ""));
    body_refused(54, &[&full, "do 1 { @"].concat());
}

/// 4 to 7 come before 10, and what 10 names is the class.
#[test]
fn too_deep_and_something_else() {
    let eight = ["class c { ", &"do 1 { ".repeat(7)].concat();
    refused(
        54,
        &[
            "var(x, 0); ",
            &eight,
            "^while [x<1, x<1, x<1, x<1, x<1] { @",
        ]
        .concat(),
    );
    refused(
        54,
        &["var(x, 0); ^", &eight, "while [x<1, x<1, x<1, x<1] { @"].concat(),
    );
    let blocks = "do 1 { } ".repeat(248);
    refused(
        54,
        &["class c { ", &blocks, &"do 1 { ".repeat(7), "^do 1 { @"].concat(),
    );
    refused(
        54,
        &[
            "^class c { ",
            &blocks[9..],
            &"do 1 { ".repeat(7),
            "do 1 { @",
        ]
        .concat(),
    );
}

/// VAR, CLASS and BLOCK are 18 bytes, a TRACE of 16 nodes is 100: with 655 of them 65,518.
fn long(last: &str) -> String {
    let sixteen = sum(13) + " + -x";
    let traces = ["trace(", &sixteen, ");"].concat().repeat(655);
    [" # first\n ^var(x, 0); class c { ", &traces, last].concat()
}

/// A HOLD of 2 nodes is 16 bytes, a SET 18. Every record has an even length, so 65,535 itself is never met.
#[test]
fn the_length() {
    let most = long("hold(-x); }").replace('^', "");
    let file = read_text(most.as_bytes(), ROOM).expect("it is right");
    assert_eq!(file.len(), 65_534);
    refused(54, &long("x := -x; @"));
    refused(54, &long("hold(-x); close; @"));
    refused(54, &long("hold(-x); do 1 { @"));
    refused(54, &long("hold(-x); } entity(c, 0); @"));
    refused(54, &long("hold(-x); } class d; @"));
    refused(
        51,
        &(long("hold(-x); } entity(c, 0)").replace('^', "") + "^"),
    );
}

/// A branch adds 4 bytes to its TRY and a BLOCK of 4; the TRY of one branch is 10 bytes and its BLOCK 4.
#[test]
fn the_length_at_a_branch() {
    is_right(&long("try [] then { } }").replace('^', ""));
    refused(54, &long("try [] then { } etry [] then { @"));
    refused(54, &long("try [] then { close; @"));
}

/// The length comes before 4 to 7: one action of m nodes in 22 + 6 m bytes.
#[test]
fn one_action_over_the_length() {
    refused(
        54,
        &["var(x, 0); class c { ^hold(", &sum(10_917), ");"].concat(),
    );
    refused(
        54,
        &["var(x, 0); class c { ^hold(", &sum(10_915), "+-x);"].concat(),
    );
    refused(
        54,
        &["^var(x, 0); class c { hold(", &sum(10_919), ");"].concat(),
    );
    // A claim of n items in 24 + 8 n bytes.
    let items = |n: usize| ["x<1", &",x<1".repeat(n - 1)].concat();
    refused(
        54,
        &["var(x, 0); class c { ^req [", &items(8_188), "];"].concat(),
    );
    refused(
        54,
        &["^var(x, 0); class c { req [", &items(8_189), "];"].concat(),
    );
}

/// The first declaration may be the class itself, also one that is announced.
#[test]
fn the_length_names_the_first_declaration() {
    refused(54, &["^class c { hold(", &sum(12_001), ");"].concat());
    refused(
        54,
        &["^class d; class c { hold(", &sum(12_001), ");"].concat(),
    );
    refused(
        54,
        &[
            "# first\n^sync(s); class c { } class d { hold(",
            &sum(12_001),
            ");",
        ]
        .concat(),
    );
}
