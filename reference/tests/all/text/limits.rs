//! Every limit at its last value and one over it, with the place: 54, and 51 where the grammar itself has the limit.

use super::*;

/// `before`, so many declarations or actions with `?` as their number, and `after`.
fn many(before: &str, one: &str, count: usize, after: &str) -> String {
    let all = (0..count).map(|number| one.replace('?', &number.to_string()));
    [before, &all.collect::<String>(), after].concat()
}

/// So many are right; with one more the last of them is refused.
fn at_most(limit: usize, before: &str, one: &str) {
    is_right(&many(before, one, limit, ""));
    let place = many(before, one, limit, "").len();
    refused_at(54, place, &many(before, one, limit + 1, "@"));
}

#[test]
fn declarations() {
    at_most(32, "", "res(a?, 1);");
    at_most(32, " # first\n", "bin(a?, 1);");
    at_most(32, "res(r, 1);", "sync(a?);");
    at_most(32, "bin(b, 1);", "var(a?, 1);");
    at_most(16, "", "sampler(a?, 1, 1, 1);");
    at_most(64, "", "class a? { }");
    at_most(64, "class c { }", "entity(c, ?);");
    // Each kind has its own count.
    at_most(32, &many("", "res(a?, 1);", 32, ""), "bin(b?, 1);");
}

#[test]
fn the_65th_class_announced() {
    let classes = many("", "class a?;", 64, "");
    let bodies = many("", "class a? { }", 64, "");
    is_right(&[&classes[..], &bodies].concat());
    refused(54, &[&classes[..], "^class b;", &bodies].concat());
    refused(54, &[&classes[..], &bodies, "^class b { @"].concat());
}

/// The class body is one of the 256.
#[test]
fn blocks() {
    let full = many("class c { ", "do 1 { } ", 255, "");
    is_right(&[&full[..], "}"].concat());
    refused(54, &[&full[..], "^do 1 { @"].concat());
    refused(54, &[&full[..], "^while [] { @"].concat());
    refused(54, &[&full[..], "^try [] then { @"].concat());
    refused(54, &[&full[..], "} ^class d { @"].concat());
    is_right(&many(
        "class d; class c { ",
        "do 1 { } ",
        254,
        "} class d { }",
    ));
}

/// The BLOCK belongs to the line whose `{` opens it, not to the announcement; that of an `etry` to its `try`.
#[test]
fn the_257th_block_of_an_announced_class_and_of_an_etry() {
    let full = many("class d; class c { ", "do 1 { } ", 255, "} ");
    refused(54, &[&full[..], "^class d { @"].concat());
    let all_but_one = many("class c { ", "do 1 { } ", 254, "");
    refused(
        54,
        &[&all_but_one[..], "^try [] then { } etry [] then { @"].concat(),
    );
    is_right(&[&all_but_one[..], "try [] then { } }"].concat());
}

#[test]
fn totals_amounts_and_offsets() {
    for text in [
        "res(a, ?);",
        "bin(a, ?);",
        "class c { } entity(c, ?);",
        "class c { start(c, ?); }",
    ] {
        for right in ["0", "1", "1000000", "0001000000"] {
            is_right(&text.replace('?', right));
        }
    }
    for over in ["1000001", "2147483647"] {
        refused(54, &"^res(a, ?);".replace('?', over));
        refused(54, &"^bin(a, ?);".replace('?', over));
        refused(54, &"class c { } ^entity(c, ?);".replace('?', over));
        refused(54, &"class c { ^start(c, ?); }".replace('?', over));
    }
}

#[test]
fn amounts_from_1_on() {
    for action in [
        "^putR(r, ?);",
        "^putB(b, ?);",
        "^req [getR(r, ?)];",
        "^while [getB(b, ?)] { }",
        "^try [getS(s, ?)] then { }",
        "^try [] then { } etry [getR(r, ?)] then { }",
        "^start(c, 1, [(r, ?)]);",
    ] {
        for right in ["1", "1000000"] {
            body_is_right(&action.replace('^', "").replace('?', right));
        }
        for wrong in ["0", "1000001", "2147483647"] {
            body_refused(54, &action.replace('?', wrong));
        }
    }
}

#[test]
fn slaves() {
    body_is_right("putS(s, 1); putS(s, 64);");
    body_refused(54, "^putS(s, 0);");
    body_refused(54, "^putS(s, 65);");
    body_refused(54, "^putS(s, 65535);");
    body_refused(51, "putS(s, ^65536);");
}

#[test]
fn samplers() {
    is_right("sampler(a, 5, 5, 1);");
    refused(54, "^sampler(a, 6, 5, 1);");
    is_right("sampler(a, -500000, 500000, 1);");
    refused(54, "^sampler(a, -500001, 500000, 1);");
    refused(54, "^sampler(a, -500000, 500001, 1);");
    refused(54, "^sampler(a, -2147483648, 2147483647, 1);");
    is_right("sampler(a, -2147483648, -2146483648, 1);");
    refused(54, "^sampler(a, -2147483648, -2146483647, 1);");
    refused(54, "^sampler(a, 1, 2, 0);");
    is_right("sampler(a, 1, 2, 2147483646);");
    refused(54, "^sampler(a, 1, 2, 2147483647);");
    refused(51, "sampler(a, 1, 2, ^2147483648);");
}

/// What the grammar has no room for is 51 at the number.
#[test]
fn numbers_up_to_2147483647() {
    for text in [
        "res(a, ^2147483648);",
        "bin(a, ^2147483648);",
        "res(a, ^4294967296);",
        "var(x, ^2147483648);",
        "sampler(a, ^2147483648, 1, 1);",
        "sampler(a, 1, ^2147483648, 1);",
        "class c { } entity(c, ^2147483648);",
    ] {
        refused(51, text);
    }
    for action in [
        "putR(r, ^2147483648);",
        "putB(b, ^2147483648);",
        "req [getR(r, ^2147483648)];",
        "req [getB(b, ^2147483648)];",
        "req [getS(s, ^2147483648)];",
        "req [x < ^2147483648];",
        "start(c, ^2147483648);",
        "start(c, 1, [(r, ^2147483648)]);",
    ] {
        body_refused(51, action);
    }
}

#[test]
fn signed_numbers() {
    writes("var(x, 2147483647);", &[var(i32::MAX)]);
    writes("var(x, -2147483648);", &[var(i32::MIN)]);
    writes("var(x, -0);", &[var(0)]);
    refused(51, "var(x, -^2147483649);");
    refused(51, "sampler(a, -^2147483649, 1, 1);");
    refused(51, "sampler(a, 1, -^2147483649, 1);");
    let items = [condition(2, 0, i32::MIN), condition(6, 0, i32::MAX)];
    body_writes("req [x <= -2147483648, x > 2147483647];", &[&[req(&items)]]);
    body_refused(51, "req [x < -^2147483649];");
}

#[test]
fn counts_up_to_65535() {
    body_writes("do 65535 { }", &[&[do_rounds(65_535, 1)], &[]]);
    body_writes("do 0 { }", &[&[do_rounds(0, 1)], &[]]);
    body_writes("do 000065535 { }", &[&[do_rounds(65_535, 1)], &[]]);
    body_refused(51, "do ^65536 { }");
    body_refused(51, "do ^2147483648 { }");
}

/// No comma fits behind the eighth name.
#[test]
fn locals() {
    let nodes = [lset(7, &local(0))];
    body_writes("local a0, a1, a2, a3, a4, a5, a6, a7; a7 := a0;", &[&nodes]);
    body_refused(51, "local a0, a1, a2, a3, a4, a5, a6, a7^, a8;");
    body_refused(51, "local a0, a1, a2, a3, a4, a5, a6, a7^, a7;");
    body_refused(51, "local a0, a1, a2, a3, a4, a5, a6, a7^,");
}

#[test]
fn nodes() {
    let sum = |terms: usize| ["1", &"+1".repeat(terms - 1)].concat();
    for action in [
        "^hold(?);",
        "^priority(?);",
        "^trace(?);",
        "^x := ?;",
        "local l; ^l := ?;",
    ] {
        // n terms are 2n - 1 nodes; a minus before a variable is 2.
        let sixteen = sum(7) + " + -x";
        body_is_right(&action.replace('^', "").replace('?', &sum(8)));
        body_is_right(&action.replace('^', "").replace('?', &sixteen));
        body_is_right(
            &action
                .replace('^', "")
                .replace('?', &("-".repeat(15) + "x")),
        );
        body_is_right(
            &action
                .replace('^', "")
                .replace('?', &("-".repeat(16) + "1")),
        );
        body_refused(54, &action.replace('?', &sum(9)));
        body_refused(54, &action.replace('?', &("-".repeat(16) + "x")));
        body_refused(54, &action.replace('?', &("-".repeat(17) + "1")));
    }
}

#[test]
fn items() {
    for action in [
        "^req [?];",
        "^while [?] { }",
        "^try [?] then { }",
        "^try [] then { } etry [?] then { }",
    ] {
        for right in [
            "x < 1, x < 1, x < 1, x < 1",
            "getR(r, 1), getB(b, 1), getS(s, 1), x < 1",
        ] {
            body_is_right(&action.replace('^', "").replace('?', right));
        }
        for wrong in [
            "x < 1, x < 1, x < 1, x < 1, x < 1",
            "getR(r, 1), getR(r, 1)",
            "getB(b, 1), x < 1, getB(b, 2)",
            "x < 1, getS(s, 1), getB(b, 1), getS(s, 1)",
        ] {
            body_refused(54, &action.replace('?', wrong));
        }
    }
    // Each branch is a claim of its own.
    body_is_right("try [getR(r, 1)] then { } etry [getR(r, 1)] then { }");
}

#[test]
fn shares() {
    let things = "res(a, 1); res(b, 1); res(c, 1); res(d, 1); res(e, 1); class k { ";
    let four = "start(k, 1, [(a, 1), (b, 1), (c, 1), (d, 1)]); }";
    let five = "^start(k, 1, [(a, 1), (b, 1), (c, 1), (d, 1), (e, 1)]); }";
    let twice = "close; ^start(k, 1, [(a, 1), (b, 1), (a, 1)]); }";
    is_right(&[things, four].concat());
    refused(54, &[things, five].concat());
    refused(54, &[things, twice].concat());
}

#[test]
fn branches() {
    let four = ["try [] then { }", &" etry [] then { }".repeat(3)].concat();
    body_is_right(&four);
    body_refused(54, &["^", &four, " etry [] then { @"].concat());
    // Up to its `{` the fifth branch is none of the TRY.
    body_refused(51, &[&four, " etry [] then ^@"].concat());
}

/// The class body is one of the 8; a `do`, a `while` and each branch of a `try` nest alike.
#[test]
fn deep() {
    for (open, wrong) in [
        ("do 1 { ", "do 1 { @"),
        ("while [] { ", "while [] { @"),
        ("try [] then { ", "try [] then { @"),
        ("try [] then { } etry [] then { ", "do 0 { @"),
    ] {
        let seven = open.repeat(7);
        is_right(&["class c { ", &seven, "close; ", &"} ".repeat(8)].concat());
        refused(54, &["res(a, 1); ^class c { ", &seven, wrong].concat());
    }
    // What is shut is no longer deep.
    let both = ["do 1 { ".repeat(7), "} ".repeat(7)].concat().repeat(2);
    is_right(&["class c { ", &both, "}"].concat());
}

#[test]
fn deep_in_an_announced_class_and_in_a_later_one() {
    let eight = "do 1 { ".repeat(8);
    refused(
        54,
        &["^class c; res(a, 1); class c { ", &eight, "@"].concat(),
    );
    refused(54, &["class c { } ^class d { ", &eight, "@"].concat());
    refused(
        54,
        &["class d; ^class c; class b; class c { ", &eight, "@"].concat(),
    );
}

#[test]
fn a_class_without_a_body() {
    refused(54, "^class c;");
    refused(54, "res(a, 1);  ^class c ; res(b, 1);");
    refused(54, "class a; ^class b; class c; class a { }");
    refused(54, "class a; class b; ^class c; class a { } class b { }");
    // It is told only at the end.
    refused(51, "class c; ^@");
    refused(52, "class c; entity(^d, 0);");
    refused(53, "class c; res(^c, 1);");
    refused(54, "class c; ^res(a, 1000001);");
}

/// 32 of each, 16 samplers, 64 classes and entities, 256 blocks and 1,024 actions: all in one text.
#[test]
fn all_limits_at_once() {
    let mut text = many("", "res(r?,1);bin(b?,1);sync(s?);var(x?,1);", 32, "");
    text += &many("", "sampler(g?,1,2,3);", 16, "");
    text += &many("", "class c?;", 64, "");
    text += &many("", "entity(c?,0);", 64, "");
    // 64 bodies with 3 inner blocks each; in each body 3 DO, 13 others, so 16 actions of 64 classes.
    let body = ["do 1{hold(1);}".repeat(3), "trace(2);".repeat(10)].concat();
    text += &many("", &["class c? {", &body, "}"].concat(), 64, "");
    is_right(&text);
    let file = read_text(text.as_bytes(), ROOM).expect("it is right");
    // Declarations 32 * 28 + 16 * 16 + 64 * 16, blocks 256 * 4, DO 192 * 8, HOLD and TRACE 832 * 10.
    assert_eq!(file.len(), 896 + 256 + 1_024 + 1_024 + 1_536 + 8_320);
}
