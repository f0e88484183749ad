//! Texts of a megabyte that want too much: each is answered, soon, and as the page says.

use super::*;

const MEGABYTE: usize = 1_000_000;

/// As many of these as make a megabyte.
fn megabyte(of: &str) -> String {
    of.repeat(MEGABYTE.div_ceil(of.len()))
}

fn behind(before: &str, of: &str) -> String {
    [before, &megabyte(of)].concat()
}

#[test]
fn brackets_and_braces() {
    // The 17th bracket behind 15 bytes; the second brace; the second square bracket.
    refused_at(51, 31, &behind("class c { hold(", "("));
    refused_at(51, 48, &behind("class c { hold(", "-("));
    refused_at(51, 127, &behind("class c { hold(", "lesser("));
    refused_at(51, 9, &behind("class c ", "{"));
    refused_at(51, 15, &behind("class c { req ", "["));
    for sign in ["(", ")", "[", "]", "{", "}", ";", ",", "-", "<", ":="] {
        refused_at(51, 0, &megabyte(sign));
    }
}

#[test]
fn blocks_inside_blocks() {
    for open in [
        "do 1 {",
        "while [] {",
        "try [] then {",
        "try [] then { } etry [] then {",
    ] {
        refused_at(54, 0, &behind("class c { ", open));
    }
    refused_at(
        54,
        10,
        &behind("class c { try [] then { } ", "etry [] then { } "),
    );
}

#[test]
fn names() {
    refused_at(52, 10, &behind("class c { ", "abc "));
    refused_at(51, 10, &behind("class c { ", "a"));
    refused_at(51, 0, &megabyte("a"));
    refused_at(53, 13, &megabyte("res(a,1);"));
    refused_at(53, 14, &megabyte("class c;"));
    refused_at(51, 31, &behind("class c { local a,b,d,e,f,g,h,i", ",j"));
    let all: String = (0..100_000).map(|n| format!("var(a{n},0);")).collect();
    // Ten of 10 bytes and 22 of 11 stand before the 33rd.
    refused_at(54, 342, &all);
}

#[test]
fn minuses_and_sums() {
    let minuses = behind("class c { hold(", "-");
    refused_at(51, minuses.len(), &minuses);
    refused_at(54, 0, &[&minuses, "1);"].concat());
    refused_at(51, minuses.len() + 1, &[&minuses, "1"].concat());
    refused_at(54, 0, &[&behind("class c { hold(1", "+1"), ");"].concat());
    refused_at(54, 0, &[&behind("class c { hold(1", "*1"), ");"].concat());
    let open = ["class c { hold(", &"(".repeat(16), "1"].concat();
    let shut = [&")".repeat(16), ");"].concat();
    refused_at(54, 0, &[&behind(&open, "-1*1"), &shut[..]].concat());
}

#[test]
fn digits() {
    refused_at(51, 7, &behind("res(a, ", "9"));
    refused_at(51, 7, &behind("res(a, 1", "0"));
    refused_at(51, 16, &behind("class c { hold(-", "9"));
    writes(&[&behind("res(a, ", "0"), "1);"].concat(), &[res(1)]);
}

#[test]
fn items_and_shares() {
    refused_at(
        54,
        0,
        &[&behind("var(x,0);class c{req[x<1", ",x<1"), "];"].concat(),
    );
    refused_at(
        54,
        0,
        &[&behind("var(x,0);class c{while[x<1", ",x<1"), "]{"].concat(),
    );
    refused_at(
        54,
        0,
        &[
            &behind("res(r,1);class c{start(c,1,[(r,1)", ",(r,1)"),
            "]);",
        ]
        .concat(),
    );
}

#[test]
fn comments_and_blanks() {
    for text in [
        megabyte("#"),
        megabyte("# a\n"),
        megabyte(" "),
        megabyte("\r\n"),
        behind("#", "\u{e9}"),
    ] {
        writes(&text, &[]);
        refused_at(51, text.len() + 1, &[&text, "\n@"].concat());
    }
}

#[test]
fn actions_and_declarations() {
    // 1,024 of 8 bytes behind 9.
    refused_at(54, 9 + 1_024 * 8, &behind("class c {", "hold(1);"));
    // 64 of 12 behind 10.
    refused_at(54, 10 + 64 * 12, &behind("class c{ }", "entity(c,0);"));
    // 255 of 7 behind 9.
    refused_at(54, 9 + 255 * 7, &behind("class c {", "do 1{ }"));
}

/// A text that is as long in its file as can be, with a cut at each of its actions.
#[test]
fn a_text_at_the_limits() {
    // VAR, CLASS and BLOCK are 18 bytes, a TRACE of 9 nodes 58, a CLOSE 4: with 1,024 actions 18 + 58 k + 4 (1,024 - k).
    let text = [
        "var(x, 0); class c { ",
        &"trace(x*x+x*x-x);".repeat(1_000),
        &"close;".repeat(24),
        "}",
    ]
    .concat();
    let file = read_text(text.as_bytes(), ROOM).expect("it is right");
    assert_eq!(file.len(), 18 + 58 * 1_000 + 4 * 24);
}
