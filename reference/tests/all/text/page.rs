//! Every example of TEXT.md.

use super::*;

const STUDIO_DAY: &str = "
    # Two suites, one deck. Trailers share what the feature leaves.
    res(suite, 2);
    res(deck, 1);
    var(delivered, 0);
    sampler(grade, 4, 7, 1);             # lowest, highest, seed

    class trailer;                       # announced: started below, its body comes later
    class feature {
        local reel;
        do 3 {
            req [getR(suite, 1), getR(deck, 1)];
            reel := reel + 1;
            hold(grade + 2 * reel);
            putR(deck, 1);
            putR(suite, 1);
        }
        start(trailer, 0);
    }
    class trailer {
        try [getR(suite, 1), delivered < 5] then {
            hold(grade);
            putR(suite, 1);
            delivered := delivered + 1;
        }
        etry [delivered >= 5] then { close; }
    }
    entity(feature, 0);
    entity(trailer, 2);
";

/// The trailer is class 0, as it is announced first; its body is block 2, behind the feature's two.
fn studio_day() -> Vec<Vec<u8>> {
    let first: &[Item] = &[get_r(0, 1), condition(1, 0, 5)];
    let second: &[Item] = &[condition(5, 0, 5)];
    let twice_reel = over(5, &[lit(2), local(0)]);
    vec![
        res(2),
        res(1),
        var(0),
        sampler(4, 7, 1),
        class(2),
        class(0),
        entity(1, 0),
        entity(0, 2),
        block(),
        do_rounds(3, 1),
        start(0, 0, &[]),
        block(),
        req(&[get_r(0, 1), get_r(1, 1)]),
        lset(0, &over(3, &[local(0), lit(1)])),
        hold(&over(3, &[draw(0), twice_reel])),
        putr(1, 1),
        putr(0, 1),
        block(),
        try_branches(&[(3, first), (4, second)]),
        block(),
        hold(&draw(0)),
        putr(0, 1),
        set(0, &over(3, &[global(0), lit(1)])),
        block(),
        close(),
    ]
}

#[test]
fn the_studio_day_of_section_1() {
    writes(STUDIO_DAY, &studio_day());
}

/// Up to any token the studio day is right so far: it goes on, or it ends where a class still lacks its body.
#[test]
fn the_studio_day_cut_off_anywhere() {
    let announced = STUDIO_DAY.find("class trailer;").expect("it is there");
    let body = STUDIO_DAY.find("class trailer {").expect("it is there");
    for (length, _) in STUDIO_DAY.match_indices(|c: char| !c.is_ascii_alphanumeric()) {
        let text = &STUDIO_DAY[..length];
        // A `:` that its `=` is cut off from is no token.
        if text.ends_with(':') {
            continue;
        }
        match read_text(text.as_bytes(), ROOM) {
            Ok(_) => assert!(length <= announced || length > body, "{text}"),
            Err(Refused { number: 51, place }) => assert_eq!(place, length, "{text}"),
            Err(Refused { number, place }) => {
                assert_eq!((number, place), (54, announced), "{text}")
            }
        }
    }
}

#[test]
fn the_spellings_of_section_1() {
    let things = "res(suite, 1); bin(tape, 1); sync(runner); var(delivered, 0); class trailer { } ";
    let alone = [
        "hold(3);",
        "req [getR(suite, 1), getB(tape, 2), getS(runner, 1), delivered < 5];",
        "putR(suite, 1);",
        "putB(tape, 2);",
        "do 3 { }",
        "try [] then { } etry [] then { }",
        "while [] { }",
        "become(runner);",
        "putS(runner, 1);",
        "start(trailer, 0);",
        "start(trailer, 2, [(suite, 1)]);",
        "delivered := delivered + 1;",
        "priority(5);",
        "trace(delivered);",
        "close;",
    ];
    for spelled in alone {
        is_right(&[things, "class c { ", spelled, " }"].concat());
    }
    is_right(&[things, "class c { ", &alone.concat(), " }"].concat());
}

#[test]
fn from_the_left_in_section_1() {
    let nodes = over(4, &[over(4, &[lit(9), lit(3)]), lit(2)]);
    body_writes("hold(9 - 3 - 2);", &[&[hold(&nodes)]]);
}

#[test]
fn the_names_of_section_2() {
    let records = [res(1), res(2), res(3), res(12)];
    writes(
        "res(35mm, 1); res(4k, 2); res(10h, 3); res(a, 12);",
        &records,
    );
    refused(51, "res(^12, 1);");
}

#[test]
fn the_refusals_of_section_5() {
    refused(51, "res(a, 1) ^bin(b, 1);");
    refused(51, "res(^hold, 1);");
    refused(51, "res(a, 1^");
    refused(51, "class c { do ^65536 { } }");
    refused(51, "var(x, ^2147483648);");
    refused(51, "class c { hold(1); }^;");
    refused(52, "class c { ^Hold(3); }");
    refused(52, "bin(b, 1); class c { putR(^b, 1); }");
    refused(53, "res(a, 1); bin(^a, 1);");
    refused(53, "class c; class ^c;");
    refused(54, "sync(s); class c { ^putS(s, 65); }");
    refused(54, "^res(a, 2000000); res(a, 1); @");
    refused(51, "res(a, 2000000^");
    refused(
        54,
        "^class c { do 1 { do 1 { do 1 { do 1 { do 1 { do 1 { do 1 { do 1 { @",
    );
    refused(54, "^class c; entity(c, 0);");
}

#[test]
fn the_literals_of_section_6() {
    body_writes("hold(-5);", &[&[hold(&lit(-5))]]);
    body_writes("hold(-(5));", &[&[hold(&over(9, &[lit(5)]))]]);
    body_writes("hold(- -5);", &[&[hold(&over(9, &[lit(-5)]))]]);
}

#[test]
fn two_jobs_of_section_8() {
    let text = "res(suite, 1);
class job {
    req [getR(suite, 1)];
    hold(3);
    putR(suite, 1);
}
entity(job, 0);
entity(job, 0);
";
    let bytes = [
        0x06, 0x00, 0x01, 0x00, 0x01, 0x00, 0x00, 0x00, // RES
        0x04, 0x00, 0x05, 0x00, 0x00, 0x00, // CLASS
        0x08, 0x00, 0x07, 0x00, 0x00, 0x00, 0x00, 0x00, 0x00, 0x00, // ENTITY
        0x08, 0x00, 0x07, 0x00, 0x00, 0x00, 0x00, 0x00, 0x00, 0x00, // ENTITY
        0x02, 0x00, 0x06, 0x00, // BLOCK
        0x0C, 0x00, 0x19, 0x00, 0x01, 0x00, // REQ of 1 item
        0x00, 0x00, 0x00, 0x00, 0x01, 0x00, 0x00, 0x00, // getR
        0x08, 0x00, 0x10, 0x00, 0x00, 0x00, 0x03, 0x00, 0x00, 0x00, // HOLD
        0x08, 0x00, 0x15, 0x00, 0x00, 0x00, 0x01, 0x00, 0x00, 0x00, // PUTR
    ];
    assert_eq!(read_text(text.as_bytes(), ROOM), Ok(bytes.to_vec()));
}

#[test]
fn nested_of_section_8() {
    let text = "var(left, 3);
class job {
    do 2 {
        left := left - 1 - 1;
        try [left < 0] then { close; } etry [] then { }
    }
    trace(-left * 2);
}
entity(job, 0);
";
    let bytes = [
        0x06, 0x00, 0x04, 0x00, 0x03, 0x00, 0x00, 0x00, // VAR
        0x04, 0x00, 0x05, 0x00, 0x00, 0x00, // CLASS
        0x08, 0x00, 0x07, 0x00, 0x00, 0x00, 0x00, 0x00, 0x00, 0x00, // ENTITY
        0x02, 0x00, 0x06, 0x00, // BLOCK 0
        0x06, 0x00, 0x14, 0x00, 0x02, 0x00, 0x01, 0x00, // DO 2 of block 1
        0x1A, 0x00, 0x1D, 0x00, // TRACE of 4 nodes
        0x05, 0x00, 0x00, 0x00, 0x00, 0x00, // multiply
        0x09, 0x00, 0x00, 0x00, 0x00, 0x00, // negate
        0x01, 0x00, 0x00, 0x00, 0x00, 0x00, // global 0
        0x00, 0x00, 0x02, 0x00, 0x00, 0x00, // literal 2
        0x02, 0x00, 0x06, 0x00, // BLOCK 1
        0x22, 0x00, 0x12, 0x00, 0x00, 0x00, // SET variable 0, 5 nodes
        0x04, 0x00, 0x00, 0x00, 0x00, 0x00, // subtract
        0x04, 0x00, 0x00, 0x00, 0x00, 0x00, // subtract
        0x01, 0x00, 0x00, 0x00, 0x00, 0x00, // global 0
        0x00, 0x00, 0x01, 0x00, 0x00, 0x00, // literal 1
        0x00, 0x00, 0x01, 0x00, 0x00, 0x00, // literal 1
        0x14, 0x00, 0x1A, 0x00, 0x02, 0x00, // TRY of 2 branches
        0x02, 0x00, 0x01, 0x00, // block 2, 1 item
        0x03, 0x01, 0x00, 0x00, 0x00, 0x00, 0x00, 0x00, // variable 0 below 0
        0x03, 0x00, 0x00, 0x00, // block 3, no item
        0x02, 0x00, 0x06, 0x00, // BLOCK 2
        0x02, 0x00, 0x1E, 0x00, // CLOSE
        0x02, 0x00, 0x06, 0x00, // BLOCK 3
    ];
    assert_eq!(read_text(text.as_bytes(), ROOM), Ok(bytes.to_vec()));
}
