//! Each line of the grammar, right and wrong: section 3 of TEXT.md.

use super::*;

/// The tokens stand with one blank between them. A text that ends before one of them, or has something else there, is
/// refused right there. `then` fits only where a `then` stands.
fn every_token_counts(before: &str, tokens: &str, after: &str) {
    is_right(&[before, tokens, after].concat());
    let mut at = before.len();
    for token in tokens.split(' ') {
        let up_to_it = &[before, tokens].concat()[..at];
        refused_at(51, at, up_to_it);
        refused_at(51, at, &[up_to_it, "@ ", after].concat());
        if token != "then" {
            refused_at(51, at, &[up_to_it, "then ", after].concat());
        }
        at += token.len() + 1;
    }
}

/// Of a declaration all but the first token: a text may well end where another declaration could stand.
fn declaration(keyword: &str, rest: &str) {
    let before = [HOUSE, "class c { } ", keyword, " "].concat();
    every_token_counts(&before, rest, "");
}

fn action(tokens: &str) {
    let before = [HOUSE, "class d { } class c { local l ; "].concat();
    every_token_counts(&before, tokens, " }");
}

#[test]
fn every_token_of_a_declaration() {
    declaration("res", "( a , 1 ) ;");
    declaration("bin", "( a , 1 ) ;");
    declaration("sync", "( a ) ;");
    declaration("var", "( a , 1 ) ;");
    declaration("var", "( a , - 1 ) ;");
    declaration("sampler", "( a , 1 , 2 , 3 ) ;");
    declaration("sampler", "( a , - 2 , - 1 , 3 ) ;");
    declaration("class", "a { }");
    declaration("class", "a { local k ; }");
    declaration("class", "a { local k , l , m ; close ; }");
    declaration("class", "a { close ; close ; }");
    declaration("entity", "( c , 1 ) ;");
}

#[test]
fn every_token_of_an_action() {
    for expression in [
        "1",
        "- 1",
        "x",
        "- x",
        "- - x",
        "- - 1",
        "l",
        "g",
        "clock",
        "( 1 )",
        "- ( 1 )",
        "1 + 2",
        "1 - 2 * 3",
        "x * ( x - 1 )",
        "lesser ( 1 , 2 )",
        "- greater ( 1 , ( x ) ) * 2",
    ] {
        action(&["hold ( ", expression, " ) ;"].concat());
        action(&["priority ( ", expression, " ) ;"].concat());
        action(&["trace ( ", expression, " ) ;"].concat());
        action(&["x := ", expression, " ;"].concat());
        action(&["l := ", expression, " ;"].concat());
    }
    action("do 1 { }");
    action("do 1 { do 0 { close ; } close ; }");
    action("putR ( r , 1 ) ;");
    action("putB ( b , 1 ) ;");
    action("putS ( s , 1 ) ;");
    action("become ( s ) ;");
    action("start ( d , 1 ) ;");
    action("start ( d , 1 , [ ( r , 1 ) ] ) ;");
    action("close ;");
}

#[test]
fn every_token_of_a_claim() {
    for claim in [
        "[ ]",
        "[ getR ( r , 1 ) ]",
        "[ getB ( b , 1 ) ]",
        "[ getS ( s , 1 ) ]",
        "[ x < 1 ]",
        "[ x <= - 1 ]",
        "[ x = 1 , x <> 2 ]",
        "[ x >= 1 , getR ( r , 1 ) , x > - 2 ]",
    ] {
        action(&["req ", claim, " ;"].concat());
        action(&["while ", claim, " { close ; }"].concat());
        action(&["try ", claim, " then { close ; }"].concat());
        action(&["try [ ] then { } etry ", claim, " then { close ; }"].concat());
    }
}

#[test]
fn what_declarations_write() {
    writes("res(a, 0);", &[res(0)]);
    writes("bin(a, 7);", &[bin(7)]);
    writes("sync(a);", &[sync()]);
    writes("var(a, 7);", &[var(7)]);
    writes("var(a, -7);", &[var(-7)]);
    writes("sampler(a, -7, 8, 9);", &[sampler(-7, 8, 9)]);
    writes("class a { }", &[class(0), block()]);
    writes("class a { local k, l; }", &[class(0), block()]);
    writes("class a; class a { }", &[class(0), block()]);
    let records = [class(0), entity(0, 7), block(), close()];
    writes("class a { close; } entity(a, 7);", &records);
}

/// The fields in the order written, in the order of the text; then the blocks.
#[test]
fn declarations_stand_in_the_order_of_the_text() {
    let text = "sync(s); class a { close; } var(x, 1); entity(a, 2); sampler(g, 3, 4, 5); class b { hold(6); }
                bin(b7, 7); entity(b, 8); res(r, 9);";
    let records = [
        sync(),
        class(0),
        var(1),
        entity(0, 2),
        sampler(3, 4, 5),
        class(1),
        bin(7),
        entity(1, 8),
        res(9),
        block(),
        close(),
        block(),
        hold(&lit(6)),
    ];
    writes(text, &records);
}

#[test]
fn what_actions_write() {
    body_writes("hold(1);", &[&[hold(&lit(1))]]);
    body_writes("priority(1);", &[&[prio(&lit(1))]]);
    body_writes("trace(1);", &[&[trace(&lit(1))]]);
    body_writes("x := 1;", &[&[set(0, &lit(1))]]);
    body_writes("local l; l := 1;", &[&[lset(0, &lit(1))]]);
    body_writes("do 2 { }", &[&[do_rounds(2, 1)], &[]]);
    body_writes("putR(r, 2);", &[&[putr(0, 2)]]);
    body_writes("putB(b, 2);", &[&[putb(0, 2)]]);
    body_writes("putS(s, 2);", &[&[puts(0, 2)]]);
    body_writes("become(s);", &[&[become_slave(0)]]);
    body_writes("req [];", &[&[req(&[])]]);
    body_writes("try [] then { }", &[&[try_branches(&[(1, &[])])], &[]]);
    body_writes("while [] { }", &[&[while_met(1, &[])], &[]]);
    body_writes("start(c, 2);", &[&[start(0, 2, &[])]]);
    body_writes("start(c, 2, [(r, 3)]);", &[&[start(0, 2, &[(0, 3)])]]);
    body_writes("close;", &[&[close()]]);
    body_writes("", &[&[]]);
}

#[test]
fn what_claims_write() {
    let items = [get_r(0, 2), get_b(0, 3), get_s(0, 4), condition(4, 0, -5)];
    let spelled = "[getR(r, 2), getB(b, 3), getS(s, 4), x <> -5]";
    body_writes(&["req ", spelled, ";"].concat(), &[&[req(&items)]]);
    body_writes(
        &["while ", spelled, " { }"].concat(),
        &[&[while_met(1, &items)], &[]],
    );
    let text = ["try ", spelled, " then { } etry [x < 1] then { }"].concat();
    let second: &[Item] = &[condition(1, 0, 1)];
    body_writes(
        &text,
        &[&[try_branches(&[(1, &items), (2, second)])], &[], &[]],
    );
    let text = "res(r, 1); res(q, 1); class c { start(c, 1, [(q, 2), (r, 3)]); }";
    let action = start(0, 1, &[(1, 2), (0, 3)]);
    writes(text, &[res(1), res(1), class(0), block(), action]);
}

/// Blocks are numbered in the order of their `{`, and what stands directly in each follows its BLOCK.
#[test]
fn blocks_inside_blocks() {
    let text = "do 1 { hold(1); while [] { hold(2); } hold(3); do 4 { } }
                hold(5);
                try [] then { hold(6); do 7 { hold(7); } } etry [] then { hold(8); }
                hold(9);";
    let one = |value: i32| hold(&lit(value));
    body_writes(
        text,
        &[
            &[
                do_rounds(1, 1),
                one(5),
                try_branches(&[(4, &[]), (6, &[])]),
                one(9),
            ],
            &[one(1), while_met(2, &[]), one(3), do_rounds(4, 3)],
            &[one(2)],
            &[],
            &[one(6), do_rounds(7, 5)],
            &[one(7)],
            &[one(8)],
        ],
    );
}

#[test]
fn an_etry_belongs_to_the_try_right_before_it() {
    let text = "try [] then { try [] then { } etry [] then { } } etry [] then { }";
    let inner = try_branches(&[(2, &[]), (3, &[])]);
    let outer = try_branches(&[(1, &[]), (4, &[])]);
    body_writes(text, &[&[outer], &[inner], &[], &[], &[]]);
    body_refused(51, "^etry [] then { }");
    body_refused(51, "try [] then { } close; ^etry [] then { }");
    body_refused(51, "try [] then { ^etry [] then { } }");
    body_refused(51, "while [] { } ^etry [] then { }");
}

/// Each is 51 at its mark.
const WRONG_DECLARATIONS: &[&str] = &[
    "res ^a, 1);",
    "res(^, 1);",
    "res(a ^1);",
    "res(a^);",
    "res(a, ^-1);",
    "res(a, ^b);",
    "res(a, 1^, 2);",
    "res(a, 1)^",
    "res(a, ^(1));",
    "res(a, 1 ^+ 1);",
    "bin(a^);",
    "^(a, 1);",
    "sync^;",
    "sync(a^, 1);",
    "sync(^);",
    "var(x^);",
    "var(x, - ^- 1);",
    "var(x, ^+1);",
    "sampler(g, 1, 2^);",
    "sampler(g, 1, 2, ^-3);",
    "class^",
    "class ^;",
    "class ^{ }",
    "class c^",
    "class c^(x) { }",
    "class c { } ^}",
    "class c { ^{ } }",
    "class ^1 { }",
    "class c { }^;",
    "class c { } entity(c^);",
    "class c { } entity(c, ^-1);",
    "entity(^1, 1);",
    "^hold(1);",
    "^local a;",
    "^;",
    "^}",
    "^a",
    "^1",
    "res(a, 1);^;",
    "^do 1 { }",
    "class c { close^",
    "class c { close ^}",
    "class c { hold(1) ^}",
    "class c { close;^",
];

#[test]
fn wrong_declarations() {
    for marked in WRONG_DECLARATIONS {
        refused(51, marked);
    }
}

#[test]
fn wrong_locals() {
    body_refused(51, "local ^;");
    body_refused(51, "local a ^b;");
    body_refused(51, "local a, ^;");
    body_refused(51, "local a, ^, b;");
    body_refused(51, "local ^1;");
    body_refused(51, "local a ^:= 1;");
    body_refused(51, "local a; ^local k;");
    body_refused(51, "close; ^local a;");
    body_refused(51, "do 1 { ^local a; }");
    body_refused(51, "local ^hold;");
}

/// In a body of class `c`, in the house; each is 51 at its mark.
const WRONG_ACTIONS: &[&str] = &[
    "hold ^1;",
    "hold(1^, 2);",
    "priority^;",
    "x^;",
    "x ^1;",
    "x := ^;",
    "^1 := x;",
    "^clock := 1;",
    "^(x) := 1;",
    "do ^{ }",
    "do ^x { }",
    "do ^-1 { }",
    "do ^(1) { }",
    "do 1 ^close;",
    "do 1 { }^;",
    "putR(r^);",
    "putR ^r, 1;",
    "putR(r, ^-1);",
    "putR(r, ^x);",
    "putB(b, 1^;",
    "putS(s^);",
    "putS(s, ^-1);",
    "become(s^, 1);",
    "become^;",
    "req^;",
    "req ^getR(r, 1);",
    "req [] ^then { }",
    "try [] ^{ }",
    "try [] then ^;",
    "try^;",
    "try [] then { }^;",
    "try [] then { } etry ^{ }",
    "try [] then { } etry [] ^{ }",
    "while ^{ }",
    "while [] ^then { }",
    "while []^;",
    "start(c^);",
    "start(c, ^-1);",
    "start(c, 1 ^[(r, 1)]);",
    "start(c, 1, ^(r, 1));",
    "start(c, 1, [^]);",
    "start(c, 1, [^r, 1]);",
    "start(c, 1, [(r, 1) ^(r, 1)]);",
    "start(c, 1, [(r, 1), ^]);",
    "start(c, 1, [(r, 1)]^, [(r, 1)]);",
    "start(c, 1, [(r^)]);",
    "trace(^);",
    "close^(1);",
    "^;",
    "^{ }",
    "^then",
    "^getR(r, 1);",
    "^res(a, 1);",
    "^class d { }",
    "^+",
    "hold(1)^, hold(1);",
    "^[]",
    "^]",
    "close; }^;",
];

#[test]
fn wrong_actions() {
    for marked in WRONG_ACTIONS {
        body_refused(51, marked);
    }
}

/// Wherever a claim can stand; each is 51 at its mark.
const WRONG_CLAIMS: &[&str] = &[
    "[^, ]",
    "[getR(r, 1)^; ]",
    "[getR(r, 1), ^]",
    "[getR(r, 1) ^getR(r, 1)]",
    "[getR ^r, 1]",
    "[getR(r^)]",
    "[getR(r, ^-1)]",
    "[getR(r, ^x)]",
    "[getB(b^)]",
    "[getS(s^)]",
    "[x^]",
    "[x ^1]",
    "[x ^:= 1]",
    "[^1 < x]",
    "[x < ^x]",
    "[x < - ^- 1]",
    "[x < 1 ^+ 1]",
    "[x < ^(1)]",
    "[x < 1 ^< 2]",
    "[^[]]",
    "[^clock < 1]",
    "[^(x < 1)]",
    "[^putR(r, 1)]",
    "[x < ^clock]",
];

#[test]
fn wrong_claims() {
    for marked in WRONG_CLAIMS {
        body_refused(51, &["req ", marked, ";"].concat());
        body_refused(51, &["while ", marked, " { }"].concat());
        body_refused(51, &["try ", marked, " then { }"].concat());
        body_refused(51, &["try [] then { } etry ", marked, " then { }"].concat());
    }
}
