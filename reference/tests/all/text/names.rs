//! Which names are known, which fit, and which are taken: section 4 of TEXT.md.

use super::*;

/// A name of each kind, known in the body of `c`; `a` is announced, `u` is unknown.
const NAMES: [&str; 9] = ["r", "b", "s", "x", "g", "c", "a", "l", "u"];

/// `?` stands for the name. Only those that fit are right; each other one is 52.
fn asks_for(fits: &[&str], action: &str) {
    let before = [HOUSE, "class a; class c { local l; "].concat();
    let place = before.len() + action.find('?').expect("a name is asked for");
    for name in NAMES {
        let action = action.replace('?', name);
        let text = [&before, &action, " } class a { }"].concat();
        if fits.contains(&name) {
            is_right(&text);
        } else {
            refused_at(52, place, &text);
        }
    }
}

#[test]
fn each_kind_where_it_is_asked_for() {
    asks_for(&["r"], "putR(?, 1);");
    asks_for(&["r"], "req [getR(?, 1)];");
    asks_for(&["r"], "start(c, 1, [(?, 1)]);");
    asks_for(&["b"], "putB(?, 1);");
    asks_for(&["b"], "while [getB(?, 1)] { }");
    asks_for(&["s"], "putS(?, 1);");
    asks_for(&["s"], "become(?);");
    asks_for(&["s"], "try [getS(?, 1)] then { }");
    asks_for(&["c", "a"], "start(?, 1);");
    asks_for(&["x"], "req [? < 1];");
    asks_for(&["x"], "try [] then { } etry [x = 1, ? = 1] then { }");
    asks_for(&["x", "l"], "? := 1;");
    asks_for(&["x", "l", "g"], "hold(?);");
    asks_for(&["x", "l", "g"], "x := 1 - (2 * ?);");
    asks_for(&["x", "l", "g"], "trace(lesser(1, -?));");
}

/// Locals of the class are known no more.
#[test]
fn an_entity_asks_for_a_class() {
    let before = [HOUSE, "class a; class c { local l; } "].concat();
    for name in NAMES {
        let text = [&before, "entity(", name, ", 1); class a { }"].concat();
        if name == "c" || name == "a" {
            is_right(&text);
        } else {
            refused_at(52, before.len() + 7, &text);
        }
    }
}

#[test]
fn a_name_is_declared_before_it_is_used() {
    refused(52, "entity(^c, 0); class c { }");
    refused(52, "class c { putR(^a, 1); } res(a, 1);");
    refused(52, "class c { start(^d, 1); } class d { }");
    is_right("class d; class c { start(d, 1); } class d { }");
}

#[test]
fn numbers_count_each_kind_in_the_order_of_declaration() {
    let text = "res(a, 1); bin(b, 1); res(c, 1); bin(d, 1); var(e, 0); var(f, 0); sync(g); sync(h);
                sampler(i, 1, 1, 1); sampler(j, 1, 1, 1); class k { } class l { local m, n, o;
                putR(c, 1); putB(d, 1); f := e; become(h); o := j + n; req [getR(a, 1), f < 1]; start(k, 1); }
                entity(l, 0);";
    let records = [
        res(1),
        bin(1),
        res(1),
        bin(1),
        var(0),
        var(0),
        sync(),
        sync(),
        sampler(1, 1, 1),
        sampler(1, 1, 1),
        class(0),
        class(1),
        entity(1, 0),
        block(),
        block(),
        putr(1, 1),
        putb(1, 1),
        set(1, &global(0)),
        become_slave(1),
        lset(2, &over(3, &[draw(1), local(1)])),
        req(&[get_r(0, 1), condition(1, 1, 1)]),
        start(0, 1, &[]),
    ];
    writes(text, &records);
}

#[test]
fn a_taken_name_is_not_declared_again() {
    for name in ["r", "b", "s", "x", "g", "c", "a"] {
        for declaration in [
            "res(?, 1);",
            "bin(?, 1);",
            "sync(?);",
            "var(?, 1);",
            "sampler(?, 1, 1, 1);",
            "class d { local k, ?; }",
        ] {
            let marked = declaration.replace('?', &["^", name].concat());
            refused(53, &[HOUSE, "class c { } class a; ", &marked].concat());
        }
        refused(
            53,
            &[HOUSE, "class c { } class a; class ^", name, ";"].concat(),
        );
        let body = [HOUSE, "class c { } class a; class ^", name, " { }"].concat();
        if name == "a" {
            is_right(&body.replace('^', ""));
        } else {
            refused(53, &body);
        }
    }
}

#[test]
fn locals_are_known_to_the_end_of_their_body() {
    is_right("class c { local a; do 1 { a := 1; do 2 { hold(a); } } trace(a); }");
    refused(52, "class c { local a; } class d { hold(^a); }");
    refused(52, "class c { local a; } class d { ^a := 1; }");
    refused(52, "class c { local a; } class d { local b; hold(^a); }");
    refused(52, "class c { ^a := 1; }");
}

#[test]
fn a_local_s_name_is_free_again_behind_its_body() {
    writes(
        "class c { local a; } res(a, 1);",
        &[class(0), res(1), block()],
    );
    writes(
        "class c { local a; } class a { }",
        &[class(0), class(1), block(), block()],
    );
    let text = "class c { local a, b; } class d { local b, a; a := b; }";
    let records = [class(0), class(1), block(), block(), lset(1, &local(0))];
    writes(text, &records);
    let text = "class c { local a; a := 1; } var(a, 0); class d { a := 1; }";
    let records = [
        class(0),
        var(0),
        class(1),
        block(),
        lset(0, &lit(1)),
        block(),
        set(0, &lit(1)),
    ];
    writes(text, &records);
}

#[test]
fn a_local_s_name_is_taken_in_its_body() {
    refused(53, "class c { local a, ^a; }");
    refused(53, "class c { local a, b, ^a; }");
    refused(53, "class c { local ^c; }");
    refused(53, "class d; class c { local ^d; } class d { }");
    refused(53, "class d; class d { local ^d; }");
}

#[test]
fn a_class_may_start_itself() {
    writes(
        "class c { start(c, 1); }",
        &[class(0), block(), start(0, 1, &[])],
    );
    writes(
        "class c; class c { start(c, 1); }",
        &[class(0), block(), start(0, 1, &[])],
    );
}

/// CLASS records stand in the order of the first lines, bodies in the order of their `{`.
#[test]
fn announced_classes() {
    let text = "class a; res(r, 1); class b; entity(b, 3); class c { start(a, 1); start(b, 2); }
                class b { close; } entity(a, 4); class a { trace(1); }";
    let records = [
        class(2),
        res(1),
        class(1),
        entity(1, 3),
        class(0),
        entity(0, 4),
        block(),
        start(0, 1, &[]),
        start(1, 2, &[]),
        block(),
        close(),
        block(),
        trace(&lit(1)),
    ];
    writes(text, &records);
}

#[test]
fn only_one_body_and_one_announcement() {
    refused(53, "class c; class ^c;");
    refused(53, "class c; class ^c; class c { }");
    refused(53, "class c { } class ^c;");
    refused(53, "class c { } class ^c { }");
    refused(53, "class c; class c { } class ^c;");
    refused(53, "class c; class c { } class ^c { }");
    refused(53, "res(c, 1); class ^c;");
    refused(53, "res(c, 1); class ^c { }");
}

/// Of an announced class the token behind the name tells; of any other taken name nothing behind it is read.
#[test]
fn what_stands_behind_the_name_of_a_class() {
    refused(51, "class c; class c ^@");
    refused(51, "class c; class c^");
    refused(51, "class c; class c^(");
    refused(51, "class c; class c ^c;");
    refused(53, "class c { } class ^c @");
    refused(53, "class c { } class ^c");
    refused(53, "res(c, 1); class ^c @");
}

#[test]
fn misspelt_words() {
    body_refused(52, "^Hold(1);");
    body_refused(52, "^puts(s, 1);");
    body_refused(52, "req [^GetR(r, 1)];");
    body_refused(52, "hold(^Clock);");
    body_refused(52, "hold(^max(1, 2));");
    body_refused(52, "try [] then { } ^Etry [] then { }");
    // Where no name can stand it is 51.
    body_refused(51, "try [] ^Then { }");
    refused(51, "^Res(a, 1);");
    // A name that is known and fits is taken for what it is.
    refused(51, "var(Hold, 0); class c { Hold^(1); }");
    refused(52, "res(Hold, 0); class c { ^Hold(1); }");
}
