//! Expressions: what binds to what, minus, brackets, and the nodes that are written.

use super::*;

fn add(a: Vec<Node>, b: Vec<Node>) -> Vec<Node> {
    over(3, &[a, b])
}

fn subtract(a: Vec<Node>, b: Vec<Node>) -> Vec<Node> {
    over(4, &[a, b])
}

fn multiply(a: Vec<Node>, b: Vec<Node>) -> Vec<Node> {
    over(5, &[a, b])
}

fn minus(a: Vec<Node>) -> Vec<Node> {
    over(9, &[a])
}

fn is_read_as(spelled: &str, nodes: &[Node]) {
    body_writes(&["hold(", spelled, ");"].concat(), &[&[hold(nodes)]]);
}

/// `^` as in `refused`.
fn is_wrong(spelled: &str) {
    body_refused(51, &["hold(", spelled, ");"].concat());
}

#[test]
fn leaves() {
    is_read_as("0", &lit(0));
    is_read_as("2147483647", &lit(i32::MAX));
    is_read_as("x", &global(0));
    is_read_as("g", &draw(0));
    is_read_as("clock", &clock());
    body_writes("local k, l; hold(l);", &[&[hold(&local(1))]]);
}

#[test]
fn two_trees() {
    is_read_as("x + 1", &add(global(0), lit(1)));
    is_read_as("x - 1", &subtract(global(0), lit(1)));
    is_read_as("x * 1", &multiply(global(0), lit(1)));
    is_read_as("lesser(x, 1)", &over(6, &[global(0), lit(1)]));
    is_read_as("greater(x, 1)", &over(7, &[global(0), lit(1)]));
}

#[test]
fn by_hand_in_bytes() {
    let text = in_body("hold(1 + 2 * 3 - 4);");
    let file = read_text(text.as_bytes(), ROOM).expect("it is right");
    let nodes = [
        [4, 0, 0, 0, 0, 0], // subtract
        [3, 0, 0, 0, 0, 0], // .. add
        [0, 0, 1, 0, 0, 0], // .. .. 1
        [5, 0, 0, 0, 0, 0], // .. .. multiply
        [0, 0, 2, 0, 0, 0], // .. .. .. 2
        [0, 0, 3, 0, 0, 0], // .. .. .. 3
        [0, 0, 4, 0, 0, 0], // .. 4
    ];
    assert_eq!(
        file[file.len() - 46..],
        [&[44, 0, 16, 0][..], &nodes.concat()].concat()
    );
}

#[test]
fn alike_goes_from_the_left() {
    let [a, b, c, d] = [lit(1), lit(2), lit(3), lit(4)];
    is_read_as(
        "1 - 2 - 3",
        &subtract(subtract(a.clone(), b.clone()), c.clone()),
    );
    is_read_as("1 + 2 - 3", &subtract(add(a.clone(), b.clone()), c.clone()));
    is_read_as("1 - 2 + 3", &add(subtract(a.clone(), b.clone()), c.clone()));
    is_read_as(
        "1 * 2 * 3",
        &multiply(multiply(a.clone(), b.clone()), c.clone()),
    );
    let three = subtract(subtract(a, b), c);
    is_read_as("1 - 2 - 3 - 4", &subtract(three, d));
}

#[test]
fn times_binds_closer() {
    let [a, b, c, d] = [lit(1), lit(2), lit(3), lit(4)];
    is_read_as("1 + 2 * 3", &add(a.clone(), multiply(b.clone(), c.clone())));
    is_read_as("1 * 2 + 3", &add(multiply(a.clone(), b.clone()), c.clone()));
    is_read_as(
        "1 - 2 * 3",
        &subtract(a.clone(), multiply(b.clone(), c.clone())),
    );
    let product = multiply(multiply(b.clone(), c.clone()), d.clone());
    is_read_as("1 + 2 * 3 * 4", &add(a.clone(), product));
    is_read_as("1 * 2 - 3 * 4", &subtract(multiply(a, b), multiply(c, d)));
}

#[test]
fn brackets_bind_first_and_write_nothing() {
    let [a, b, c] = [lit(1), lit(2), lit(3)];
    is_read_as("((1))", &a);
    is_read_as(
        "1 - (2 - 3)",
        &subtract(a.clone(), subtract(b.clone(), c.clone())),
    );
    is_read_as(
        "(1 + 2) * 3",
        &multiply(add(a.clone(), b.clone()), c.clone()),
    );
    is_read_as(
        "1 * (2 * 3)",
        &multiply(a.clone(), multiply(b.clone(), c.clone())),
    );
    is_read_as(
        "1 * (2 + 3)",
        &multiply(a.clone(), add(b.clone(), c.clone())),
    );
    is_read_as(
        "lesser((1), 2 + 3)",
        &over(6, &[a.clone(), add(b.clone(), c.clone())]),
    );
    is_read_as("greater(1, 2) - 3", &subtract(over(7, &[a, b]), c));
}

#[test]
fn a_minus_before_a_number_is_a_part_of_it() {
    is_read_as("-5", &lit(-5));
    is_read_as("- 5", &lit(-5));
    is_read_as("-#\n5", &lit(-5));
    is_read_as("-0", &lit(0));
    is_read_as("-005", &lit(-5));
    is_read_as("2 * -5", &multiply(lit(2), lit(-5)));
    is_read_as("-2 * 5", &multiply(lit(-2), lit(5)));
    is_read_as("2 - -5", &subtract(lit(2), lit(-5)));
    is_read_as("2 + -5", &add(lit(2), lit(-5)));
    is_read_as("2--5", &subtract(lit(2), lit(-5)));
    is_read_as("2---5", &subtract(lit(2), minus(lit(-5))));
}

#[test]
fn a_minus_between_two_is_not_a_part_of_the_number() {
    is_read_as("2 -5", &subtract(lit(2), lit(5)));
    is_read_as("2-5", &subtract(lit(2), lit(5)));
    is_read_as("x -5", &subtract(global(0), lit(5)));
}

#[test]
fn a_minus_before_anything_else_is_a_node() {
    is_read_as("-x", &minus(global(0)));
    is_read_as("-clock", &minus(clock()));
    is_read_as("-g", &minus(draw(0)));
    is_read_as("-(5)", &minus(lit(5)));
    is_read_as("-(-5)", &minus(lit(-5)));
    is_read_as("- -5", &minus(lit(-5)));
    is_read_as("--5", &minus(lit(-5)));
    is_read_as("---5", &minus(minus(lit(-5))));
    is_read_as("--x", &minus(minus(global(0))));
    is_read_as("-lesser(1, 2)", &minus(over(6, &[lit(1), lit(2)])));
    is_read_as("-x * 2", &multiply(minus(global(0)), lit(2)));
    is_read_as("2 * -x", &multiply(lit(2), minus(global(0))));
    is_read_as("-x - x", &subtract(minus(global(0)), global(0)));
    is_read_as("-(x * 2)", &minus(multiply(global(0), lit(2))));
}

#[test]
fn the_lowest_number() {
    is_read_as("-2147483648", &lit(i32::MIN));
    is_read_as("- 002147483648", &lit(i32::MIN));
    is_read_as("- -2147483648", &minus(lit(i32::MIN)));
    is_read_as("2 * -2147483648", &multiply(lit(2), lit(i32::MIN)));
    is_wrong("^2147483648");
    is_wrong("-^2147483649");
    is_wrong("- -^2147483649");
    is_wrong("-(^2147483648)");
    is_wrong("1 - ^2147483648");
    is_wrong("1 + ^2147483648");
    is_read_as("1 - -2147483648", &subtract(lit(1), lit(i32::MIN)));
}

#[test]
fn wrong_expressions() {
    for spelled in [
        "^",
        "^+ 1",
        "^* 1",
        "1 ^x",
        "x ^1",
        "x ^x",
        "1 + ^",
        "1 + ^+ 1",
        "1 * ^* 1",
        "1 - ^* 1",
        "(^)",
        "(1 ^2",
        "1^]",
        "1^, 2",
        "-^",
        "- ^* 1",
        "- ^+ 1",
        "x^(1)",
        "clock^(1)",
        "1 ^< 2",
        "lesser ^1",
        "lesser(^)",
        "lesser(1^)",
        "lesser(1, ^)",
        "lesser(1, 2^, 3)",
        "lesser^",
        "greater(1 ^2)",
        "greater(^, 2)",
        "^hold",
        "^getR",
        "1 ^clock",
        "1 ^lesser(1, 2)",
        "^:= 1",
    ] {
        is_wrong(spelled);
    }
}

#[test]
fn brackets_16_and_17_deep() {
    let nested = |deep: usize, open: &str, inside: &str, shut: &str| {
        [&open.repeat(deep), inside, &shut.repeat(deep)].concat()
    };
    is_read_as(&nested(16, "(", "x", ")"), &global(0));
    is_wrong(&nested(16, "(", "^(x)", ")"));
    // A word that needs a bracket is one too many itself.
    is_wrong(&nested(16, "(", "^lesser(1, 2)", ")"));
    is_wrong(&nested(16, "(", "1 + ^greater(1, 2)", ")"));
    is_wrong(&nested(16, "(", "-^(x)", ")"));
    let inside_15 = nested(15, "(", "lesser(1, 2)", ")");
    is_read_as(&inside_15, &over(6, &[lit(1), lit(2)]));
    is_wrong(&nested(15, "(", "lesser(1, ^(2))", ")"));
    is_wrong(&nested(15, "(", "greater(^(1), 2)", ")"));
    // 16 lessers are 33 nodes: within the brackets, over the nodes.
    let lessers = nested(16, "lesser(x, ", "x", ")");
    body_refused(54, &["^hold(", &lessers, ");"].concat());
    is_wrong(&nested(16, "lesser(x, ", "^lesser(x, x)", ")"));
}

#[test]
fn brackets_that_are_shut_count_no_more() {
    let deep = ["(".repeat(16), "1".to_string(), ")".repeat(16)].concat();
    is_read_as(&[&deep, " + ", &deep].concat(), &add(lit(1), lit(1)));
    let text = [
        "x := ",
        &deep,
        "; trace(",
        &deep,
        "); priority(",
        &deep,
        ");",
    ]
    .concat();
    let one = lit(1);
    body_writes(&text, &[&[set(0, &one), trace(&one), prio(&one)]]);
    body_refused(51, &["x := ", &"(".repeat(16), "^(1"].concat());
}
