//! The program `records`, the memory that is lent, and the names that are told.

use super::*;
use reference::text::{read_names, Kind, Name};
use std::io::Write;
use std::process::{Command, Stdio};

const TWO_JOBS: &str =
    "res(suite, 1); class job { req [getR(suite, 1)]; hold(3); putR(suite, 1); } entity(job, 0); entity(job, 0);";

/// What a program writes on this input, and whether it ended well.
fn output(program: &str, input: &[u8]) -> (Vec<u8>, Option<i32>) {
    let mut program = Command::new(program)
        .stdin(Stdio::piped())
        .stdout(Stdio::piped())
        .spawn()
        .expect("it starts");
    let mut pipe = program.stdin.take().expect("a pipe");
    pipe.write_all(input).expect("it reads all");
    drop(pipe);
    let output = program.wait_with_output().expect("it ends");
    (output.stdout, output.status.code())
}

fn records(text: &str) -> (Vec<u8>, Option<i32>) {
    output(env!("CARGO_BIN_EXE_records"), text.as_bytes())
}

#[test]
fn writes_the_record_file() {
    let (file, status) = records(TWO_JOBS);
    assert_eq!((file.len(), status), (72, Some(0)));
    let (plan, _) = output(env!("CARGO_BIN_EXE_plan"), &file);
    let lines = "0 1 4 0\n0 2 3 1\n3 1 2 0\n3 1 5 0\n3 2 4 0\n6 2 2 0\n6 2 5 0\nidle 10 bound 10\n";
    assert_eq!(plan, lines.as_bytes());
    assert_eq!(records(""), (vec![], Some(0)));
}

#[test]
fn prints_a_refusal() {
    for (text, line) in [
        ("@", "refused 51 at 0\n"),
        ("entity(c, 0);", "refused 52 at 7\n"),
        ("res(a, 1); res(a, 1);", "refused 53 at 15\n"),
        ("res(a, 1); class c;", "refused 54 at 11\n"),
    ] {
        assert_eq!(records(text), (line.as_bytes().to_vec(), Some(1)));
    }
}

#[test]
fn room() {
    let text = TWO_JOBS.as_bytes();
    let too_short = Err(Refused {
        number: 55,
        place: text.len(),
    });
    assert_eq!(read_text(text, 72).map(|file| file.len()), Ok(72));
    assert_eq!(read_text(text, 1_000).map(|file| file.len()), Ok(72));
    assert_eq!(read_text(text, 71), too_short);
    assert_eq!(read_text(text, 0), too_short);
    assert_eq!(read_text(b" ", 0), Ok(vec![]));
    let place = 15;
    assert_eq!(
        read_text(b"res(a, 1); # a\n", 7),
        Err(Refused { number: 55, place })
    );
}

#[test]
fn room_is_looked_at_last() {
    for (text, number, place) in [
        ("res(a, 1); @", 51, 11),
        ("class c { } entity(d, 1);", 52, 19),
        ("res(a, 1); res(a, 1);", 53, 15),
        ("res(a, 1); class c;", 54, 11),
        ("res(a, 1); res(b, 1", 51, 19),
    ] {
        assert_eq!(
            read_text(text.as_bytes(), 0),
            Err(Refused { number, place })
        );
    }
}

#[test]
fn names_with_their_kind_and_number() {
    let text = "res(a, 1); class d; bin(b, 1); class c { local l; } res(r, 1); class d { } sync(s); var(x, 0);
                sampler(g, 1, 1, 1); entity(c, 0);";
    let expected = [
        ("a", Kind::Resource, 0),
        ("d", Kind::Class, 0),
        ("b", Kind::Bin, 0),
        ("c", Kind::Class, 1),
        ("r", Kind::Resource, 1),
        ("s", Kind::Sync, 0),
        ("x", Kind::Variable, 0),
        ("g", Kind::Sampler, 0),
    ];
    let expected = expected.map(|(name, kind, number)| Name {
        name: name.to_string(),
        kind,
        number,
    });
    assert_eq!(read_names(text.as_bytes()), Ok(expected.to_vec()));
    let refused = Refused {
        number: 54,
        place: 0,
    };
    assert_eq!(read_names(b"class c;"), Err(refused));
}
