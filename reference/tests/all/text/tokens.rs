//! Blanks, comments, words and signs: section 2 of TEXT.md.

use super::*;

const KEYWORDS: [&str; 29] = [
    "res", "bin", "sync", "var", "sampler", "class", "entity", "local", "hold", "priority", "do",
    "putR", "putB", "putS", "become", "req", "try", "then", "etry", "while", "start", "trace",
    "close", "getR", "getB", "getS", "clock", "lesser", "greater",
];

fn found(text: &[u8]) -> Result<Vec<u8>, Refused> {
    read_text(text, ROOM)
}

fn wrong_at(place: usize) -> Result<Vec<u8>, Refused> {
    Err(Refused { number: 51, place })
}

#[test]
fn an_empty_text_is_an_empty_file() {
    for text in ["", " ", "\t\r\n ", "#", "# res(a, 1);", "#\n#\r#"] {
        writes(text, &[]);
    }
}

#[test]
fn blanks_and_comments_between_any_two_tokens() {
    let records = [res(1), var(-2)];
    writes("res(a,1);var(x,-2);", &records);
    writes("\tres\r(\na ,\r\n1\t) ; var ( x , - 2 ) ; ", &records);
    writes(
        "# 1\nres#(\n(#a\ra#,\n,#\n1#2\n)#;\n;var(x,-#3\n2);#",
        &records,
    );
}

#[test]
fn a_comment_ends_before_cr_or_lf_or_with_the_text() {
    writes("# a # b\rres(a, 1);", &[res(1)]);
    writes("# a # b\nres(a, 1);", &[res(1)]);
    writes("res(a, 1);# b ; @", &[res(1)]);
    refused(51, "res(a, 1)#;^");
    refused(51, "res(a, 1)#;\n^");
    refused(51, "res(a, 1)#\n ^@");
    let mut any = vec![b'#'];
    any.extend((0..=255).filter(|byte| !matches!(byte, b'\r' | b'\n')));
    assert_eq!(found(&any), Ok(vec![]));
    any.extend(*b"\r@");
    assert_eq!(found(&any), wrong_at(256));
}

#[test]
fn a_blank_or_comment_ends_a_word() {
    refused(51, "^re s(a, 1);");
    refused(51, "^re#\ns(a, 1);");
    refused(51, "res(a ^b, 1);");
    refused(51, "res(a, 1 ^2);");
    refused(51, "res(a, 1#\n^2);");
    // Without a blank these are one name each.
    refused(51, "^resa, 1);");
    body_refused(52, "^do3 { }");
    refused(51, "class c { do ^3x { } }");
}

#[test]
fn every_byte_alone_and_behind_a_declaration() {
    for byte in 0..=255 {
        let nothing = matches!(byte, b' ' | b'\t' | b'\r' | b'\n' | b'#');
        let alone = if nothing { Ok(vec![]) } else { wrong_at(0) };
        assert_eq!(found(&[byte]), alone, "{byte}");
        let behind = if nothing { Ok(res(1)) } else { wrong_at(10) };
        assert_eq!(
            found(&[&b"res(a, 1);"[..], &[byte]].concat()),
            behind,
            "{byte}"
        );
    }
}

#[test]
fn every_byte_inside_a_name() {
    for byte in 0..=255_u8 {
        let text = [&b"res(a"[..], &[byte], b"b, 1);"].concat();
        let expected = match byte {
            b'a'..=b'z' | b'A'..=b'Z' | b'0'..=b'9' => Ok(res(1)),
            b' ' | b'\t' | b'\r' | b'\n' => wrong_at(6),
            b'#' => wrong_at(text.len()),
            b',' => wrong_at(6),
            _ => wrong_at(5),
        };
        assert_eq!(found(&text), expected, "{byte}");
    }
}

#[test]
fn names_are_letters_and_digits() {
    refused(51, "res(a^_b, 1);");
    refused(51, "res(caf^é, 1);");
    refused(51, "^\u{feff}res(a, 1);");
    writes("res(a1B2c3, 1); res(0x, 2);", &[res(1), res(2)]);
}

#[test]
fn capitals_and_small_letters_differ() {
    writes("res(a, 1); bin(A, 2);", &[res(1), bin(2)]);
    refused(52, "res(ab, 1); class c { putR(^aB, 1); }");
}

#[test]
fn a_keyword_is_no_name() {
    for keyword in KEYWORDS {
        refused(51, &["res(^", keyword, ", 1);"].concat());
        let capitals = keyword.to_ascii_uppercase();
        writes(&["res(", &capitals, ", 1);"].concat(), &[res(1)]);
        let other = if keyword.ends_with(char::is_uppercase) {
            keyword.to_ascii_lowercase()
        } else {
            keyword[..1].to_ascii_uppercase() + &keyword[1..]
        };
        writes(&["res(", &other, ", 1);"].concat(), &[res(1)]);
    }
}

#[test]
fn words_without_quotes_in_the_grammar_are_names() {
    let words = "text end declaration locals action block give claim item relation signed \
                 expression term factor minus atom number count magnitude new store resource \
                 variable value";
    for word in words.split_whitespace() {
        writes(&["res(", word, ", 1);"].concat(), &[res(1)]);
    }
}

#[test]
fn names_of_16_and_17() {
    writes("res(abcdefghijklmnop, 1);", &[res(1)]);
    writes("res(123456789012345a, 1);", &[res(1)]);
    refused(51, "res(^abcdefghijklmnopq, 1);");
    refused(51, "res(^1234567890123456a, 1);");
    refused(51, "res(abcdefghijklmnop, 1); res(^abcdefghijklmnopq, 1);");
    // It is no token, so it isn't a name that nobody knows.
    body_refused(51, "^abcdefghijklmnopq := 1;");
    body_refused(52, "^abcdefghijklmnop := 1;");
    refused(51, "^abcdefghijklmnopq");
}

#[test]
fn numbers_have_any_number_of_digits() {
    writes("res(a, 00000000000000001);", &[res(1)]);
    writes(&["res(a, ", &"0".repeat(1_000), "7);"].concat(), &[res(7)]);
    refused(51, "res(a, ^10000000000000000);");
    refused(51, &["res(a, ^", &"9".repeat(1_000), ");"].concat());
    refused(51, &["var(x, -^", &"1".repeat(1_000), ");"].concat());
    body_refused(51, &["hold(^", &"8".repeat(1_000), ");"].concat());
    // 2 to the power of 64, and 1 more: no counting round.
    refused(51, "res(a, ^18446744073709551616);");
    refused(51, "res(a, ^18446744073709551617);");
}

#[test]
fn becomes() {
    let records: &[Vec<u8>] = &[set(0, &global(0))];
    body_writes("x:=x;", &[records]);
    body_writes("x :=x ;", &[records]);
    body_refused(51, "x ^: = x;");
    body_refused(51, "x ^:#\n= x;");
    body_refused(51, "x ^: x;");
    body_refused(51, "x ^= x;");
    body_refused(51, "x :=^= x;");
    body_refused(51, "x :=^:= x;");
    refused(51, "var(x, 0); class c { x ^:");
}

#[test]
fn the_longest_sign() {
    for (spelled, relation, amount) in [
        ("x<1", 1, 1),
        ("x<=1", 2, 1),
        ("x=1", 3, 1),
        ("x<>1", 4, 1),
        ("x>=1", 5, 1),
        ("x>1", 6, 1),
        ("x<-1", 1, -1),
        ("x<>-1", 4, -1),
        ("x>=-1", 5, -1),
    ] {
        let claim = [condition(relation, 0, amount)];
        body_writes(&["req [", spelled, "];"].concat(), &[&[req(&claim)]]);
    }
    for wrong in [
        "x < ^> 1", "x < ^= 1", "x > ^= 1", "x <>^= 1", "x <=^> 1", "x =^< 1", "x =^> 1",
        "x >=^= 1", "x <^< 1", "x >^> 1", "x >^< 1", "x ^! 1", "x ^:= 1", "x ^+ 1",
    ] {
        body_refused(51, &["req [", wrong, "];"].concat());
    }
}
