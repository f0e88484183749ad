//! Writes tokens as bytes: blanks of every kind, comments, or nothing at all where nothing is needed.

use super::tokens::Token;
use crate::random::Random;

/// The bytes of a text, and the place of each token.
pub struct Laid {
    pub bytes: Vec<u8>,
    pub places: Vec<usize>,
}

/// How a text is laid out.
#[derive(Clone, Copy, PartialEq)]
enum Style {
    /// As few blanks as can be.
    Tight,
    /// A blank between tokens, and line ends.
    Plain,
    /// Any blanks and comments.
    Wild,
}

pub fn lay(random: &mut Random, tokens: &[Token]) -> Laid {
    let style = random.pick(&[Style::Tight, Style::Plain, Style::Plain, Style::Wild]);
    let mut laid = Laid { bytes: Vec::new(), places: Vec::new() };
    for token in tokens {
        if needs_blank(&laid.bytes, &token.spelled) {
            laid.bytes.extend(blank(random, style));
        }
        gap(random, style, &mut laid.bytes);
        laid.places.push(laid.bytes.len());
        laid.bytes.extend(&token.spelled);
    }
    // The end's place is the length of the text, whatever stands behind the last token.
    if tokens.last().is_some_and(|last| last.kind == super::tokens::END) {
        if style == Style::Wild && random.one_in(2) {
            comment(random, &mut laid.bytes);
        }
        *laid.places.last_mut().expect("the end") = laid.bytes.len();
    }
    laid
}

/// Whether two tokens would be read as one, or as others.
fn needs_blank(before: &[u8], token: &[u8]) -> bool {
    let (Some(last), Some(first)) = (before.last(), token.first()) else {
        return false;
    };
    last.is_ascii_alphanumeric() && first.is_ascii_alphanumeric()
        || matches!(last, b'<' | b'>' | b':') && matches!(first, b'=' | b'>')
}

fn blank(random: &mut Random, style: Style) -> Vec<u8> {
    match style {
        Style::Wild => vec![random.pick(b" \t\r\n")],
        _ => vec![b' '],
    }
}

fn gap(random: &mut Random, style: Style, bytes: &mut Vec<u8>) {
    match style {
        Style::Tight => {}
        Style::Plain => {
            if matches!(bytes.last(), Some(b';' | b'{' | b'}')) {
                bytes.push(b'\n');
            } else if random.one_in(3) {
                bytes.push(b' ');
            }
        }
        Style::Wild => {
            for _ in 0..random.pick(&[0, 0, 1, 1, 2, 5]) {
                bytes.push(random.pick(b" \t\r\n"));
            }
            if random.one_in(8) {
                comment(random, bytes);
                bytes.extend(random.pick(&[&b"\n"[..], b"\r", b"\r\n"]));
            }
        }
    }
}

/// A comment of any bytes, without the CR or LF that ends it.
fn comment(random: &mut Random, bytes: &mut Vec<u8>) {
    bytes.push(b'#');
    let said = random.pick(&[&b""[..], b" two suites, one deck", b"# res(a, 1); }", b" \x00\xff\x80 :=", b" @ class c {"]);
    bytes.extend(said);
    for _ in 0..random.below(4) {
        let any = random.next() as u8;
        bytes.extend(Some(any).filter(|byte| !matches!(byte, b'\r' | b'\n')));
    }
}
