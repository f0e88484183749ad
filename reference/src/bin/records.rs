//! The program `records`: reads a text from standard input and writes its record file, or prints why it is refused.

use reference::model::MOST_BYTES;
use reference::text::read_text;
use std::io::{self, Read, Write};
use std::process::ExitCode;

fn main() -> io::Result<ExitCode> {
    let mut text = Vec::new();
    io::stdin().read_to_end(&mut text)?;
    let mut out = io::stdout().lock();
    // There is room for any file that passes the checks, so 55 is never met.
    match read_text(&text, MOST_BYTES) {
        Ok(file) => {
            out.write_all(&file)?;
            Ok(ExitCode::SUCCESS)
        }
        Err(refused) => {
            writeln!(out, "refused {} at {}", refused.number, refused.place)?;
            Ok(ExitCode::FAILURE)
        }
    }
}
