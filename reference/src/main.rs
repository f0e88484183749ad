//! The program `plan`: runs the model on standard input and prints its journal, its answer and its bound.

use reference::bound::{bound, Bound};
use reference::journal::{lines, LINE_BYTES};
use reference::model::{decode, MOST_BYTES};
use reference::run::{Answer, State, MOST_LINES};
use std::io::{self, BufWriter, Read, Write};

const MOST_STEPS: u32 = 1_000_000;

/// The journal is emptied between calls of this many steps, and has room for all that they can write.
const STEPS_OF_A_CALL: u32 = 1_000;
const ROOM: usize = STEPS_OF_A_CALL as usize * MOST_LINES * LINE_BYTES;

fn main() -> io::Result<()> {
    // One byte over the limit tells that the model is too long; no more is read.
    let mut bytes = Vec::new();
    io::stdin()
        .take(MOST_BYTES as u64 + 1)
        .read_to_end(&mut bytes)?;
    let mut out = BufWriter::new(io::stdout().lock());
    plan(&bytes, &mut out)?;
    out.flush()
}

fn plan(bytes: &[u8], out: &mut impl Write) -> io::Result<()> {
    let model = match decode(bytes) {
        Ok(model) => model,
        Err(refusal) => return writeln!(out, "refused {} at {}", refusal.number, refusal.place),
    };
    let mut state = State::fresh(&model);
    let mut steps = 0;
    let answer = loop {
        let limit = STEPS_OF_A_CALL.min(MOST_STEPS - steps);
        let outcome = state.run(&model, limit, ROOM);
        for line in lines(&outcome.journal) {
            writeln!(
                out,
                "{} {} {} {}",
                line.time, line.process, line.kind, line.value
            )?;
        }
        steps += outcome.steps;
        if outcome.answer != Answer::Limit || steps == MOST_STEPS {
            break outcome.answer;
        }
    };
    match answer {
        Answer::Closed => write!(out, "closed")?,
        Answer::Idle => write!(out, "idle")?,
        Answer::Limit => write!(out, "limit")?,
        Answer::Fault(number) => write!(out, "fault {number}")?,
    }
    write!(out, " {steps} bound ")?;
    match bound(&model) {
        Bound::None => writeln!(out, "none"),
        Bound::Over => writeln!(out, "over"),
        Bound::Number(number) => writeln!(out, "{number}"),
    }
}
