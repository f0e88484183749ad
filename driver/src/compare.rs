//! Both programs side by side on one model: check, bound, and runs with many limits and journals.

use crate::counts::{Counts, BOUNDS, REFUSALS};
use crate::engine::{self, Lent};
use crate::random::Random;
use reference::bound::Bound;
use reference::journal::{lines, LINE_BYTES};
use reference::model::{decode, Model, Refusal};
use reference::run::{Answer, Outcome, State};

const REFUSED: u64 = 3 << 32;

/// Room for any lines: the second program only compares it.
const ENDLESS: usize = usize::MAX;

/// What differed, and what each program says.
#[derive(Debug)]
pub struct Difference {
    pub what: String,
    pub engine: String,
    pub second: String,
}

impl Difference {
    pub fn of(what: String, engine: impl Into<String>, second: impl Into<String>) -> Difference {
        Difference { what, engine: engine.into(), second: second.into() }
    }
}

pub type Same = Result<(), Difference>;

/// How many limits and journals are tried: some, or for a small model nearly all.
#[derive(Clone, Copy, PartialEq)]
pub enum Effort {
    Some,
    Most,
}

/// What is lent to the engine, and what is counted.
pub struct Bench {
    pub file: Lent<u8>,
    pub journal: Lent<u8>,
    pub row: Lent<u64>,
    pub counts: Counts,
}

impl Bench {
    pub fn new() -> Bench {
        Bench { file: Lent::new(0), journal: Lent::new(0), row: Lent::new(0), counts: Counts::default() }
    }

    /// Holds both programs to the same answers on these bytes; `limit` is that of the longest run.
    pub fn compare(&mut self, bytes: &[u8], limit: u32, effort: Effort, random: &mut Random) -> Same {
        self.file.set(bytes, random.below(8), random.next() as u8);
        match decode(bytes) {
            Err(refusal) => self.refused(bytes, refusal, random),
            Ok(model) => {
                self.counts.accepted += 1;
                self.counts.sampled(&model);
                self.checks(bytes, &model)?;
                self.runs(bytes, &model, limit, effort, random)?;
                if effort == Effort::Most || random.one_in(3) {
                    self.moves(bytes, &model, limit, random)?;
                }
                Ok(())
            }
        }
    }

    fn refused(&mut self, bytes: &[u8], refusal: Refusal, random: &mut Random) -> Same {
        self.counts.add(REFUSALS, usize::from(refusal.number));
        self.counts.draw_refused(bytes, refusal);
        let word = u32::from(refusal.number) * 65_536 + refusal.place as u32;
        let said = |word: u64| format!("{word:#x}: refusal {} at {}", (word >> 16) & 0xffff, word & 0xffff);
        self.answers("check", engine::check(self.file.content()).into(), word.into(), said)?;
        let wide = REFUSED + u64::from(word);
        self.answers("bound", engine::bound(self.file.content()), wide, said)?;
        self.journal.empty(random.below(100), random.below(8), random.next() as u8);
        let ran = engine::run(self.file.content(), random.next() as u32, self.journal.content_mut());
        self.answers("run", ran, wide, said)?;
        self.unchanged(bytes, "a refused run")?;
        self.journal_is(&[], "a refused run")?;
        self.opens_refused(bytes, word, random)?;
        Ok(())
    }

    fn answers(&self, what: &str, engine: u64, second: u64, said: impl Fn(u64) -> String) -> Same {
        if engine == second {
            return Ok(());
        }
        Err(Difference::of(what.to_string(), said(engine), said(second)))
    }

    fn checks(&mut self, bytes: &[u8], model: &Model) -> Same {
        let refusal = |word: u64| format!("{word:#x}: refusal {} at {}", word >> 16, word & 0xffff);
        self.answers("check", engine::check(self.file.content()).into(), 0, refusal)?;
        let (kind, word) = match reference::bound::bound(model) {
            Bound::Number(number) => (0, u64::from(number)),
            Bound::None => (1, 1 << 32),
            Bound::Over => (2, 2 << 32),
        };
        self.counts.add(BOUNDS, kind);
        self.answers("bound", engine::bound(self.file.content()), word, bound_text)?;
        self.unchanged(bytes, "check and bound")
    }

    fn runs(&mut self, bytes: &[u8], model: &Model, limit: u32, effort: Effort, random: &mut Random) -> Same {
        let mut end = State::fresh(model);
        let whole = end.run(model, limit, ENDLESS);
        self.counts.answered(model, &end, &whole);
        let room = whole.journal.len() + random.pick(&[0, 1, 15, 66, 67]) * LINE_BYTES + random.below(16);
        self.counts.wrote(&whole.journal);
        self.counts.acted(model, whole.steps.min(200));
        self.same_run(bytes, &whole, limit, room, random)?;
        for limit in limits(&whole, effort, random) {
            self.one_run(bytes, model, limit, whole.journal.len() + random.below(70 * LINE_BYTES), random)?;
        }
        for room in rooms(whole.journal.len(), effort, random) {
            self.one_run(bytes, model, limit, room, random)?;
        }
        Ok(())
    }

    fn one_run(&mut self, bytes: &[u8], model: &Model, limit: u32, room: usize, random: &mut Random) -> Same {
        let mut end = State::fresh(model);
        let second = end.run(model, limit, room);
        self.counts.answered(model, &end, &second);
        self.same_run(bytes, &second, limit, room, random)
    }

    /// The same call of the engine, held to what the second program gave.
    fn same_run(&mut self, bytes: &[u8], second: &Outcome, limit: u32, room: usize, random: &mut Random) -> Same {
        self.journal.empty(room, random.below(8), random.next() as u8);
        let ran = engine::run(self.file.content(), limit, self.journal.content_mut());
        let what = format!("run with limit {limit} and a journal of {room} bytes");
        self.answers(&what, ran, word_of(second), answer_text)?;
        self.journal_is(&second.journal, &what)?;
        self.unchanged(bytes, &what)
    }

    pub fn unchanged(&self, bytes: &[u8], what: &str) -> Same {
        self.file.is(bytes).map_err(|place| {
            let what = format!("the model's bytes after {what}");
            Difference::of(what, format!("changed at {place}"), "unchanged")
        })
    }

    /// The journal lent is these bytes and then as it was before, and so are its guards.
    pub fn journal_is(&self, written: &[u8], what: &str) -> Same {
        self.journal.is(written).map_err(|place| {
            let what = format!("the journal, at byte {place}, of {what}");
            let whole = self.journal.content();
            let there = &whole[..written.len().min(whole.len())];
            Difference::of(what, line_text(there, place), line_text(written, place))
        })
    }
}

/// The answer of a call as the desk sees it.
pub fn word_of(outcome: &Outcome) -> u64 {
    let answer = match outcome.answer {
        Answer::Closed => 0,
        Answer::Idle => 1,
        Answer::Limit => 2,
        Answer::Fault(number) => u64::from(number),
    };
    (answer << 32) + u64::from(outcome.steps)
}

fn bound_text(word: u64) -> String {
    match word >> 32 {
        0 => format!("bound {word}"),
        1 => "bound none".to_string(),
        2 => "bound over".to_string(),
        _ => format!("{word:#x}"),
    }
}

pub fn answer_text(word: u64) -> String {
    let steps = word & 0xffff_ffff;
    match word >> 32 {
        0 => format!("closed {steps}"),
        1 => format!("idle {steps}"),
        2 => format!("limit {steps}"),
        3 => format!("refused {} at {}", steps >> 16, steps & 0xffff),
        0xffff_ffff => "a panic".to_string(),
        number => format!("fault {number} {steps}"),
    }
}

/// The lines of a journal about a byte: some before it, and the one that it is in.
fn line_text(journal: &[u8], place: isize) -> String {
    let at = place.max(0) as usize / LINE_BYTES;
    let from = at.saturating_sub(5);
    let shown: Vec<String> = lines(journal)
        .enumerate()
        .skip(from)
        .take(at + 1 - from)
        .map(|(i, line)| format!("line {i}: {} {} {} {}", line.time, line.process, line.kind, line.value))
        .collect();
    if shown.len() + from <= at {
        return format!("{}; no byte written there", shown.join("; "));
    }
    shown.join("; ")
}

/// Every limit up to the end of a short run, and one more; some of a long one. The greatest of all, if the run ends.
fn limits(whole: &Outcome, effort: Effort, random: &mut Random) -> Vec<u32> {
    let short = if effort == Effort::Most { 100 } else { 16 };
    let steps = whole.steps;
    if steps <= short {
        return (0..=steps + 1).collect();
    }
    let mut limits = vec![steps - 1, steps, random.below(steps as usize) as u32];
    if whole.answer != Answer::Limit && random.one_in(4) {
        limits.push(u32::MAX);
    }
    limits
}

/// For a short journal every number of lines that is too few, and just enough; for a long one some. Some bytes may be over.
fn rooms(size: usize, effort: Effort, random: &mut Random) -> Vec<usize> {
    let short = if effort == Effort::Most { 60 } else { 4 };
    if size <= short * LINE_BYTES {
        return (0..=size / LINE_BYTES).map(|n| n * LINE_BYTES + random.below(16)).collect();
    }
    let near = size - 1 - random.below(3 * LINE_BYTES);
    vec![near, random.below(size)]
}
