//! Texts made from a seed; the engine and the second program are held against what each must give, and against each other.
//!
//! What is expected of a text comes from the tree that it was written from, or from where trouble was put in; no text is read
//! here. docs/TEXT.md decides who is right.

pub mod any;
mod case;
mod counts;
mod crowd;
mod expected;
mod grow;
mod layout;
mod limits;
mod many;
mod misnamed;
mod names;
mod phrases;
mod seen;
mod tokens;
mod tree;
mod unfit;
mod write;

use crate::engine;
use crate::engine::Lent;
use crate::random::Random;
use case::{Case, Expected, Wrong};
use counts::*;
use reference::text::read_text;
use std::panic::catch_unwind;
use std::process::ExitCode;
use std::sync::atomic::{AtomicU64, Ordering};
use std::sync::Mutex;
use std::time::Instant;

/// The texts of the gate; in a run of so many everything must come up.
const GATE: u64 = 200_000;

/// So many texts are taken by a thread at a time.
const TURN: u64 = 32;

/// A tree can be deep, and so can a hostile text.
const STACK: usize = 256 << 20;

/// Any file that passes the checks fits.
const ROOM: usize = 65_535;

/// What was answered in place of what was expected, and the text.
struct Difference {
    text: Vec<u8>,
    what: String,
}

/// Makes so many texts and holds each; the text number k, from 0, has the seed `seed` + k.
pub fn drive(count: u64, seed: u64) -> ExitCode {
    let began = Instant::now();
    let next = AtomicU64::new(0);
    let counts: Mutex<Counts> = Mutex::default();
    let first: Mutex<Option<(u64, Difference)>> = Mutex::default();
    let work = || {
        let mut own = Counts::default();
        loop {
            let from = next.fetch_add(TURN, Ordering::Relaxed);
            for number in from..count.min(from + TURN) {
                if let Err(difference) = one(&mut Random::new(seed.wrapping_add(number)), &mut own) {
                    let mut first = first.lock().expect("no thread panicked");
                    if first.as_ref().is_none_or(|(earlier, _)| number < *earlier) {
                        *first = Some((number, difference));
                    }
                    next.store(count, Ordering::Relaxed);
                }
            }
            if from >= count {
                break;
            }
        }
        counts.lock().expect("no thread panicked").join(&own);
    };
    std::thread::scope(|scope| {
        for _ in 0..std::thread::available_parallelism().map_or(1, usize::from) {
            std::thread::Builder::new().stack_size(STACK).spawn_scoped(scope, work).expect("a thread");
        }
    });
    if let Some((number, difference)) = first.into_inner().expect("no thread panicked") {
        return report(number, seed.wrapping_add(number), &difference);
    }
    let counts = counts.into_inner().expect("no thread panicked");
    tell(&counts, count, seed, began.elapsed().as_secs_f64())
}

fn report(number: u64, seed: u64, difference: &Difference) -> ExitCode {
    println!("DIFFERENCE at text {}, seed {seed}; once more: driver texts 1 {seed}", number + 1);
    println!("  {}", difference.what);
    println!("  text: {} bytes", difference.text.len());
    println!("{}", difference.text.escape_ascii().to_string().replace("\\n", "\n"));
    ExitCode::FAILURE
}

fn tell(counts: &Counts, count: u64, seed: u64, seconds: f64) -> ExitCode {
    let (table, never) = counts.table();
    print!("{table}");
    if never.is_empty() {
        println!("{count} texts from seed {seed}: no difference, and everything came up; {seconds:.0} s");
        return ExitCode::SUCCESS;
    }
    println!("{count} texts from seed {seed}: no difference; never came up: {}; {seconds:.0} s", never.join(", "));
    if count < GATE {
        return ExitCode::SUCCESS;
    }
    println!("in a run of {GATE} texts or more everything must come up");
    ExitCode::FAILURE
}

// ---- one text

/// Makes and holds one text.
fn one(random: &mut Random, counts: &mut Counts) -> Result<(), Difference> {
    let (group, case) = loop {
        let made = match random.weighed(&[30, 20, 20, 16, 16, 20, 8, 30]) {
            0 => Some(plain(random)),
            1 => Some((AT, at_limit(random))),
            2 => unfit_case(random).map(|case| (UNFIT, case)),
            3 => misnamed_case(random, UNKNOWN).map(|case| (UNKNOWN, case)),
            4 => misnamed_case(random, TAKEN).map(|case| (TAKEN, case)),
            5 => Some((OVER, beyond(random).case(random))),
            6 => earlier(random).map(|case| (EARLIER, case)),
            _ => return hold_any(random, counts),
        };
        // Not every tree has a place for each trouble.
        if let Some(made) = made {
            break made;
        }
    };
    hold(random, &case, counts)?;
    let (kind, others) = case.kinds.split_last().expect("at least its own kind");
    match case.expected {
        Expected::Records(_) => {
            counts.add(group, kind);
            others.iter().for_each(|seen| counts.add(SEEN, seen));
        }
        Expected::Refused { .. } => {
            counts.add(group, case.kinds[0]);
            case.kinds[1..].iter().for_each(|place| counts.add(PLACES, place));
        }
    }
    Ok(())
}

fn plain(random: &mut Random) -> (&'static str, Case) {
    let any = random.below(PLAIN.len());
    let tree = if any == 0 { grow::tree(random) } else { grow::ground(random) };
    (GOOD, case::good(random, &tree, PLAIN[any]))
}

fn at_limit(random: &mut Random) -> Case {
    if !large(random) {
        let mut tree = grow::ground(random);
        let limit = random.below(limits::LIMITS.len());
        limits::plant(random, &mut tree, limit, false);
        return case::good(random, &tree, limits::LIMITS[limit].0);
    }
    let kind = random.weighed(&many::WEIGHTS);
    let tree = many::at(random, kind);
    case::good(random, &tree, many::MANY[kind])
}

/// Few of the texts are large, as these take long.
fn large(random: &mut Random) -> bool {
    random.one_in(10)
}

fn beyond(random: &mut Random) -> Wrong {
    if !large(random) {
        let limit = random.below(limits::LIMITS.len());
        return limits::wrong(random, limit).1;
    }
    if random.one_in(4) {
        let kind = random.below(many::ORDER.len());
        return many::order(random, kind);
    }
    let kind = random.weighed(&many::WEIGHTS);
    many::over(random, kind)
}

fn unfit_case(random: &mut Random) -> Option<Case> {
    let tree = grow::ground(random);
    let tokens = write::tokens(random, &tree);
    let kind = random.below(unfit::KINDS.len());
    unfit::fault(random, &tokens, kind).map(|wrong| wrong.case(random))
}

fn misnamed_case(random: &mut Random, group: &str) -> Option<Case> {
    let tree = if random.one_in(4) { grow::tree(random) } else { grow::ground(random) };
    let tokens = write::tokens(random, &tree);
    let wrong = if group == UNKNOWN {
        let kind = random.below(misnamed::UNKNOWN.len());
        misnamed::unknown(random, &tokens, kind)
    } else {
        let kind = random.below(misnamed::TAKEN.len());
        misnamed::taken(random, &tokens, kind)
    };
    wrong.map(|wrong| wrong.case(random))
}

fn earlier(random: &mut Random) -> Option<Case> {
    let limit = random.below(limits::LIMITS.len());
    let kind = random.below(limits::EARLIER.len());
    let (tokens, wrong) = limits::wrong(random, limit);
    limits::earlier(random, &tokens, wrong, kind).map(|wrong| wrong.case(random))
}

// ---- what is held

/// The answer of the second program; that it panicked is an answer too.
fn second(text: &[u8], room: usize) -> Result<Expected, String> {
    match catch_unwind(|| read_text(text, room)) {
        Ok(Ok(file)) => Ok(Expected::Records(file)),
        Ok(Err(refused)) => Ok(Expected::Refused { number: refused.number, place: refused.place }),
        Err(_) => Err(format!("the second program panicked, with room for {room}")),
    }
}

/// The answer of the engine. The text is as it was; of what was lent the records are written, and no byte more.
fn engines(text: &[u8], room: usize, random: &mut Random) -> Result<Expected, String> {
    let (mut lent, mut records) = (Lent::new(0), Lent::new(0));
    lent.set(text, random.below(8), random.below(256) as u8);
    records.empty(room, random.below(8), random.below(256) as u8);
    let (number, place) = engine::text(lent.content(), records.content_mut());
    lent.is(text).map_err(|at| format!("the engine changed what is lent with the text, at {at}"))?;
    let file = match number {
        0 if place <= room => records.content()[..place].to_vec(),
        0 => return Err(format!("the engine says that it wrote {place} bytes, with room for {room}")),
        _ => Vec::new(),
    };
    records.is(&file).map_err(|at| format!("the engine answers {number}, {place}, and wrote at {at} of what is lent"))?;
    Ok(if number == 0 { Expected::Records(file) } else { Expected::Refused { number, place } })
}

/// Both must give what is expected.
fn expect(text: &[u8], room: usize, expected: &Expected, random: &mut Random) -> Result<(), Difference> {
    for (name, answer) in [("the second program", second(text, room)), ("the engine", engines(text, room, random))] {
        let what = match answer {
            Ok(given) if given == *expected => continue,
            Ok(given) => format!("with room for {room} {name} gives {}\n  expected {}", shown(&given), shown(expected)),
            Err(what) => what,
        };
        return Err(Difference { text: text.to_vec(), what });
    }
    Ok(())
}

fn shown(answer: &Expected) -> String {
    match answer {
        Expected::Refused { number, place } => format!("{number} at {place}"),
        Expected::Records(file) => {
            let hex: String = file.iter().take(2_000).map(|byte| format!("{byte:02x}")).collect();
            format!("{} bytes {hex}", file.len())
        }
    }
}

fn hold(random: &mut Random, case: &Case, counts: &mut Counts) -> Result<(), Difference> {
    let Expected::Records(file) = &case.expected else {
        let room = random.pick(&[ROOM, ROOM, 0]);
        return expect(&case.text, room, &case.expected, random);
    };
    let room = random.pick(&[file.len(), file.len(), ROOM]);
    expect(&case.text, room, &case.expected, random)?;
    let short = Expected::Refused { number: 55, place: case.text.len() };
    let rooms = [file.len().wrapping_sub(1), 0];
    let which = random.below(rooms.len());
    if !file.is_empty() {
        expect(&case.text, rooms[which], &short, random)?;
        counts.add(SHORT, ROOMS[which]);
    }
    Ok(())
}

/// Nothing is expected of any text but an answer within the rules, that what is written passes the checks, and that both give it.
fn hold_any(random: &mut Random, counts: &mut Counts) -> Result<(), Difference> {
    let text = any::any_text(random);
    let given = match second(&text, ROOM) {
        Ok(given) => given,
        Err(what) => return Err(Difference { what, text }),
    };
    let name = match &given {
        Expected::Records(file) if reference::check(file).is_ok() => ANSWERS[0],
        Expected::Refused { number: number @ 51..=54, place } if *place <= text.len() => ANSWERS[*number as usize - 50],
        other => return Err(Difference { what: format!("the second program gives {}", shown(other)), text }),
    };
    counts.add(ANY, name);
    expect(&text, ROOM, &given, random)
}
