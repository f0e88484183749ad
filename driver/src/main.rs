//! The driver: makes models, and texts of them, from a seed and holds the engine, by its C functions, against the second program.
//!
//!     driver COUNT [SEED]
//!     driver texts COUNT [SEED]    texts of models
//!
//! Model number k, from 0, has the seed SEED + k, so `driver 1 S` tries the one of seed S again. README.md says more.

mod barred;
mod compare;
mod counts;
mod crash;
mod damaged;
mod drawn;
mod engine;
mod good;
mod moves;
mod odd;
mod random;
mod records;
mod rivals;
mod row;
mod show;
mod shrink;
mod sound;
mod texts;
mod waited;

use compare::{Bench, Difference, Effort};
use counts::Counts;
use random::Random;
use std::process::ExitCode;
use std::sync::atomic::{AtomicU64, Ordering};
use std::sync::Mutex;
use std::time::Instant;

/// The models of the gate; in a run of so many everything must come up.
const GATE: u64 = 200_000;
const FIRST_SEED: u64 = 1;

/// So many models are taken by a thread at a time.
const TURN: u64 = 64;

/// The engine's stack holds its rows: it gets plenty.
const STACK: usize = 64 << 20;

fn main() -> ExitCode {
    let words: Vec<String> = std::env::args().skip(1).collect();
    let of_texts = words.first().is_some_and(|word| word == "texts");
    let numbers: Option<Vec<u64>> = words[usize::from(of_texts)..].iter().map(|word| word.parse().ok()).collect();
    let drive = if of_texts { texts::drive } else { drive };
    match numbers.as_deref() {
        Some([count]) => drive(*count, FIRST_SEED),
        Some([count, seed]) => drive(*count, *seed),
        _ => {
            eprintln!("usage: driver [texts] COUNT [SEED]");
            ExitCode::from(2)
        }
    }
}

/// What all threads share: the next model to take, the lowest that differs, and the counts.
struct Shared {
    next: AtomicU64,
    differs: AtomicU64,
    counts: Mutex<Counts>,
}

fn drive(count: u64, seed: u64) -> ExitCode {
    crash::watch();
    let began = Instant::now();
    let shared = Shared { next: AtomicU64::new(0), differs: AtomicU64::new(u64::MAX), counts: Mutex::default() };
    let threads = std::thread::available_parallelism().map_or(1, usize::from);
    std::thread::scope(|scope| {
        for _ in 0..threads {
            let work = || take_turns(&shared, count, seed);
            let builder = std::thread::Builder::new().stack_size(STACK);
            builder.spawn_scoped(scope, work).expect("a thread");
        }
    });
    let differs = shared.differs.into_inner();
    if differs != u64::MAX {
        return on_a_large_stack(|| report(differs, seed.wrapping_add(differs)));
    }
    let counts = shared.counts.into_inner().expect("no thread panicked");
    tell(&counts, count, seed, began.elapsed().as_secs_f64())
}

fn on_a_large_stack(work: impl FnOnce() -> ExitCode + Send) -> ExitCode {
    std::thread::scope(|scope| {
        let builder = std::thread::Builder::new().stack_size(STACK);
        let thread = builder.spawn_scoped(scope, work).expect("a thread");
        thread.join().expect("no panic")
    })
}

fn take_turns(shared: &Shared, count: u64, seed: u64) {
    let mut bench = Bench::new();
    loop {
        let from = shared.next.fetch_add(TURN, Ordering::Relaxed);
        if from >= count {
            break;
        }
        for number in from..count.min(from + TURN) {
            if number > shared.differs.load(Ordering::Relaxed) {
                break;
            }
            let own = seed.wrapping_add(number);
            crash::at(number, own);
            if one(&mut bench, own).is_err() {
                shared.differs.fetch_min(number, Ordering::Relaxed);
                break;
            }
        }
    }
    shared.counts.lock().expect("no thread panicked").join(&bench.counts);
}

/// The model of a seed: its bytes and the limit of its longest run.
fn made(random: &mut Random) -> (Vec<u8>, u32) {
    match random.weighed(&[6, 2, 4]) {
        0 => {
            let made = good::model(random);
            (made.records.concat(), made.limit)
        }
        1 => {
            let made = odd::model(random);
            (made.records.concat(), made.limit)
        }
        _ => {
            let made = if random.one_in(4) { odd::model(random) } else { good::model(random) };
            let other = good::model(random);
            let limit = made.limit.min(300);
            (damaged::damaged(random, made.records, &other.records), limit)
        }
    }
}

fn one(bench: &mut Bench, seed: u64) -> compare::Same {
    let mut random = Random::new(seed);
    let (bytes, limit) = made(&mut random);
    bench.compare(&bytes, limit, Effort::Some, &mut random)
}

/// Prints the first difference whole, and the smallest model found that still differs.
fn report(number: u64, seed: u64) -> ExitCode {
    crash::at(number, seed);
    let mut bench = Bench::new();
    let mut random = Random::new(seed);
    let (bytes, limit) = made(&mut random);
    let first = bench.compare(&bytes, limit, Effort::Some, &mut random).expect_err("it differed before");
    println!("DIFFERENCE at model {}, seed {seed}; once more: driver 1 {seed}", number + 1);
    print(&first, &bytes);
    let mut most = |bytes: &[u8]| bench.compare(bytes, limit.min(1_000), Effort::Most, &mut Random::new(seed));
    if most(&bytes).is_ok() {
        println!("not shrunk: the difference needs the limits and journals of that seed");
        return ExitCode::FAILURE;
    }
    let small = shrink::shrink(bytes, |bytes| most(bytes).is_err());
    println!("shrunk:");
    print(&most(&small).expect_err("it is shrunk to what differs"), &small);
    ExitCode::FAILURE
}

fn print(difference: &Difference, bytes: &[u8]) {
    println!("  what:   {}", difference.what);
    println!("  engine: {}", difference.engine);
    println!("  second: {}", difference.second);
    println!("  model:  {} bytes {}", bytes.len(), show::hex(bytes));
    print!("{}", show::records(bytes));
}

fn tell(counts: &Counts, count: u64, seed: u64, seconds: f64) -> ExitCode {
    let (table, never) = counts.table();
    print!("{table}");
    println!(
        "{count} models from seed {seed}, {} accepted; {} calls that ran, {} steps",
        counts.accepted, counts.calls, counts.steps
    );
    println!("{} rows handed in that no call left so, {} of them not sound", counts.rows_handed, counts.rows_unsound);
    if never.is_empty() {
        println!("no difference, and everything came up; {seconds:.0} s");
        return ExitCode::SUCCESS;
    }
    println!("no difference; never came up: {}; {seconds:.0} s", never.join(", "));
    if count < GATE {
        return ExitCode::SUCCESS;
    }
    println!("in a run of {GATE} models or more everything must come up");
    ExitCode::FAILURE
}
