//! The library of the second program: check a model, get its bound, or run it whole, from its bytes; or read it as text.

pub mod bound;
pub mod journal;
pub mod model;
pub mod run;
pub mod sampler;
pub mod text;

use bound::Bound;
use model::Refusal;
use run::{Outcome, State};

/// Checks 1 to 10.
pub fn check(bytes: &[u8]) -> Result<(), Refusal> {
    model::decode(bytes).map(|_| ())
}

/// The bound of a model that passes the checks.
pub fn bound(bytes: &[u8]) -> Result<Bound, Refusal> {
    model::decode(bytes).map(|model| bound::bound(&model))
}

/// One call from the fresh state; the journal has room for `journal_bytes_len` bytes.
pub fn run(bytes: &[u8], limit: u32, journal_bytes_len: usize) -> Result<Outcome, Refusal> {
    let model = model::decode(bytes)?;
    Ok(State::fresh(&model).run(&model, limit, journal_bytes_len))
}
