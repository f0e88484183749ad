//! How often each kind of text came up: the table at the end, in which nothing may be missing.

use super::{case, limits, many, misnamed, seen, unfit};
use std::collections::BTreeMap;

/// The groups of the table, in its order.
pub const GOOD: &str = "good texts";
pub const SEEN: &str = "good texts, by what they have";
pub const AT: &str = "good texts at a limit";
pub const UNFIT: &str = "51: a token that doesn't fit, or none";
pub const UNKNOWN: &str = "52: a name that isn't known or doesn't fit";
pub const TAKEN: &str = "53: a name that is taken";
pub const OVER: &str = "54: beyond a limit";
pub const EARLIER: &str = "beyond a limit, and earlier trouble in the same line";
pub const PLACES: &str = "refused, by the place and what follows";
pub const SHORT: &str = "55: memory that is too short";
pub const ANY: &str = "any texts, by the answer";

pub const ROOMS: [&str; 2] = ["one byte too short", "no memory"];
pub const ANSWERS: [&str; 5] = ["records", "51", "52", "53", "54"];
pub const PLAIN: [&str; 2] = ["any tree", "one of each thing in front"];

fn groups() -> Vec<(&'static str, Vec<&'static str>)> {
    let limited: Vec<&str> = limits::LIMITS.iter().map(|(name, _)| *name).collect();
    let unfit: Vec<&str> = unfit::KINDS.iter().map(|(name, _)| *name).collect();
    let unknown: Vec<&str> = misnamed::UNKNOWN.iter().map(|(name, ..)| *name).collect();
    let taken: Vec<&str> = misnamed::TAKEN.iter().map(|(name, ..)| *name).collect();
    vec![
        (GOOD, PLAIN.to_vec()),
        (SEEN, seen::SEEN.to_vec()),
        (AT, [&limited[..], &many::MANY].concat()),
        (UNFIT, unfit),
        (UNKNOWN, unknown),
        (TAKEN, taken),
        (OVER, [&limited[..], &many::MANY, &many::ORDER].concat()),
        (EARLIER, limits::EARLIER.to_vec()),
        (PLACES, [case::WHERE, case::BEHIND].concat()),
        (SHORT, ROOMS.to_vec()),
        (ANY, ANSWERS.to_vec()),
    ]
}

#[derive(Default)]
pub struct Counts(BTreeMap<(&'static str, &'static str), u64>);

impl Counts {
    pub fn add(&mut self, group: &'static str, name: &'static str) {
        *self.0.entry((group, name)).or_default() += 1;
    }

    pub fn join(&mut self, other: &Counts) {
        for (name, many) in &other.0 {
            *self.0.entry(*name).or_default() += many;
        }
    }

    /// The table; and the names that never came up.
    pub fn table(&self) -> (String, Vec<String>) {
        let mut text = String::new();
        let mut never = Vec::new();
        let mut told = 0;
        for (group, names) in groups() {
            text += &format!("{group}\n");
            for name in names {
                let many = self.0.get(&(group, name)).copied().unwrap_or(0);
                told += usize::from(many > 0);
                text += &format!("  {name:<37} {many:>9}\n");
                if many == 0 {
                    never.push(format!("{group}: {name}"));
                }
            }
        }
        assert_eq!(told, self.0.len(), "all that is counted is told");
        (text, never)
    }
}
