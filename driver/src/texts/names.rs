//! Names for the things of a tree: short and long ones, some like keywords, and those of locals free again behind their class.

use super::tree::*;
use crate::random::Random;

pub const KEYWORDS: [&str; 29] = [
    "res", "bin", "sync", "var", "sampler", "class", "entity", "local", "hold", "priority", "do", "putR", "putB", "putS",
    "become", "req", "try", "then", "etry", "while", "start", "trace", "close", "getR", "getB", "getS", "clock", "lesser",
    "greater",
];

/// So many letters and digits has the longest name.
pub const LONGEST: usize = 16;

const WORDS: [&str; 16] = [
    "suite",
    "deck",
    "tape",
    "runner",
    "delivered",
    "grade",
    "feature",
    "trailer",
    "reel",
    "desk",
    "35mm",
    "4k",
    "10h",
    "job",
    "wedding",
    "licence",
];

/// Each name is another than all that are known where it stands.
#[derive(Default)]
pub struct Names {
    things: [Vec<String>; 6],
    /// By the place of a declaration the names of its locals.
    locals: Vec<Vec<String>>,
}

impl Names {
    pub fn new(random: &mut Random, tree: &Tree) -> Names {
        let mut names = Names::default();
        let mut free: Vec<String> = Vec::new();
        for declaration in &tree.declarations {
            if let Some(thing) = declaration.declares() {
                let name = names.fresh(random, &free, &[]);
                names.things[thing as usize].push(name);
            }
            let many = if let Declaration::Class { locals, .. } = declaration { *locals } else { 0 };
            let mut own = Vec::new();
            for _ in 0..many {
                own.push(names.fresh(random, &free, &own));
            }
            free.extend(own.iter().cloned());
            names.locals.push(own);
        }
        names
    }

    pub fn of(&self, thing: Thing, number: usize) -> &str {
        &self.things[thing as usize][number]
    }

    pub fn locals(&self, declaration: usize) -> &[String] {
        &self.locals[declaration]
    }

    /// A name that isn't known: often one that is free again. `own` are the locals before it in its line.
    fn fresh(&self, random: &mut Random, free: &[String], own: &[String]) -> String {
        loop {
            let again = !free.is_empty() && random.one_in(3);
            let name = if again { free[random.below(free.len())].clone() } else { any_name(random) };
            if !self.things.iter().flatten().chain(own).any(|known| *known == name) {
                return name;
            }
        }
    }
}

/// Any right name.
pub fn any_name(random: &mut Random) -> String {
    loop {
        let name = match random.weighed(&[4, 2, 2, 2, 2]) {
            0 => random.pick(&WORDS).to_string(),
            1 => like_keyword(random),
            2 => letters(random, 1),
            3 => letters(random, LONGEST),
            _ => {
                let many = random.from_to(1, LONGEST);
                letters(random, many)
            }
        };
        if name.len() <= LONGEST && is_name(&name) {
            return name;
        }
    }
}

/// Neither a number nor a keyword.
fn is_name(word: &str) -> bool {
    !word.bytes().all(|byte| byte.is_ascii_digit()) && !KEYWORDS.contains(&word)
}

/// So many letters and digits, which aren't all digits.
pub fn letters(random: &mut Random, many: usize) -> String {
    const ALL: &[u8] = b"AZaz09BMNYbmny1234567890cdefghijklopqrstuvwxCDEFGHIJKLOPQRSTUVWX";
    let mut word: Vec<u8> = (0..many).map(|_| random.pick(ALL)).collect();
    if word.iter().all(u8::is_ascii_digit) {
        word[random.below(many)] = random.pick(b"aZ");
    }
    String::from_utf8(word).expect("letters and digits")
}

/// A keyword with a letter more, with one fewer, or with another case.
fn like_keyword(random: &mut Random) -> String {
    let word = random.pick(&KEYWORDS);
    match random.below(5) {
        0 => word.to_uppercase(),
        1 => recased(random, word),
        2 => format!("{word}{}", random.below(10)),
        3 => format!("{}{word}", random.below(10)),
        _ => word[..word.len() - 1].to_string(),
    }
}

/// One letter changes its case, if there is one.
pub fn recased(random: &mut Random, word: &str) -> String {
    let mut bytes = word.as_bytes().to_vec();
    let at: Vec<usize> = (0..bytes.len()).filter(|at| bytes[*at].is_ascii_alphabetic()).collect();
    if !at.is_empty() {
        bytes[random.pick(&at)] ^= 0x20;
    }
    String::from_utf8(bytes).expect("letters and digits")
}
