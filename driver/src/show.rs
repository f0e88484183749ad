//! A model for a reader: its bytes as hex, and its records with the names of document 01.

use crate::records::*;

pub fn hex(bytes: &[u8]) -> String {
    bytes.iter().map(|byte| format!("{byte:02x}")).collect()
}

const KINDS: [&str; 31] = [
    "", "RES", "BIN", "SYNC", "VAR", "CLASS", "BLOCK", "ENTITY", "SAMPLER", "", "", "", "", "", "", "", "HOLD", "PRIO",
    "SET", "LSET", "DO", "PUTR", "PUTB", "PUTS", "BECOME", "REQ", "TRY", "WHILE", "START", "TRACE", "CLOSE",
];

/// One line for each record: its byte place, its kind and its fields; blocks, classes and so on with their numbers.
pub fn records(bytes: &[u8]) -> String {
    let mut place = 0;
    let mut counts = [0; 31];
    let mut text = String::new();
    for record in cut(bytes) {
        let kind = usize::from(kind_of(&record));
        let whole = u16_at(&record, 0).map(|n| usize::from(n) + 2) == Some(record.len());
        let name = KINDS.get(kind).copied().unwrap_or("");
        if whole && !name.is_empty() {
            let number = if kind < 16 { format!(" {}", counts[kind]) } else { String::new() };
            counts[kind] += 1;
            let fields = fields(&record).unwrap_or_else(|| format!(" body {}", hex(&record[4..])));
            let indent = if kind < 16 { "" } else { "  " };
            text += &format!("{place:>6} {indent}{name}{number}{fields}\n");
        } else {
            text += &format!("{place:>6} bytes {}\n", hex(&record));
        }
        place += record.len();
    }
    text
}

/// What a whole record of a known kind says, or nothing where its body has another size.
fn fields(record: &[u8]) -> Option<String> {
    let mut at = At { record, at: 4 };
    let text = match kind_of(record) {
        RES => format!(" total {}", at.u32()?),
        BIN => format!(" amount {}", at.u32()?),
        VAR => format!(" value {}", at.i32()?),
        CLASS => format!(" body block {}", at.u16()?),
        ENTITY => format!(" class {} offset {}", at.u16()?, at.u32()?),
        SAMPLER => format!(" {} to {} seed {}", at.i32()?, at.i32()?, at.u32()?),
        HOLD | PRIO | TRACE => format!(" {}", at.expression()?),
        SET => format!(" v{} = {}", at.u16()?, at.expression()?),
        LSET => format!(" l{} = {}", at.u16()?, at.expression()?),
        DO => format!(" {} rounds of block {}", at.u16()?, at.u16()?),
        PUTR | PUTB => format!(" {} amount {}", at.u16()?, at.u32()?),
        PUTS => format!(" sync {} count {}", at.u16()?, at.u16()?),
        BECOME => format!(" sync {}", at.u16()?),
        REQ => at.claim()?,
        TRY => at.branches()?,
        WHILE => format!(" block {}:{}", at.u16()?, at.claim()?),
        START => at.start()?,
        SYNC | BLOCK | CLOSE => String::new(),
        _ => return None,
    };
    (at.at == record.len()).then_some(text)
}

/// Reads a record's fields one after the other.
struct At<'a> {
    record: &'a [u8],
    at: usize,
}

impl At<'_> {
    fn u16(&mut self) -> Option<u16> {
        self.at += 2;
        u16_at(self.record, self.at - 2)
    }

    fn u32(&mut self) -> Option<u32> {
        self.at += 4;
        u32_at(self.record, self.at - 4)
    }

    fn i32(&mut self) -> Option<i32> {
        self.u32().map(|n| n as i32)
    }

    /// All nodes up to the end of the record, in prefix order as they stand.
    fn expression(&mut self) -> Option<String> {
        let mut words = Vec::new();
        while self.at < self.record.len() {
            let (op, operand) = (self.u16()?, self.i32()?);
            words.push(match op {
                LITERAL => operand.to_string(),
                GLOBAL => format!("v{operand}"),
                LOCAL => format!("l{operand}"),
                DRAW => format!("draw{operand}"),
                _ => {
                    let names = ["add", "subtract", "multiply", "lesser", "greater", "clock", "negate"];
                    let name = names.get(usize::from(op).wrapping_sub(3)).map_or(format!("op{op}"), |n| n.to_string());
                    if operand == 0 {
                        name
                    } else {
                        format!("{name}({operand})")
                    }
                }
            });
        }
        Some(words.join(" "))
    }

    fn item(&mut self) -> Option<String> {
        let (kinds, number, amount) = (self.u16()?, self.u16()?, self.i32()?);
        let (kind, relation) = (kinds & 255, kinds >> 8);
        let sign = ["<", "<=", "=", "<>", ">=", ">"].get(usize::from(relation).wrapping_sub(1));
        Some(match (kind, relation, sign) {
            (0, 0, _) => format!("getR({number},{amount})"),
            (1, 0, _) => format!("getB({number},{amount})"),
            (2, 0, _) => format!("getS({number},{amount})"),
            (3, _, Some(sign)) => format!("v{number} {sign} {amount}"),
            _ => format!("item({kind},{relation},{number},{amount})"),
        })
    }

    fn claim(&mut self) -> Option<String> {
        let many = self.u16()?;
        let items: Option<Vec<String>> = (0..many).map(|_| self.item()).collect();
        Some(format!(" [{}]", items?.join(", ")))
    }

    fn branches(&mut self) -> Option<String> {
        let many = self.u16()?;
        let branch = |at: &mut Self| Some(format!(" block {}:{}", at.u16()?, at.claim()?));
        let branches: Option<Vec<String>> = (0..many).map(|_| branch(self)).collect();
        Some(branches?.join(" |"))
    }

    fn start(&mut self) -> Option<String> {
        let (class, offset, many) = (self.u16()?, self.u32()?, self.u16()?);
        let share = |at: &mut Self| Some(format!("resource {} amount {}", at.u16()?, at.u32()?));
        let shares: Option<Vec<String>> = (0..many).map(|_| share(self)).collect();
        Some(format!(" class {class} offset {offset} [{}]", shares?.join(", ")))
    }
}
