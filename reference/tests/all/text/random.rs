//! Random texts: right ones are made together with their records, and spoilt ones are answered as the page says.

use super::*;
use crate::random::Random;
use reference::check;
use std::slice::from_ref;

/// How close the outermost op of a text binds.
#[derive(Clone, Copy, PartialEq, PartialOrd)]
enum Binds {
    Sum,
    Product,
    Factor,
}

/// An expression as its tokens, and its nodes.
struct Spelled {
    tokens: Vec<String>,
    binds: Binds,
    nodes: Vec<Node>,
}

impl Spelled {
    /// In brackets if it binds less close than is asked for, and now and then without need.
    fn at_least(self, binds: Binds, random: &mut Random) -> Vec<String> {
        if self.binds >= binds && random.below(8) > 0 {
            return self.tokens;
        }
        in_brackets(self.tokens)
    }
}

fn tokens(text: &str) -> Vec<String> {
    text.split(' ').map(str::to_string).collect()
}

fn in_brackets(inside: Vec<String>) -> Vec<String> {
    [tokens("("), inside, tokens(")")].concat()
}

fn leaf(random: &mut Random) -> Spelled {
    let number = random.below(100) as i32;
    let (text, nodes) = match random.below(6) {
        0 => ("x".to_string(), global(0)),
        1 => ("g".to_string(), draw(0)),
        2 => ("l".to_string(), local(1)),
        3 => ("clock".to_string(), clock()),
        4 => (format!("- {number}"), lit(-number)),
        _ => (number.to_string(), lit(number)),
    };
    Spelled {
        tokens: tokens(&text),
        binds: Binds::Factor,
        nodes,
    }
}

fn joined(sign: &str, op: u16, binds: Binds, depth: u32, random: &mut Random) -> Spelled {
    // What binds alike goes from the left, so the right side must bind closer.
    let closer = if binds == Binds::Sum {
        Binds::Product
    } else {
        Binds::Factor
    };
    let (first, second) = (expression(depth - 1, random), expression(depth - 1, random));
    let nodes = over(op, &[first.nodes.clone(), second.nodes.clone()]);
    let (first, second) = (
        first.at_least(binds, random),
        second.at_least(closer, random),
    );
    Spelled {
        tokens: [first, tokens(sign), second].concat(),
        binds,
        nodes,
    }
}

fn chosen(word: &str, op: u16, depth: u32, random: &mut Random) -> Spelled {
    let (first, second) = (expression(depth - 1, random), expression(depth - 1, random));
    let nodes = over(op, &[first.nodes, second.nodes]);
    let inside = [first.tokens, tokens(","), second.tokens].concat();
    Spelled {
        tokens: [tokens(word), in_brackets(inside)].concat(),
        binds: Binds::Factor,
        nodes,
    }
}

fn negated(depth: u32, random: &mut Random) -> Spelled {
    let inner = expression(depth - 1, random);
    let nodes = over(9, from_ref(&inner.nodes));
    let mut inside = inner.at_least(Binds::Factor, random);
    // A bare number would take the minus for itself.
    if inside.len() == 1 && inside[0].parse::<u32>().is_ok() {
        inside = in_brackets(inside);
    }
    Spelled {
        tokens: [tokens("-"), inside].concat(),
        binds: Binds::Factor,
        nodes,
    }
}

/// Up to 15 nodes with depth 3.
fn expression(depth: u32, random: &mut Random) -> Spelled {
    if depth == 0 {
        return leaf(random);
    }
    match random.below(8) {
        0 => joined("+", 3, Binds::Sum, depth, random),
        1 => joined("-", 4, Binds::Sum, depth, random),
        2 | 3 => joined("*", 5, Binds::Product, depth, random),
        4 => chosen("lesser", 6, depth, random),
        5 => chosen("greater", 7, depth, random),
        6 => negated(depth, random),
        _ => leaf(random),
    }
}

/// A class body as its tokens, and the records of its blocks.
struct Body {
    random: Random,
    tokens: Vec<String>,
    blocks: Vec<Vec<Vec<u8>>>,
}

impl Body {
    fn spell(&mut self, text: &str) {
        self.tokens.extend(tokens(text));
    }

    fn expression(&mut self) -> Vec<Node> {
        let spelled = expression(3, &mut self.random);
        self.tokens.extend(spelled.tokens);
        spelled.nodes
    }

    fn claim(&mut self) -> Vec<Item> {
        let amount = 1 + self.random.below(9) as i32;
        let (text, items) = match self.random.below(5) {
            0 => ("[ ]".to_string(), vec![]),
            1 => (format!("[ getR ( r , {amount} ) ]"), vec![get_r(0, amount)]),
            2 => (
                format!("[ getS ( s , 2 ) , x <> - {amount} ]"),
                vec![get_s(0, 2), condition(4, 0, -amount)],
            ),
            3 => (format!("[ x >= {amount} ]"), vec![condition(5, 0, amount)]),
            _ => (
                format!("[ getB ( b , {amount} ) , getR ( r , 1 ) ]"),
                vec![get_b(0, amount), get_r(0, 1)],
            ),
        };
        self.spell(&text);
        items
    }

    /// A new block with some actions; its number.
    fn block(&mut self, depth: u32) -> u16 {
        self.spell("{");
        let number = self.blocks.len();
        self.blocks.push(vec![]);
        for _ in 0..self.random.below(4) {
            // What opens blocks takes its place among the actions before they are read.
            let at = self.blocks[number].len();
            self.blocks[number].push(vec![]);
            self.blocks[number][at] = self.action(depth);
        }
        self.spell("}");
        number as u16
    }

    fn action(&mut self, depth: u32) -> Vec<u8> {
        match self.random.below(if depth < 8 { 10 } else { 6 }) {
            0..=5 => self.plain_action(),
            6 => {
                self.spell("do 5");
                do_rounds(5, self.block(depth + 1))
            }
            7 => {
                self.spell("while");
                let items = self.claim();
                while_met(self.block(depth + 1), &items)
            }
            _ => self.try_action(depth),
        }
    }

    fn try_action(&mut self, depth: u32) -> Vec<u8> {
        let mut branches: Vec<(u16, Vec<Item>)> = vec![];
        for branch in 0..1 + self.random.below(4) {
            self.spell(if branch == 0 { "try" } else { "etry" });
            let items = self.claim();
            self.spell("then");
            branches.push((self.block(depth + 1), items));
        }
        let branches: Vec<(u16, &[Item])> = branches.iter().map(|(b, c)| (*b, &c[..])).collect();
        try_branches(&branches)
    }

    fn plain_action(&mut self) -> Vec<u8> {
        let action = match self.random.below(9) {
            0 => {
                self.spell("hold (");
                let action = hold(&self.expression());
                self.spell(")");
                action
            }
            1 => {
                self.spell("l :=");
                lset(1, &self.expression())
            }
            2 => {
                self.spell("x :=");
                set(0, &self.expression())
            }
            3 => {
                self.spell("req");
                req(&self.claim())
            }
            number => self.fixed_action(number),
        };
        self.spell(";");
        action
    }

    fn fixed_action(&mut self, number: u32) -> Vec<u8> {
        let (text, action) = match number {
            4 => ("putS ( s , 3 )", puts(0, 3)),
            5 => ("become ( s )", become_slave(0)),
            6 => ("start ( c , 4 , [ ( r , 5 ) ] )", start(0, 4, &[(0, 5)])),
            7 => ("putB ( b , 6 )", putb(0, 6)),
            _ => ("close", close()),
        };
        self.spell(text);
        action
    }
}

/// A text as its tokens, and its record file.
fn right(seed: u64) -> (Vec<String>, Vec<u8>) {
    let house =
        "res ( r , 1 ) ; bin ( b , 1 ) ; sync ( s ) ; var ( x , 0 ) ; sampler ( g , 4 , 7 , 1 ) ;";
    let mut body = Body {
        random: Random(seed),
        tokens: tokens(&[house, " class c"].concat()),
        blocks: vec![],
    };
    body.block(1);
    // The locals stand behind the first brace.
    let brace = tokens(house).len() + 3;
    body.tokens.splice(brace..brace, tokens("local k , l ;"));
    let mut records = super::house();
    records.push(class(0));
    for actions in &body.blocks {
        records.push(block());
        records.extend(actions.clone());
    }
    (body.tokens, model(&records))
}

#[test]
fn right_texts() {
    // With these seeds no text has over 256 blocks.
    for seed in 1..=1_000 {
        let (tokens, file) = right(seed * 7_919);
        let text = tokens.join(" ");
        assert_eq!(read_text(text.as_bytes(), ROOM), Ok(file), "{text}");
    }
}

/// What stands between the tokens means nothing: a refusal is at the same token.
fn same_token(tokens: &[String]) {
    let place_of = |between: &str, index: usize| -> usize {
        let before = tokens[..index].iter();
        before.map(|token| token.len() + between.len()).sum()
    };
    let plain = read_text(tokens.join(" ").as_bytes(), ROOM);
    let comments = read_text(tokens.join("\t#{;@\r").as_bytes(), ROOM);
    match (plain, comments) {
        (Ok(file), other) => {
            assert_eq!(check(&file), Ok(()));
            assert_eq!(other, Ok(file));
        }
        (Err(plain), Err(other)) => {
            let index =
                (0..=tokens.len()).find(|index| place_of("\t#{;@\r", *index) == other.place);
            // Nothing stands behind the last token, so the end is where the text is.
            let at = |between: &str| match index {
                Some(index) if index < tokens.len() => place_of(between, index),
                _ => tokens.join(between).len(),
            };
            assert_eq!(
                (plain.number, plain.place),
                (other.number, at(" ")),
                "{tokens:?}"
            );
            assert_eq!(other.place, at("\t#{;@\r"), "{tokens:?}");
        }
        (Err(plain), Ok(_)) => panic!("{plain:?} of {tokens:?}"),
    }
}

/// Of 51 and 52: the text up to that token decides, whatever stands behind it.
fn nothing_behind_is_read(tokens: &[String]) {
    let text = tokens.join(" ");
    if let Err(refused) = read_text(text.as_bytes(), ROOM) {
        if refused.number <= 52 && refused.place < text.len() {
            let token = text[refused.place..].split(' ').next().unwrap_or("");
            let cut = [&text[..refused.place + token.len()], " @"].concat();
            assert_eq!(read_text(cut.as_bytes(), ROOM), Err(refused), "{text}");
        }
    }
}

#[test]
fn spoilt_texts() {
    let others = "res hold do then etry class local entity ( ) [ ] { } , ; := + - * < 1 65 1000001 99999999999 \
                  r b s x g c l u @ clock lesser start";
    let others: Vec<&str> = others.split_whitespace().collect();
    for seed in 1..=2_000 {
        let mut random = Random(seed * 104_729);
        let (mut tokens, _) = right(seed * 7_919);
        for _ in 0..1 + random.below(2) {
            let at = random.below(tokens.len() as u32) as usize;
            let other = others[random.below(others.len() as u32) as usize].to_string();
            match random.below(4) {
                0 => tokens[at] = other,
                1 => tokens.insert(at, other),
                2 => tokens.truncate(at + 1),
                _ => drop(tokens.remove(at)),
            }
        }
        same_token(&tokens);
        nothing_behind_is_read(&tokens);
    }
}

#[test]
fn random_bytes() {
    for seed in 1..=2_000 {
        let mut random = Random(seed * 15_485_863);
        let text: Vec<u8> = (0..random.below(40))
            .map(|_| random.below(256) as u8)
            .collect();
        match read_text(&text, ROOM) {
            Ok(file) => assert_eq!(file, vec![], "only blanks and comments, by chance"),
            Err(refused) => assert!(refused.number == 51 && refused.place <= text.len()),
        }
    }
}
