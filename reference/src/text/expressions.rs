//! The lines expression, term, factor, minus and atom of the grammar, and their nodes (TEXT.md, sections 3 and 6).

use super::names::Kind;
use super::reader::Reader;
use super::tokens::Token;
use super::Read;
use crate::model::{Expression, Node};
use crate::model::{
    ADD, CLOCK, DRAW, GLOBAL, GREATER, LESSER, LITERAL, LOCAL, MULTIPLY, NEGATE, SUBTRACT,
};

/// How deep brackets inside an expression are open at most.
const DEEPEST: usize = 16;

impl Reader<'_> {
    pub fn expression(&mut self) -> Read<Expression> {
        self.inner_expression(0)
    }

    /// An expression inside so many open brackets.
    fn inner_expression(&mut self, open: usize) -> Read<Expression> {
        let mut ops = Vec::new();
        let mut nodes = self.term(open)?;
        loop {
            ops.push(match self.token {
                Token::Quoted("+") => ADD,
                Token::Quoted("-") => SUBTRACT,
                _ => return Ok(from_the_left(&ops, nodes)),
            });
            self.step();
            nodes.extend(self.term(open)?);
        }
    }

    fn term(&mut self, open: usize) -> Read<Expression> {
        let mut ops = Vec::new();
        let mut nodes = self.factor(open)?;
        while self.taken("*") {
            ops.push(MULTIPLY);
            nodes.extend(self.factor(open)?);
        }
        Ok(from_the_left(&ops, nodes))
    }

    fn factor(&mut self, open: usize) -> Read<Expression> {
        if self.taken("-") {
            return self.minus(open);
        }
        if let Token::Number(_) = self.token {
            return Ok(vec![node(LITERAL, self.number()? as i32)]);
        }
        self.atom(open)
    }

    /// Behind the first minus. Only the last of several can be a part of a number; each other one is an op. They are
    /// counted and not called for one by one, as nothing bounds how many there are.
    fn minus(&mut self, open: usize) -> Read<Expression> {
        let mut nodes = Vec::new();
        while self.taken("-") {
            nodes.push(node(NEGATE, 0));
        }
        if let Token::Number(_) = self.token {
            nodes.push(node(LITERAL, self.minus_magnitude()?));
        } else {
            nodes.push(node(NEGATE, 0));
            nodes.extend(self.atom(open)?);
        }
        Ok(nodes)
    }

    fn atom(&mut self, open: usize) -> Read<Expression> {
        match self.token {
            Token::Quoted("clock") => {
                self.step();
                Ok(vec![node(CLOCK, 0)])
            }
            // With all brackets open no text of the grammar goes on with one more, nor with a word that needs one.
            Token::Quoted("(" | "lesser" | "greater") if open == DEEPEST => self.wrong(),
            Token::Quoted("(") => {
                self.step();
                let nodes = self.inner_expression(open + 1)?;
                self.take(")")?;
                Ok(nodes)
            }
            Token::Quoted("lesser") => self.lesser_or_greater(LESSER, open),
            Token::Quoted("greater") => self.lesser_or_greater(GREATER, open),
            _ => self.value(),
        }
    }

    fn lesser_or_greater(&mut self, op: u16, open: usize) -> Read<Expression> {
        self.step();
        self.take("(")?;
        let mut nodes = vec![node(op, 0)];
        nodes.extend(self.inner_expression(open + 1)?);
        self.take(",")?;
        nodes.extend(self.inner_expression(open + 1)?);
        self.take(")")?;
        Ok(nodes)
    }

    fn value(&mut self) -> Read<Expression> {
        let (kind, number) = self.known(&[Kind::Variable, Kind::Local, Kind::Sampler])?;
        let op = match kind {
            Kind::Variable => GLOBAL,
            Kind::Local => LOCAL,
            _ => DRAW,
        };
        Ok(vec![node(op, i32::from(number))])
    }
}

fn node(op: u16, operand: i32) -> Node {
    Node { op, operand }
}

/// What binds alike goes from the left: the last op is the outermost and stands first, and the nodes of what they join
/// follow in the order of the text. So `a - b + c` is +, -, a, b, c.
fn from_the_left(ops: &[u16], joined: Expression) -> Expression {
    let ops = ops.iter().rev().map(|op| node(*op, 0));
    ops.chain(joined).collect()
}
