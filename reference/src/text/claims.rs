//! The lines claim, item, relation and give of the grammar (TEXT.md, section 3).

use super::names::Kind;
use super::reader::Reader;
use super::tokens::Token;
use super::Read;
use crate::model::{Claim, Item, CONDITION, GET_B, GET_R, GET_S};

impl Reader<'_> {
    pub fn claim(&mut self) -> Read<Claim> {
        self.take("[")?;
        let mut claim = Vec::new();
        if self.taken("]") {
            return Ok(claim);
        }
        claim.push(self.item()?);
        while self.taken(",") {
            claim.push(self.item()?);
        }
        self.take("]")?;
        Ok(claim)
    }

    fn item(&mut self) -> Read<Item> {
        let (kind, thing) = match self.token {
            Token::Quoted("getR") => (GET_R, Kind::Resource),
            Token::Quoted("getB") => (GET_B, Kind::Bin),
            Token::Quoted("getS") => (GET_S, Kind::Sync),
            _ => return self.condition(),
        };
        self.step();
        let (number, amount) = self.name_and_number(thing)?;
        Ok(Item {
            kind,
            relation: 0,
            number,
            amount: amount as i32,
        })
    }

    fn condition(&mut self) -> Read<Item> {
        let number = self.known_number(Kind::Variable)?;
        let relation = self.relation()?;
        let amount = self.signed()?;
        Ok(Item {
            kind: CONDITION,
            relation,
            number,
            amount,
        })
    }

    fn relation(&mut self) -> Read<u8> {
        let relation = match self.token {
            Token::Quoted("<") => 1,
            Token::Quoted("<=") => 2,
            Token::Quoted("=") => 3,
            Token::Quoted("<>") => 4,
            Token::Quoted(">=") => 5,
            Token::Quoted(">") => 6,
            _ => return self.wrong(),
        };
        self.step();
        Ok(relation)
    }

    /// `"[" give { "," give } "]"`: what a `start` hands over.
    pub fn gives(&mut self) -> Read<Vec<(u16, u32)>> {
        self.take("[")?;
        let mut gives = vec![self.name_and_number(Kind::Resource)?];
        while self.taken(",") {
            gives.push(self.name_and_number(Kind::Resource)?);
        }
        self.take("]")?;
        Ok(gives)
    }
}
