//! The reader of a text: it stands at a token, and takes it or refuses it with 51, 52 or 53 (TEXT.md, section 7).

use super::draft::Draft;
use super::names::{Kind, Names};
use super::tokens::{Token, Tokens};
use super::{Read, Refused, DECLARED_TWICE, NOT_IN_THE_GRAMMAR, UNKNOWN};

const MOST_OF_A_NUMBER: u64 = 2_147_483_647;
const MOST_OF_A_COUNT: u64 = 65_535;
const MOST_OF_A_MAGNITUDE: u64 = 2_147_483_648;

pub struct Reader<'a> {
    tokens: Tokens<'a>,
    /// The token where it stands. To stand at one is no trouble yet; to take it may be.
    pub token: Token<'a>,
    /// The place of that token.
    pub place: usize,
    pub names: Names,
    /// The records so far.
    pub draft: Draft,
}

impl<'a> Reader<'a> {
    pub fn new(text: &'a [u8]) -> Self {
        let mut tokens = Tokens::new(text);
        let (place, token) = tokens.next_token();
        Reader {
            tokens,
            token,
            place,
            names: Names::default(),
            draft: Draft::default(),
        }
    }

    /// Goes on to the next token.
    pub fn step(&mut self) {
        (self.place, self.token) = self.tokens.next_token();
    }

    /// 51 at the token where it stands.
    pub fn wrong<T>(&self) -> Read<T> {
        Err(Refused {
            number: NOT_IN_THE_GRAMMAR,
            place: self.place,
        })
    }

    pub fn stands_at(&self, quoted: &'static str) -> bool {
        self.token == Token::Quoted(quoted)
    }

    /// Takes this keyword or sign, if it stands there.
    pub fn taken(&mut self, quoted: &'static str) -> bool {
        let stands_there = self.stands_at(quoted);
        if stands_there {
            self.step();
        }
        stands_there
    }

    pub fn take(&mut self, quoted: &'static str) -> Read<()> {
        if self.taken(quoted) {
            return Ok(());
        }
        self.wrong()
    }

    fn number_up_to(&mut self, most: u64) -> Read<u64> {
        match self.token {
            Token::Number(number) if number <= most => {
                self.step();
                Ok(number)
            }
            _ => self.wrong(),
        }
    }

    pub fn number(&mut self) -> Read<u32> {
        Ok(self.number_up_to(MOST_OF_A_NUMBER)? as u32)
    }

    pub fn count(&mut self) -> Read<u16> {
        Ok(self.number_up_to(MOST_OF_A_COUNT)? as u16)
    }

    /// A magnitude with the minus before it.
    pub fn minus_magnitude(&mut self) -> Read<i32> {
        Ok(-(self.number_up_to(MOST_OF_A_MAGNITUDE)? as i64) as i32)
    }

    pub fn signed(&mut self) -> Read<i32> {
        if self.taken("-") {
            return self.minus_magnitude();
        }
        Ok(self.number()? as i32)
    }

    /// A name of any kind or none, and its place.
    pub fn name(&mut self) -> Read<(usize, &'a str)> {
        let Token::Name(name) = self.token else {
            return self.wrong();
        };
        let place = self.place;
        self.step();
        Ok((place, name))
    }

    /// The kind and number of a name that is of one of these kinds.
    pub fn known(&mut self, kinds: &[Kind]) -> Read<(Kind, u16)> {
        let (place, name) = self.name()?;
        match self.names.find(name) {
            Some(known) if kinds.contains(&known.kind) => Ok((known.kind, known.number)),
            _ => Err(Refused {
                number: UNKNOWN,
                place,
            }),
        }
    }

    /// The number of a name that is of this kind.
    pub fn known_number(&mut self, kind: Kind) -> Read<u16> {
        let (_, number) = self.known(&[kind])?;
        Ok(number)
    }

    /// `new`: a name that isn't taken. It is known from here on.
    pub fn new_name(&mut self, kind: Kind) -> Read<()> {
        let (place, name) = self.name()?;
        if self.names.find(name).is_some() {
            return declared_twice(place);
        }
        self.names.declare(name, kind);
        Ok(())
    }

    /// `"(" name "," number ")"`, with a known name of this kind.
    pub fn name_and_number(&mut self, kind: Kind) -> Read<(u16, u32)> {
        self.take("(")?;
        let name = self.known_number(kind)?;
        self.take(",")?;
        let number = self.number()?;
        self.take(")")?;
        Ok((name, number))
    }
}

pub fn declared_twice<T>(place: usize) -> Read<T> {
    Err(Refused {
        number: DECLARED_TWICE,
        place,
    })
}
