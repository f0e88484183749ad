//! The lines text, declaration and locals of the grammar (TEXT.md, section 3).

use super::names::{Kind, Name};
use super::reader::{declared_twice, Reader};
use super::tokens::Token;
use super::Read;
use crate::model::{Entity, Record, LOCALS};
use crate::sampler::Sampler;

impl Reader<'_> {
    /// The record file and the names that are declared.
    pub fn text(mut self) -> Read<(Vec<u8>, Vec<Name>)> {
        while self.token != Token::End {
            self.declaration()?;
        }
        let file = self.draft.whole()?;
        Ok((file, self.names.into_vec()))
    }

    fn declaration(&mut self) -> Read<()> {
        if self.stands_at("class") {
            return self.class();
        }
        let place = self.place;
        let record = self.plain_declaration()?;
        self.take(";")?;
        self.draft.declare(place, record);
        self.draft.cut()
    }

    /// Any but `class`, as far as its `;`.
    fn plain_declaration(&mut self) -> Read<Record> {
        let no_declaration = self.wrong();
        let Token::Quoted(keyword) = self.token else {
            return no_declaration;
        };
        self.step();
        match keyword {
            "res" => Ok(Record::Res(self.new_and_number(Kind::Resource)?)),
            "bin" => Ok(Record::Bin(self.new_and_number(Kind::Bin)?)),
            "sync" => self.sync(),
            "var" => self.var(),
            "sampler" => self.sampler(),
            "entity" => {
                let (class, offset) = self.name_and_number(Kind::Class)?;
                Ok(Record::Entity(Entity { class, offset }))
            }
            _ => no_declaration,
        }
    }

    fn new_and_number(&mut self, kind: Kind) -> Read<u32> {
        self.take("(")?;
        self.new_name(kind)?;
        self.take(",")?;
        let number = self.number()?;
        self.take(")")?;
        Ok(number)
    }

    fn sync(&mut self) -> Read<Record> {
        self.take("(")?;
        self.new_name(Kind::Sync)?;
        self.take(")")?;
        Ok(Record::Sync)
    }

    fn var(&mut self) -> Read<Record> {
        self.take("(")?;
        self.new_name(Kind::Variable)?;
        self.take(",")?;
        let value = self.signed()?;
        self.take(")")?;
        Ok(Record::Var(value))
    }

    fn sampler(&mut self) -> Read<Record> {
        self.take("(")?;
        self.new_name(Kind::Sampler)?;
        self.take(",")?;
        let lowest = self.signed()?;
        self.take(",")?;
        let highest = self.signed()?;
        self.take(",")?;
        let seed = self.number()?;
        self.take(")")?;
        Ok(Record::Sampler(Sampler {
            lowest,
            highest,
            seed,
        }))
    }

    /// A class that was announced may come once more, with its body. That it comes with a `;` is seen behind its name.
    fn class(&mut self) -> Read<()> {
        let place = self.place;
        self.step();
        let (name_place, name) = self.name()?;
        let announced = match self.names.find(name) {
            None => None,
            Some(known) if known.kind == Kind::Class && self.draft.lacks_body(known.number) => {
                Some(known.number)
            }
            Some(_) => return declared_twice(name_place),
        };
        if self.taken(";") {
            if announced.is_some() {
                return declared_twice(name_place);
            }
            self.declare_class(place, name);
            return self.draft.cut();
        }
        self.take("{")?;
        let class = announced.unwrap_or_else(|| self.declare_class(place, name));
        let body = self.draft.open(place);
        self.draft.begin_body(class, body);
        self.draft.cut()?;
        self.body(body)
    }

    fn declare_class(&mut self, place: usize, name: &str) -> u16 {
        self.draft.declare_class(place);
        self.names.declare(name, Kind::Class)
    }

    /// What stands behind the `{` of a class, with its `}`.
    fn body(&mut self, body: u16) -> Read<()> {
        if self.taken("local") {
            self.locals()?;
        }
        self.actions(body)?;
        self.names.forget_locals();
        Ok(())
    }

    /// Behind `local`. No text of the grammar has a comma behind the eighth name.
    fn locals(&mut self) -> Read<()> {
        self.new_name(Kind::Local)?;
        let mut names = 1;
        while names < LOCALS && self.taken(",") {
            self.new_name(Kind::Local)?;
            names += 1;
        }
        self.take(";")?;
        self.draft.cut()
    }
}
