//! The lines action and block of the grammar (TEXT.md, section 3).

use super::names::Kind;
use super::reader::Reader;
use super::tokens::Token;
use super::Read;
use crate::model::{Action, Claim, Expression};

impl Reader<'_> {
    /// The actions of a block, behind its `{` and with its `}`. The cut at the `{` refuses a ninth block inside others,
    /// so calls don't nest deeper.
    pub fn actions(&mut self, block: u16) -> Read<()> {
        while !self.taken("}") {
            self.action(block)?;
        }
        Ok(())
    }

    fn action(&mut self, block: u16) -> Read<()> {
        let place = self.place;
        match self.token {
            Token::Quoted("do") => self.do_action(block),
            Token::Quoted("while") => self.while_action(block),
            Token::Quoted("try") => self.try_action(block),
            _ => {
                let action = self.plain_action()?;
                self.take(";")?;
                self.draft.act(block, place, action);
                self.draft.cut()
            }
        }
    }

    fn do_action(&mut self, block: u16) -> Read<()> {
        let place = self.place;
        self.step();
        let rounds = self.count()?;
        self.take("{")?;
        let inner = self.draft.open(place);
        let action = Action::Do {
            rounds,
            block: inner,
        };
        self.draft.act(block, place, action);
        self.draft.cut()?;
        self.actions(inner)
    }

    fn while_action(&mut self, block: u16) -> Read<()> {
        let place = self.place;
        self.step();
        let claim = self.claim()?;
        self.take("{")?;
        let inner = self.draft.open(place);
        let action = Action::While {
            block: inner,
            claim,
        };
        self.draft.act(block, place, action);
        self.draft.cut()?;
        self.actions(inner)
    }

    fn try_action(&mut self, block: u16) -> Read<()> {
        let place = self.place;
        self.step();
        let claim = self.claim_then()?;
        self.draft.begin_try(block, place);
        self.branch(block, place, claim)?;
        while self.taken("etry") {
            let claim = self.claim_then()?;
            self.branch(block, place, claim)?;
        }
        Ok(())
    }

    /// The claim of a branch, with the `then {` behind it.
    fn claim_then(&mut self) -> Read<Claim> {
        let claim = self.claim()?;
        self.take("then")?;
        self.take("{")?;
        Ok(claim)
    }

    /// A branch of the `try` at this place, behind its `{`.
    fn branch(&mut self, block: u16, place: usize, claim: Claim) -> Read<()> {
        let inner = self.draft.open(place);
        self.draft.add_branch(block, inner, claim);
        self.draft.cut()?;
        self.actions(inner)
    }

    /// Any that opens no block, as far as its `;`.
    fn plain_action(&mut self) -> Read<Action> {
        let no_action = self.wrong();
        let Token::Quoted(keyword) = self.token else {
            return self.assignment();
        };
        self.step();
        match keyword {
            "hold" => Ok(Action::Hold(self.argument()?)),
            "priority" => Ok(Action::Prio(self.argument()?)),
            "trace" => Ok(Action::Trace(self.argument()?)),
            "putR" => {
                let (resource, amount) = self.name_and_number(Kind::Resource)?;
                Ok(Action::Putr { resource, amount })
            }
            "putB" => {
                let (bin, amount) = self.name_and_number(Kind::Bin)?;
                Ok(Action::Putb { bin, amount })
            }
            "putS" => self.put_s(),
            "become" => self.become_action(),
            "req" => Ok(Action::Req {
                claim: self.claim()?,
            }),
            "start" => self.start(),
            "close" => Ok(Action::Close),
            _ => no_action,
        }
    }

    /// `store ":=" expression`.
    fn assignment(&mut self) -> Read<Action> {
        let (kind, number) = self.known(&[Kind::Variable, Kind::Local])?;
        self.take(":=")?;
        let value = self.expression()?;
        Ok(if kind == Kind::Variable {
            Action::Set {
                variable: number,
                value,
            }
        } else {
            Action::Lset {
                local: number,
                value,
            }
        })
    }

    /// `"(" expression ")"`; these brackets stand outside the expression.
    fn argument(&mut self) -> Read<Expression> {
        self.take("(")?;
        let expression = self.expression()?;
        self.take(")")?;
        Ok(expression)
    }

    fn put_s(&mut self) -> Read<Action> {
        self.take("(")?;
        let sync = self.known_number(Kind::Sync)?;
        self.take(",")?;
        let count = self.count()?;
        self.take(")")?;
        Ok(Action::Puts { sync, count })
    }

    fn become_action(&mut self) -> Read<Action> {
        self.take("(")?;
        let sync = self.known_number(Kind::Sync)?;
        self.take(")")?;
        Ok(Action::Become { sync })
    }

    fn start(&mut self) -> Read<Action> {
        self.take("(")?;
        let class = self.known_number(Kind::Class)?;
        self.take(",")?;
        let offset = self.number()?;
        let list = if self.taken(",") {
            self.gives()?
        } else {
            Vec::new()
        };
        self.take(")")?;
        Ok(Action::Start {
            class,
            offset,
            list,
        })
    }
}
