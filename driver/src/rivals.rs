//! Rivals: models whose processes wait for the same few things with smaller, equal, larger and mixed amounts, while those come
//! back one by one.

use crate::good::Made;
use crate::random::Random;
use crate::records::*;

/// What an item names: its kind and number.
type Thing = (u8, u16);

const MOST_ITEMS: usize = 4;

struct Maker<'a> {
    random: &'a mut Random,
    totals: Vec<u32>,
    bins: usize,
    syncs: usize,
    /// What most of the claims name, each some of it, all of it or more.
    wholes: Vec<Vec<Thing>>,
    /// The amount that the rival being made mostly claims, so that all branches of one may be smaller than those of another.
    own: i32,
    blocks: Vec<Vec<Record>>,
}

pub fn model(random: &mut Random) -> Made {
    let mut maker = Maker {
        totals: (0..random.from_to(1, 3)).map(|_| random.pick(&[1, 2, 2, 3, 3, 4, 6])).collect(),
        bins: random.from_to(1, 2),
        syncs: random.from_to(1, 2),
        wholes: Vec::new(),
        own: 1,
        blocks: Vec::new(),
        random,
    };
    for _ in 0..maker.random.pick(&[1, 2, 2]) {
        let whole = maker.whole();
        maker.wholes.push(whole);
    }
    let limit = maker.random.pick(&[60, 150, 400]);
    Made { records: maker.records(), limit }
}

impl Maker<'_> {
    /// One to three different things.
    fn whole(&mut self) -> Vec<Thing> {
        let mut whole = Vec::new();
        for _ in 0..self.random.pick(&[1, 2, 2, 3, 3]) {
            let thing = self.thing();
            if !whole.contains(&thing) {
                whole.push(thing);
            }
        }
        whole
    }

    fn thing(&mut self) -> Thing {
        let kind = [GET_R, GET_B, GET_S][self.random.weighed(&[3, 2, 2])];
        let many = [self.totals.len(), self.bins, self.syncs][usize::from(kind)];
        (kind, self.random.below(many) as u16)
    }

    fn records(&mut self) -> Vec<Record> {
        let rivals = self.random.from_to(2, 5);
        let mut bodies: Vec<u16> = (0..rivals).map(|_| self.rival()).collect();
        bodies.extend([self.feeder(), self.keeper(), self.reporter()]);
        let (feeder, keeper, reporter) = (rivals as u16, rivals as u16 + 1, rivals as u16 + 2);
        let mut records: Vec<Record> = self.totals.iter().map(|total| declared(RES, *total)).collect();
        for _ in 0..self.bins {
            records.push(declared(BIN, self.random.pick(&[0, 0, 1, 2, 3])));
        }
        records.extend((0..self.syncs).map(|_| record(SYNC, &[])));
        records.push(declared(VAR, self.random.pick(&[0, 0, 1, 2])));
        records.extend(bodies.iter().map(|body| class(*body)));
        records.extend((0..self.random.below(3)).map(|_| entity(keeper, 0)));
        for own in 0..self.random.from_to(4, 9) {
            let of = if own < rivals { own } else { self.random.below(rivals) };
            records.push(entity(of as u16, self.random.pick(&[0, 0, 0, 1, 1, 2, 3])));
        }
        records.extend((0..self.random.below(4)).map(|_| entity(reporter, self.random.pick(&[0, 1, 3]))));
        records.push(entity(feeder, 0));
        for actions in std::mem::take(&mut self.blocks) {
            records.push(block());
            records.extend(actions);
        }
        records
    }

    /// A new block with what `made` writes into it, behind those that are there. Its number.
    fn block(&mut self, made: impl FnOnce(&mut Self, &mut Vec<Record>)) -> u16 {
        let number = self.blocks.len();
        self.blocks.push(Vec::new());
        let mut actions = Vec::new();
        made(self, &mut actions);
        self.blocks[number] = actions;
        number as u16
    }

    /// Asks once or some times.
    fn rival(&mut self) -> u16 {
        self.own = self.random.pick(&[1, 1, 2, 3]);
        self.block(|maker, out| {
            if maker.random.one_in(4) {
                out.push(valued(PRIO, &literal(maker.random.pick(&[-1, 1, 1]))));
            }
            let again = maker.block(|maker, out| maker.asks(out));
            out.push(do_block(maker.random.pick(&[1, 1, 2, 3]), again));
        })
    }

    fn asks(&mut self, out: &mut Vec<Record>) {
        match self.random.weighed(&[5, 4, 1]) {
            0 => {
                let claim = self.any_claim();
                out.push(req(&claim));
                self.uses(&claim, out);
            }
            1 => {
                let mut branches = Vec::new();
                let first = self.random.below(self.wholes.len());
                for branch in 0..self.random.pick(&[1, 2, 2, 2, 3]) {
                    let claim = self.claim((first + branch) % self.wholes.len());
                    let number = self.block(|maker, out| maker.uses(&claim, out));
                    branches.push((number, claim));
                }
                out.push(try_branches(&branches));
            }
            _ => {
                let claim = self.any_claim();
                let number = self.block(|maker, out| maker.uses(&claim, out));
                out.push(while_block(number, &claim));
            }
        }
    }

    /// Keeps what a claim took for some time, and gives it back.
    fn uses(&mut self, claim: &[Item], out: &mut Vec<Record>) {
        out.push(valued(HOLD, &literal(self.random.pick(&[0, 1, 1, 2, 3]))));
        for item in claim {
            match item.kind {
                GET_R => out.push(put(PUTR, item.number, item.amount as u32)),
                GET_S => out.push(puts(item.number, item.amount as u16)),
                _ => {}
            }
        }
    }

    fn any_claim(&mut self) -> Claim {
        let whole = self.random.below(self.wholes.len());
        self.claim(whole)
    }

    /// Mostly all things of that whole, else a part or one thing more; in any order, at times with a condition.
    fn claim(&mut self, whole: usize) -> Claim {
        let mut things = self.wholes[whole].clone();
        match self.random.below(8) {
            0 | 1 if things.len() > 1 => drop(things.remove(self.random.below(things.len()))),
            2 => {
                let more = self.thing();
                if !things.contains(&more) {
                    things.push(more);
                }
            }
            _ => {}
        }
        if self.random.one_in(2) {
            things.reverse();
        }
        let mut claim: Claim = things.into_iter().map(|thing| self.item(thing)).collect();
        if claim.len() < MOST_ITEMS && self.random.one_in(3) {
            let at = self.random.below(claim.len() + 1);
            claim.insert(at, self.condition());
        }
        claim
    }

    fn item(&mut self, (kind, number): Thing) -> Item {
        let amount = match self.random.below(10) {
            0 if kind == GET_R => self.totals[usize::from(number)] as i32 + 1,
            0..=4 => self.random.pick(&[1, 1, 2, 3]),
            _ => self.own,
        };
        item(kind, number, amount)
    }

    fn condition(&mut self) -> Item {
        let relation = self.random.from_to(1, 6) as u8;
        Item { kind: CONDITION, relation, number: 0, amount: self.random.pick(&[-1, 0, 0, 1, 1, 2, 3]) }
    }

    /// Puts some into the bins again and again, and changes the variable.
    fn feeder(&mut self) -> u16 {
        self.block(|maker, out| {
            let again = maker.block(|maker, out| {
                out.push(valued(HOLD, &literal(1)));
                let bin = maker.random.below(maker.bins) as u16;
                out.push(put(PUTB, bin, maker.random.pick(&[1, 1, 2, 3])));
                if maker.random.one_in(2) {
                    let more = [node(ADD, 0), node(GLOBAL, 0), literal(1)].concat();
                    out.push(set(SET, 0, &more));
                }
            });
            out.push(do_block(maker.random.pick(&[1, 3, 6]), again));
        })
    }

    /// Takes as much as there is of a resource, and gives it back one by one.
    fn keeper(&mut self) -> u16 {
        self.block(|maker, out| {
            let resource = maker.random.below(maker.totals.len());
            let total = maker.totals[resource];
            out.push(req(&[item(GET_R, resource as u16, total as i32)]));
            for _ in 0..total {
                out.push(valued(HOLD, &literal(maker.random.pick(&[0, 1, 1, 2]))));
                out.push(put(PUTR, resource as u16, 1));
            }
        })
    }

    /// Waits at a sync, some times.
    fn reporter(&mut self) -> u16 {
        self.block(|maker, out| {
            let sync = maker.random.below(maker.syncs) as u16;
            let again = maker.block(|maker, out| {
                out.push(become_slave(sync));
                out.push(valued(HOLD, &literal(maker.random.pick(&[0, 1]))));
            });
            out.push(do_block(maker.random.pick(&[1, 2, 4]), again));
        })
    }
}
