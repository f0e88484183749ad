//! Good models: processes that compete for few things, at equal times and with equal and other priorities.

use crate::random::Random;
use crate::records::*;
use crate::rivals;

/// A model as its records, and the limit of its longest run.
pub struct Made {
    pub records: Vec<Record>,
    pub limit: u32,
}

/// No more actions than this are begun, so that a good model stays far below the limits.
const ACTIONS: usize = 300;
const DEEPEST: usize = 8;

struct Maker<'a> {
    random: &'a mut Random,
    totals: Vec<u32>,
    bins: usize,
    syncs: usize,
    variables: usize,
    /// Lowest, highest and seed of each.
    samplers: Vec<(i32, i32, u32)>,
    classes: usize,
    entities: usize,
    /// The class whose body is being made.
    own: usize,
    /// The last class gives back what a START has handed to it.
    handed: Vec<(u16, u32)>,
    /// One scene in so many goes wrong; with 0 none does.
    wild: usize,
    /// One scene in so many nests.
    nests: usize,
    blocks: Vec<Vec<Record>>,
    actions: usize,
}

pub fn model(random: &mut Random) -> Made {
    if random.one_in(1_500) {
        return full_bin(random);
    }
    let made = if random.one_in(5) { rivals::model(random) } else { any_model(random) };
    if random.one_in(8) {
        return Made { records: numbered_high(random, made.records), ..made };
    }
    made
}

fn any_model(random: &mut Random) -> Made {
    let mut maker = Maker::new(random);
    let bodies: Vec<u16> =
        if maker.random.one_in(10) { maker.crew() } else { (0..maker.classes).map(|own| maker.body(own)).collect() };
    let limit = if maker.random.one_in(20) { 3_000 } else { 400 };
    Made { records: maker.records(&bodies), limit }
}

/// The same model with its things numbered up to the last number that there can be.
fn numbered_high(random: &mut Random, records: Vec<Record>) -> Vec<Record> {
    let sync = record(SYNC, &[]);
    let kinds = [
        (RES, 32, declared(RES, 0)),
        (BIN, 32, declared(BIN, 0)),
        (SYNC, 32, sync),
        (VAR, 32, declared(VAR, 0)),
        (SAMPLER, 16, sampler(0, 0, 1)),
        (CLASS, 64, class(0)),
        (BLOCK, 256, block()),
    ];
    let mut records = records;
    for (kind, most, unused) in kinds {
        let there = records.iter().filter(|record| kind_of(record) == kind).count();
        if there > 0 && random.one_in(2) {
            records = raised(records, kind, most - there, &unused);
        }
    }
    records
}

impl<'a> Maker<'a> {
    fn new(random: &'a mut Random) -> Maker<'a> {
        let resources = random.pick(&[1, 1, 2, 2, 3, 3, 4]);
        let totals: Vec<u32> = (0..resources).map(|_| random.pick(&[0, 1, 1, 1, 1, 2, 2, 2, 3, 5, 1_000_000])).collect();
        let classes = random.from_to(1, 4);
        let mut handed = Vec::new();
        if classes > 1 {
            for resource in 0..resources.min(random.below(3)) {
                handed.push((resource as u16, random.pick(&[1, 1, 1, 2])));
            }
        }
        Maker {
            totals,
            bins: random.pick(&[0, 1, 1, 2]),
            syncs: random.pick(&[0, 1, 1, 1, 2]),
            variables: random.pick(&[1, 1, 2]),
            samplers: (0..random.pick(&[0, 0, 1, 1, 2, 3])).map(|_| some_sampler(random)).collect(),
            classes,
            entities: if random.one_in(12) { random.from_to(1, 64) } else { random.from_to(2, 7) },
            own: 0,
            handed,
            wild: random.pick(&[0, 0, 0, 40, 12]),
            nests: random.pick(&[3, 6, 6, 1]),
            blocks: Vec::new(),
            actions: 0,
            random,
        }
    }

    fn records(&mut self, bodies: &[u16]) -> Vec<Record> {
        let mut records: Vec<Record> = self.totals.iter().map(|n| declared(RES, *n)).collect();
        for _ in 0..self.bins {
            let amount = self.random.pick(&[0, 0, 1, 1, 2, 3, 1_000_000]);
            records.push(declared(BIN, amount));
        }
        records.extend((0..self.syncs).map(|_| record(SYNC, &[])));
        for _ in 0..self.variables {
            let value = self.random.pick(&[0, 0, 0, 1, -1, 3, i32::MAX]);
            records.push(declared(VAR, value as u32));
        }
        records.extend(self.samplers.iter().map(|(lowest, highest, seed)| sampler(*lowest, *highest, *seed)));
        records.extend(bodies.iter().map(|body| class(*body)));
        for _ in 0..self.entities {
            let any = self.handed.is_empty() || self.wild > 0 && self.random.one_in(10);
            let of = self.random.below(self.classes - usize::from(!any));
            let offset = self.random.pick(&[0, 0, 0, 0, 0, 1, 1, 2, 5, 1_000_000]);
            records.push(entity(of as u16, offset));
        }
        for actions in std::mem::take(&mut self.blocks) {
            records.push(block());
            records.extend(actions);
        }
        records
    }

    /// The body of a class, and the blocks that it names; its number.
    fn body(&mut self, own: usize) -> u16 {
        self.own = own;
        let receives = own + 1 == self.classes;
        let many = self.random.from_to(1, 4);
        let number = self.block(1, many, |maker, out| {
            if receives {
                for (resource, amount) in maker.handed.clone() {
                    out.push(put(PUTR, resource, amount));
                }
            }
        });
        if self.random.one_in(3) {
            let first = valued(PRIO, &literal(self.random.pick(&[-1, 1, 1, 2])));
            self.blocks[usize::from(number)].insert(0, first);
        }
        number
    }

    /// Other classes in place of any: slaves of two syncs, and masters that own some of both at once.
    fn crew(&mut self) -> Vec<u16> {
        self.syncs = 2;
        self.classes = 4;
        self.entities = self.random.pick(&[4, 6, 9, 12, 50, 64]);
        self.handed.clear();
        let mut bodies: Vec<u16> = (0..3).map(|sync| self.slaves(sync % 2)).collect();
        bodies.push(self.block(1, 0, |maker, out| {
            let again = maker.block(2, 0, |maker, out| maker.masters(out));
            out.push(do_block(maker.random.pick(&[1, 2, 3]), again));
        }));
        bodies
    }

    fn slaves(&mut self, sync: u16) -> u16 {
        self.block(1, 0, |maker, out| {
            out.push(maker.prio());
            let again = maker.block(2, 0, |maker, out| {
                out.push(become_slave(sync));
                out.push(maker.hold());
            });
            out.push(do_block(maker.random.pick(&[1, 2, 3, 9]), again));
        })
    }

    /// Slaves of both syncs claimed, some more of one, and all let go in any order.
    fn masters(&mut self, out: &mut Vec<Record>) {
        let first = self.random.below(2) as u16;
        let many = if self.entities > 12 { self.random.pick(&[1, 2, 8, 12]) } else { self.random.pick(&[1, 1, 2]) };
        let mut claim = vec![item(GET_S, first, many), item(GET_S, 1 - first, (many / 2).max(1))];
        out.push(req(&claim));
        if self.random.one_in(2) {
            let more = item(GET_S, first, 1);
            out.push(req(&[more]));
            claim.push(more);
        }
        out.push(self.hold());
        self.release(&claim, out);
    }

    /// A new block: so many scenes, and then what `last` adds. Its number.
    fn block(&mut self, depth: usize, many: usize, last: impl FnOnce(&mut Self, &mut Vec<Record>)) -> u16 {
        let number = self.blocks.len();
        self.blocks.push(Vec::new());
        let mut actions = Vec::new();
        for _ in 0..many {
            self.scene(depth, &mut actions);
        }
        last(self, &mut actions);
        self.actions += actions.len();
        self.blocks[number] = actions;
        number as u16
    }

    fn may_nest(&self, depth: usize) -> bool {
        depth < DEEPEST && self.actions < ACTIONS && self.blocks.len() < 200
    }

    fn scene(&mut self, depth: usize, out: &mut Vec<Record>) {
        if self.wild > 0 && self.random.one_in(self.wild) {
            return self.wild_scene(depth, out);
        }
        if self.may_nest(depth) && self.random.one_in(self.nests) {
            return match self.random.weighed(&[5, 3, 4]) {
                0 => self.tries(depth, out),
                1 => self.loops(depth, out),
                _ => self.rounds(depth, out),
            };
        }
        match self.random.weighed(&[12, 4, 4, 5, 7, 3, 3, 3]) {
            0 => self.uses(depth, out),
            1 => out.push(self.hold()),
            2 => out.push(self.prio()),
            3 => out.push(self.sets()),
            4 => self.waits(out),
            5 => self.starts(out),
            6 => self.feeds(out),
            _ => self.notes(out),
        }
    }

    // ---- claims

    fn amount_of(&mut self, kind: u8, number: usize) -> i32 {
        match kind {
            GET_R => match self.random.below(12) {
                0 => self.totals[number] as i32 + 1,
                1 => (self.totals[number] as i32).max(1),
                2 | 3 => 2,
                _ => 1,
            }
            .min(1_000_000),
            _ => self.random.pick(&[1, 1, 1, 2, 2, 3]),
        }
    }

    fn item(&mut self) -> Option<Item> {
        let kind = [GET_R, GET_B, GET_S, CONDITION][self.random.weighed(&[10, 2, 3, 4])];
        let many = [self.totals.len(), self.bins, self.syncs, self.variables][usize::from(kind)];
        if many == 0 {
            return None;
        }
        let number = self.random.below(many);
        if kind == CONDITION {
            return Some(self.condition(number as u16));
        }
        let amount = self.amount_of(kind, number);
        Some(item(kind, number as u16, amount))
    }

    fn condition(&mut self, number: u16) -> Item {
        Item {
            kind: CONDITION,
            relation: self.random.from_to(1, 6) as u8,
            number,
            amount: self.random.pick(&[-1, 0, 0, 1, 1, 2, 3, i32::MIN, i32::MAX]),
        }
    }

    fn claim(&mut self) -> Claim {
        let many = self.random.pick(&[0, 1, 1, 1, 1, 2, 2, 2, 2, 3, 3, 4]);
        let mut claim: Claim = Vec::new();
        for _ in 0..many {
            if let Some(new) = self.item() {
                let named = |old: &Item| old.kind == new.kind && old.number == new.number;
                if new.kind == CONDITION || !claim.iter().any(named) {
                    claim.push(new);
                }
            }
        }
        claim
    }

    /// Gives back what a claim took, in any order, some of it in two parts.
    fn release(&mut self, claim: &[Item], out: &mut Vec<Record>) {
        let mut parts = Vec::new();
        for item in claim.iter().filter(|item| item.kind == GET_R || item.kind == GET_S) {
            let all = item.amount as u32;
            let first = if all > 1 && self.random.one_in(2) { 1 } else { all };
            parts.push((*item, first));
            if first < all {
                parts.push((*item, all - first));
            }
        }
        while !parts.is_empty() {
            let (item, amount) = parts.swap_remove(self.random.below(parts.len()));
            if self.wild > 0 && self.random.one_in(self.wild * 2) {
                continue;
            }
            out.push(match item.kind {
                GET_R => put(PUTR, item.number, amount),
                _ => puts(item.number, amount as u16),
            });
        }
    }

    // ---- scenes without a block of their own

    /// A REQ, something done with what it gave, and all of it given back.
    fn uses(&mut self, depth: usize, out: &mut Vec<Record>) {
        let claim = self.claim();
        out.push(req(&claim));
        match self.random.below(6) {
            0 => {}
            1 => self.scene(depth, out),
            2 => {
                out.push(self.hold());
                self.notes(out);
            }
            _ => out.push(self.hold()),
        }
        self.release(&claim, out);
    }

    fn delay(&mut self) -> Vec<u8> {
        if !self.samplers.is_empty() && self.random.one_in(4) {
            return self.drawn_delay();
        }
        match self.random.below(12) {
            0 => {
                let inner = self.tree(12);
                [node(LESSER, 0), literal(3), node(GREATER, 0), literal(0), inner].concat()
            }
            _ => literal(self.random.pick(&[0, 0, 0, 1, 1, 1, 1, 2, 2, 3, 7])),
        }
    }

    /// A draw, as it is where it is no fault.
    fn drawn_delay(&mut self) -> Vec<u8> {
        let number = self.random.below(self.samplers.len());
        let drawn = node(DRAW, number as i32);
        match self.samplers[number] {
            (0.., ..=1_000_000, _) if !self.random.one_in(4) => drawn,
            _ => [node(GREATER, 0), node(LESSER, 0), drawn, literal(9), literal(0)].concat(),
        }
    }

    fn hold(&mut self) -> Record {
        valued(HOLD, &self.delay())
    }

    fn prio(&mut self) -> Record {
        let literal_of = literal(self.random.pick(&[
            -2,
            -1,
            -1,
            0,
            0,
            0,
            1,
            1,
            1,
            2,
            5,
            -9_999,
            -10_000,
            -10_001,
            -12_000,
            -15_000,
            -20_000,
            i32::MIN,
            i32::MAX,
        ]));
        let value = if self.random.one_in(6) { self.tree(8) } else { literal_of };
        valued(PRIO, &value)
    }

    fn sets(&mut self) -> Record {
        let variable = self.random.below(self.variables) as u16;
        let value = match self.random.below(4) {
            0 => [node(ADD, 0), node(GLOBAL, i32::from(variable)), literal(1)].concat(),
            1 => self.tree(16),
            _ => literal(self.random.pick(&[-1, 0, 0, 1, 1, 2, 3])),
        };
        set(SET, variable, &value)
    }

    /// BECOME, or a master that claims slaves and lets them go.
    fn waits(&mut self, out: &mut Vec<Record>) {
        if self.syncs == 0 {
            return out.push(self.hold());
        }
        let sync = self.random.below(self.syncs) as u16;
        if self.random.one_in(2) {
            return out.push(become_slave(sync));
        }
        let claim = vec![item(GET_S, sync, self.random.pick(&[1, 1, 1, 2, 2, 3]))];
        out.push(req(&claim));
        if self.random.one_in(2) {
            out.push(self.hold());
        }
        self.release(&claim, out);
    }

    /// A START, mostly of a later class; sometimes with resources handed over.
    fn starts(&mut self, out: &mut Vec<Record>) {
        let offset = self.random.pick(&[0, 0, 0, 1, 1, 2, 1_000_000]);
        let last = self.classes - 1;
        if !self.handed.is_empty() && self.own < last {
            let claim: Claim = self.handed.iter().map(|(resource, amount)| item(GET_R, *resource, *amount as i32)).collect();
            out.push(req(&claim));
            out.push(start(last as u16, offset, &self.handed));
            return;
        }
        if self.own < last {
            out.push(start(self.random.from_to(self.own + 1, last) as u16, offset, &[]));
        } else if self.random.one_in(8) {
            out.push(start(self.random.below(self.classes) as u16, offset, &[]));
        }
    }

    fn feeds(&mut self, out: &mut Vec<Record>) {
        if self.bins == 0 {
            return out.push(self.hold());
        }
        let bin = self.random.below(self.bins) as u16;
        out.push(put(PUTB, bin, self.random.pick(&[1, 1, 1, 2, 3, 1_000_000])));
    }

    /// LSET and TRACE; once in a while CLOSE.
    fn notes(&mut self, out: &mut Vec<Record>) {
        match self.random.below(40) {
            0 => out.push(close()),
            1..=15 => {
                let value = self.tree(16);
                out.push(set(LSET, self.random.below(8) as u16, &value));
            }
            _ => {
                let value = self.tree(16);
                out.push(valued(TRACE, &value));
            }
        }
    }

    // ---- expressions

    /// A tree of at most `most` nodes.
    fn tree(&mut self, most: usize) -> Vec<u8> {
        if most < 3 || self.random.one_in(3) {
            return self.leaf();
        }
        let op = self.random.pick(&[ADD, ADD, SUBTRACT, SUBTRACT, MULTIPLY, LESSER, GREATER, NEGATE]);
        let first = self.tree(most - 2);
        if op == NEGATE {
            return [node(op, 0), first].concat();
        }
        let second = self.tree(most - 1 - first.len() / 6);
        [node(op, 0), first, second].concat()
    }

    fn leaf(&mut self) -> Vec<u8> {
        if !self.samplers.is_empty() && self.random.one_in(3) {
            return node(DRAW, self.random.below(self.samplers.len()) as i32);
        }
        match self.random.below(8) {
            0 | 1 => node(GLOBAL, self.random.below(self.variables) as i32),
            2 => node(LOCAL, self.random.below(8) as i32),
            3 => node(CLOCK, 0),
            _ if self.wild > 0 && self.random.one_in(self.wild) => {
                literal(self.random.pick(&[i32::MIN, i32::MIN + 1, i32::MAX, 46_341, -46_341, 65_536]))
            }
            _ => literal(self.random.pick(&[-3, -2, -1, 0, 0, 1, 1, 2, 3, 5])),
        }
    }

    // ---- scenes with blocks

    fn tries(&mut self, depth: usize, out: &mut Vec<Record>) {
        let mut branches: Vec<(u16, Claim)> = Vec::new();
        for _ in 0..self.random.pick(&[1, 2, 2, 2, 3, 4]) {
            let claim = self.claim();
            if !branches.is_empty() && claim.iter().all(|item| item.kind != GET_R) && self.random.one_in(3) {
                let shared = branches[0].0;
                branches.push((shared, branches[0].1.clone()));
                continue;
            }
            let many = self.random.pick(&[0, 0, 1, 1, 2]);
            let kept = claim.clone();
            let number = self.block(depth + 1, many, |maker, out| maker.release(&kept, out));
            branches.push((number, claim));
        }
        out.push(try_branches(&branches));
    }

    fn loops(&mut self, depth: usize, out: &mut Vec<Record>) {
        let variable = self.random.below(self.variables) as u16;
        let counts = Item {
            relation: self.random.pick(&[1, 2, 4]),
            amount: self.random.pick(&[1, 2, 3]),
            ..self.condition(variable)
        };
        let mut claim = self.claim();
        claim.truncate(3);
        if claim.is_empty() || !self.random.one_in(6) {
            claim.push(counts);
        }
        let kept = claim.clone();
        let many = self.random.pick(&[0, 1, 1]);
        let number = self.block(depth + 1, many, |maker, out| {
            if maker.random.one_in(2) {
                out.push(maker.hold());
            }
            maker.release(&kept, out);
            if !maker.random.one_in(8) {
                let more = [node(ADD, 0), node(GLOBAL, i32::from(variable)), literal(1)].concat();
                out.push(set(SET, variable, &more));
            }
        });
        out.push(while_block(number, &claim));
    }

    fn rounds(&mut self, depth: usize, out: &mut Vec<Record>) {
        let many = self.random.pick(&[0, 1, 1, 2, 2]);
        let number = self.block(depth + 1, many, |_, _| {});
        let rounds = self.random.pick(&[0, 1, 1, 2, 2, 3, 4, 9]);
        out.push(do_block(rounds, number));
    }

    // ---- what goes wrong

    /// A scene that comes to a fault, or just doesn't.
    fn wild_scene(&mut self, depth: usize, out: &mut Vec<Record>) {
        let resource = self.random.below(self.totals.len()) as u16;
        match self.random.below(9) {
            0 => out.push(put(PUTR, resource, self.random.pick(&[1, 2, 1_000_000]))),
            1 if self.syncs > 0 => {
                let sync = self.random.below(self.syncs) as u16;
                out.push(puts(sync, self.random.pick(&[1, 2, 64])));
            }
            2 => out.push(valued(HOLD, &literal(self.random.pick(&[-1, -1, i32::MIN, 0])))),
            3 => self.late(out),
            4 => {
                let value = self.tree(16);
                out.push(valued(HOLD, &value));
            }
            5 if self.syncs > 0 => out.push(req(&[item(GET_S, self.random.below(self.syncs) as u16, 1)])),
            5 => out.push(req(&[item(GET_R, resource, 1)])),
            6 if self.bins > 0 && self.may_nest(depth) => self.many_returns(depth, out),
            7 if !self.samplers.is_empty() => self.draws_wrong(out),
            _ if self.may_nest(depth) => self.crowds(depth, out),
            _ => {}
        }
    }

    /// HOLDs and STARTs about the time 2,000,000,000.
    fn late(&mut self, out: &mut Vec<Record>) {
        let last = 2_000_000_000 + self.random.pick(&[-1, 0, 0, 1, -1_000_000]);
        out.push(valued(HOLD, &[node(SUBTRACT, 0), literal(last), node(CLOCK, 0)].concat()));
        let share = (self.random.below(self.totals.len()) as u16, 1);
        let shares = [share];
        let class = self.random.below(self.classes) as u16;
        let offset = self.random.pick(&[0, 0, 1, 2, 999_999, 1_000_000]);
        out.push(start(class, offset, &shares[..self.random.below(2)]));
        out.push(valued(HOLD, &literal(self.random.pick(&[0, 0, 1, i32::MAX]))));
    }

    /// A draw that is a fault but for its lowest value or its highest.
    fn draws_wrong(&mut self, out: &mut Vec<Record>) {
        let number = self.random.below(self.samplers.len());
        let (lowest, highest, _) = self.samplers[number];
        let drawn = node(DRAW, number as i32);
        let above_lowest =
            |last: i32| [node(ADD, 0), drawn.clone(), node(SUBTRACT, 0), literal(last), literal(lowest)].concat();
        out.push(match self.random.below(3) {
            0 => valued(HOLD, &[node(SUBTRACT, 0), drawn, literal(highest)].concat()),
            1 => valued(HOLD, &above_lowest(2_000_000_000)),
            _ => valued(TRACE, &above_lowest(i32::MAX)),
        });
    }

    /// About 64 returns at one instant; then a PUTR of what may not be held.
    fn many_returns(&mut self, depth: usize, out: &mut Vec<Record>) {
        let bin = self.random.below(self.bins) as u16;
        let number = self.block(depth + 1, 0, |_, out| out.push(put(PUTB, bin, 1)));
        out.push(do_block(self.random.pick(&[20, 40, 62, 63, 64, 64, 65]), number));
        if self.random.one_in(2) {
            let resource = self.random.below(self.totals.len()) as u16;
            out.push(put(PUTR, resource, 1));
        }
    }

    /// About 64 living at one instant; then a START of what may not be held.
    fn crowds(&mut self, depth: usize, out: &mut Vec<Record>) {
        let class = self.random.below(self.classes) as u16;
        let offset = self.random.pick(&[0, 1, 3]);
        let number = self.block(depth + 1, 0, |_, out| out.push(start(class, offset, &[])));
        out.push(do_block(self.random.pick(&[20, 40, 57, 59, 60, 61, 62, 63, 64]), number));
        if self.random.one_in(2) {
            let resource = self.random.below(self.totals.len()) as u16;
            out.push(start(class, 0, &[(resource, 1)]));
        }
    }
}

fn some_sampler(random: &mut Random) -> (i32, i32, u32) {
    let (lowest, highest) = random.pick(&[
        (4, 7),
        (0, 3),
        (0, 1),
        (1, 2),
        (2, 2),
        (-2, 2),
        (0, 1_000_000),
        (i32::MAX - 1, i32::MAX),
        (i32::MIN, i32::MIN + 1),
    ]);
    let any = random.from_to(1, 2_147_483_646) as u32;
    (lowest, highest, random.pick(&[1, 2, 2_147_483_646, any, any, any]))
}

/// A bin that comes to 1,000,000,000 and beyond, while somebody takes from it.
fn full_bin(random: &mut Random) -> Made {
    let begins = random.pick(&[1_000_000, 999_999, 0]);
    let claim = [item(GET_B, 0, random.pick(&[1, 1_000_000]))];
    let takes = random.pick(&[0, 1, 3]);
    let records = vec![
        declared(BIN, begins),
        class(0),
        class(1),
        entity(0, 0),
        entity(1, random.pick(&[0, 1, 10])),
        block(),
        do_block(random.pick(&[16, 17, 18]), 2),
        block(),
        do_block(takes, 4),
        block(),
        do_block(random.from_to(58, 63) as u16, 3),
        valued(HOLD, &literal(1)),
        block(),
        put(PUTB, 0, 1_000_000),
        block(),
        req(&claim),
        valued(HOLD, &literal(random.pick(&[0, 1, 5]))),
    ];
    Made { records, limit: 8_000 }
}
