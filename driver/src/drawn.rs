//! What came up of samplers: in models accepted and refused, in steps and their faults, and in rows handed in.

use crate::counts::{Counts, DRAWS, DRAWS_UNDONE, SAMPLERS, SAMPLERS_REFUSED, SEEDS};
use crate::records::{cut, kind_of, nodes, u32_at, ADD, DRAW, GREATER, LESSER, NEGATE, SAMPLER};
use reference::model::{Action, Model, Node, Refusal};

const MOST_SAMPLERS: usize = 16;
const MOST_SEED: u32 = 2_147_483_646;
const MOST_DIFFERENCE: i64 = 1_000_000;

/// The number of the process that drew last from each sampler.
#[derive(Default)]
pub struct Drawers([Option<u32>; MOST_SAMPLERS]);

impl Counts {
    /// The samplers of a model that is accepted.
    pub fn sampled(&mut self, model: &Model) {
        for sampler in &model.samplers {
            let difference = i64::from(sampler.highest) - i64::from(sampler.lowest);
            let (seed_1, last_seed) = (sampler.seed == 1, sampler.seed == MOST_SEED);
            self.add_each(SAMPLERS, 0, &[seed_1, last_seed, difference == 0, difference == MOST_DIFFERENCE]);
        }
        self.add_each(SAMPLERS, 4, &[model.samplers.len() == MOST_SAMPLERS]);
    }

    /// A record that is refused, if it is a sampler or draws.
    pub fn draw_refused(&mut self, bytes: &[u8], refusal: Refusal) {
        let records = cut(&bytes[refusal.place..]);
        let Some(record) = records.first() else {
            return;
        };
        match (refusal.number, kind_of(record)) {
            (3, SAMPLER) => self.add(SAMPLERS_REFUSED, 0),
            (4, SAMPLER) if refusal.place > 0 => self.add(SAMPLERS_REFUSED, 1),
            (5, SAMPLER) => self.add(SAMPLERS_REFUSED, 2),
            (6, SAMPLER) => self.fields_refused(record),
            (6, _) => self.add_each(SAMPLERS_REFUSED, 7, &[nodes(record).any(|(_, op)| op == DRAW + 1)]),
            (8, _) => {
                let declared = cut(bytes).iter().filter(|record| kind_of(record) == SAMPLER).count() as i32;
                let drawn = |so: &dyn Fn(i32) -> bool| {
                    nodes(record).any(|(at, op)| op == DRAW && u32_at(record, at + 2).is_some_and(|n| so(n as i32)))
                };
                self.add_each(SAMPLERS_REFUSED, 8, &[drawn(&|n| n == declared), drawn(&|n| n < 0)]);
            }
            _ => {}
        }
    }

    /// A sampler with one field, or two, outside its set.
    fn fields_refused(&mut self, record: &[u8]) {
        let field = |at: usize| u32_at(record, at).unwrap_or(0);
        let difference = i64::from(field(8) as i32) - i64::from(field(4) as i32);
        let seed = field(12);
        let by_seed = (0..=MOST_DIFFERENCE).contains(&difference);
        let by_range = (1..=MOST_SEED).contains(&seed);
        self.add_each(SAMPLERS_REFUSED, 3, &[by_seed && seed == 0, by_seed && seed == MOST_SEED + 1]);
        self.add_each(SAMPLERS_REFUSED, 5, &[by_range && difference == -1, by_range && difference == MOST_DIFFERENCE + 1]);
    }

    /// A step of this process that did this action.
    pub fn drew(&mut self, action: &Action, process: u32, drawers: &mut Drawers) {
        let nodes = action.expression();
        let draws = nodes.iter().filter(|node| node.op == DRAW);
        let drawn: Vec<usize> = draws.map(|node| node.operand as usize).collect();
        if drawn.is_empty() {
            return;
        }
        let kind = match action {
            Action::Hold(_) => 0,
            Action::Prio(_) => 1,
            Action::Set { .. } => 2,
            Action::Lset { .. } => 3,
            _ => 4,
        };
        self.add(DRAWS, kind);
        let different = |(i, sampler): (usize, &usize)| !drawn[..i].contains(sampler);
        let samplers = drawn.iter().enumerate().filter(|one| different(*one)).count();
        let so = [under(nodes, LESSER), under(nodes, GREATER), samplers < drawn.len(), samplers > 1];
        self.add_each(DRAWS, 5, &so);
        for sampler in drawn {
            let before = drawers.0[sampler].replace(process);
            self.add_each(DRAWS, 9, &[before.is_some_and(|other| other != process)]);
        }
    }

    /// A fault of a step that would have done this action.
    pub fn undone(&mut self, fault: u16, action: &Action) {
        let nodes = action.expression();
        let draws = nodes.iter().any(|node| node.op == DRAW);
        // The first leaf is met before any node can leave the range.
        let first_leaf = nodes.iter().find(|node| trees_below(node) == 0);
        let draws_first = first_leaf.is_some_and(|node| node.op == DRAW);
        let so = [fault == 21 && draws_first, fault == 22 && draws, fault == 23 && draws, fault == 30 && draws];
        self.add_each(DRAWS_UNDONE, 0, &so);
    }

    /// A row handed in with this seed at this place.
    pub fn seeded(&mut self, model: &Model, place: usize, seed: u64) {
        let kind = match seed {
            _ if place >= model.samplers.len() => 3,
            0 => 0,
            _ if seed <= u64::from(MOST_SEED) => 1,
            _ => 2,
        };
        self.add(SEEDS, kind);
    }
}

fn trees_below(node: &Node) -> usize {
    match node.op {
        ADD..=GREATER => 2,
        NEGATE => 1,
        _ => 0,
    }
}

/// Whether a draw stands somewhere under a node of this op.
fn under(nodes: &[Node], op: u16) -> bool {
    let tops = (0..nodes.len()).filter(|at| nodes[*at].op == op);
    tops.into_iter().any(|at| {
        let mut trees_to_come = 1;
        nodes[at..].iter().any(|node| {
            let inside = trees_to_come > 0;
            trees_to_come = (trees_to_come + trees_below(node)).saturating_sub(1);
            inside && node.op == DRAW
        })
    })
}
