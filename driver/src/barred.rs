//! What came up of barring: who asks for the same as one ahead, with which amounts, and who is barred by them.

use crate::counts::{Counts, AMOUNTS, BARRED};
use reference::journal::{lines, BIN_RETURNED, BLOCKED, GRANTED, RESOURCE_RETURNED};
use reference::model::{Action, Claim, Item, Model, CONDITION, GET_B, GET_R, GET_S};
use reference::run::{covers, Covered, State, Tested};
use std::cmp::Ordering;

/// What one asks, and what each of those asks who are blocked ahead of it and behind it.
pub struct Asked<'a> {
    claims: &'a [Claim],
    ahead: Vec<&'a [Claim]>,
    behind: Vec<&'a [Claim]>,
    some_met: bool,
}

/// What the process in this place asks by this action, which it is about to do.
pub fn asked<'a>(model: &'a Model, state: &State, place: usize, action: &'a Action) -> Asked<'a> {
    let priority = |place: usize| state.places[place].as_ref().map(|process| process.priority);
    let joins = state.blocked_list.partition_point(|blocked| priority(*blocked) >= priority(place));
    let (ahead, behind) = state.blocked_list.split_at(joins);
    Asked {
        claims: action.claims(),
        ahead: ahead.iter().map(|blocked| claims_at(model, state, *blocked)).collect(),
        behind: behind.iter().map(|blocked| claims_at(model, state, *blocked)).collect(),
        some_met: action.claims().iter().any(|claim| state.test(claim) == Tested::Met),
    }
}

fn claims_at<'a>(model: &'a Model, state: &State, place: usize) -> &'a [Claim] {
    let standing = state.places[place].as_ref().and_then(|process| process.blocks.last()).expect("a blocked one stands");
    model.blocks[usize::from(standing.block)][standing.place].claims()
}

impl Counts {
    /// A step that did this action, by which this was asked, and the lines that it wrote.
    pub fn asked(&mut self, model: &Model, asked: &Asked, action: &Action, journal: &[u8]) {
        for branches in &asked.ahead {
            for b in *branches {
                asked.claims.iter().for_each(|q| self.beside(b, q));
            }
        }
        let goes = lines(journal).any(|line| line.kind == GRANTED);
        let waits = lines(journal).find(|line| line.kind == BLOCKED);
        let passes_on = matches!(action, Action::While { .. }) && !goes;
        if waits.is_some_and(|line| line.value == -1) {
            self.barred(model, asked);
        }
        let passed = |blocked: &[&[Claim]], so: fn(&Claim, &Claim) -> bool| {
            goes && blocked.iter().any(|branches| branches.iter().any(|b| asked.claims.iter().any(|q| so(b, q))))
        };
        let so = [
            goes && asked.split(),
            waits.is_some_and(|line| line.value != -1) && asked.split(),
            passes_on && asked.some_met && asked.by_amounts(),
            passed(&asked.ahead, |b, q| amounts(b, q).is_some_and(|all| all.is_equal())),
            passed(&asked.ahead, |b, q| amounts(b, q).is_some_and(|all| all.is_mixed())),
            passed(&asked.behind, |b, q| covers(b, q) == Covered::SmallerAmounts),
        ];
        self.add_each(BARRED, 5, &so);
    }

    /// One branch of one ahead, and one of who asks.
    fn beside(&mut self, b: &Claim, q: &Claim) {
        let beside = |item: &Item| item.kind == CONDITION;
        let conditions = b.iter().chain(q).any(beside);
        if let Some(all) = amounts(b, q) {
            let smaller = all.is_smaller();
            let alone = |kind: u8| smaller && all.0.iter().all(|one| one.order == Ordering::Equal || one.kind == kind);
            let so = [
                alone(GET_R),
                alone(GET_B),
                alone(GET_S),
                smaller && all.has(Ordering::Equal),
                smaller && order(b) != order(q),
                smaller && conditions,
                all.is_equal(),
                all.is_equal() && conditions,
                all.has(Ordering::Greater) && !all.has(Ordering::Less),
                all.is_mixed(),
            ];
            self.add_each(AMOUNTS, 0, &so);
        }
        let more = |item: &Item| item.kind != CONDITION && amount_of(b, item).is_some_and(|amount| amount < item.amount);
        self.add_each(AMOUNTS, 10, &[covers(b, q) == Covered::StrictPart && q.iter().any(more)]);
    }

    /// One that is blocked, and barred.
    fn barred(&mut self, model: &Model, asked: &Asked) {
        let by_amounts = asked.by_amounts();
        let by_each_rule = by_amounts && !asked.barred_by(|how| how == Covered::SmallerAmounts);
        let endless = |item: &Item| item.kind == GET_R && item.amount as u32 > model.resources[usize::from(item.number)];
        let never_goes = |branches: &[Claim]| branches.iter().all(|b| b.iter().any(endless));
        let so = [
            by_amounts && asked.some_met,
            by_amounts && !asked.some_met,
            by_each_rule,
            by_amounts && asked.ahead.iter().all(|b| !bars(b, asked.claims, covers_at_all) || two_serve(b, asked.claims)),
            by_amounts && asked.ahead.iter().all(|b| !bars(b, asked.claims, covers_at_all) || never_goes(b)),
        ];
        self.add_each(BARRED, 0, &so);
    }

    /// A step that wrote these lines and left this state: who could go, and is still blocked, since it is barred.
    pub fn walked(&mut self, model: &Model, state: &State, action: Option<&Action>, journal: &[u8]) {
        let returned = lines(journal).any(|line| line.kind == RESOURCE_RETURNED || line.kind == BIN_RETURNED);
        if !returned && !matches!(action, Some(Action::Set { .. } | Action::Become { .. })) {
            return;
        }
        let blocked: Vec<&[Claim]> = state.blocked_list.iter().map(|place| claims_at(model, state, *place)).collect();
        for (k, claims) in blocked.iter().enumerate() {
            if claims.iter().any(|claim| state.test(claim) == Tested::Met) {
                let left = Asked { claims, ahead: blocked[..k].to_vec(), behind: Vec::new(), some_met: true };
                self.add_each(BARRED, 11, &[left.by_amounts()]);
            }
        }
    }
}

impl Asked<'_> {
    fn barred_by(&self, rule: fn(Covered) -> bool) -> bool {
        self.ahead.iter().any(|b| bars(b, self.claims, rule))
    }

    /// Barred, and not if amounts weren't looked at.
    fn by_amounts(&self) -> bool {
        self.barred_by(covers_at_all) && !self.barred_by(|how| how == Covered::StrictPart)
    }

    /// Each branch is covered, some by amounts alone; but nobody ahead covers all.
    fn split(&self) -> bool {
        let by = |rule: fn(Covered) -> bool| self.claims.iter().all(|q| self.ahead.iter().any(|b| covered(b, q, rule)));
        !self.barred_by(covers_at_all) && by(covers_at_all) && !by(|how| how == Covered::StrictPart)
    }
}

fn covers_at_all(how: Covered) -> bool {
    how != Covered::No
}

fn covered(b: &[Claim], q: &Claim, rule: fn(Covered) -> bool) -> bool {
    b.iter().any(|branch| rule(covers(branch, q)))
}

fn bars(b: &[Claim], q: &[Claim], rule: fn(Covered) -> bool) -> bool {
    q.iter().all(|claim| covered(b, claim, rule))
}

/// Whether no branch of b's covers all of q's.
fn two_serve(b: &[Claim], q: &[Claim]) -> bool {
    !b.iter().any(|branch| q.iter().all(|claim| covers_at_all(covers(branch, claim))))
}

/// How much q has of each thing, against b.
struct Amounts(Vec<Amount>);

struct Amount {
    kind: u8,
    order: Ordering,
}

impl Amounts {
    fn has(&self, order: Ordering) -> bool {
        self.0.iter().any(|one| one.order == order)
    }

    fn is_smaller(&self) -> bool {
        self.has(Ordering::Less) && !self.has(Ordering::Greater)
    }

    fn is_equal(&self) -> bool {
        !self.has(Ordering::Less) && !self.has(Ordering::Greater)
    }

    fn is_mixed(&self) -> bool {
        self.has(Ordering::Less) && self.has(Ordering::Greater)
    }
}

/// The amounts of two claims that name the same things, and not nothing.
fn amounts(b: &Claim, q: &Claim) -> Option<Amounts> {
    let named = |claim: &Claim| claim.iter().filter(|item| item.kind != CONDITION).count();
    if named(q) == 0 || named(q) != named(b) {
        return None;
    }
    let things = q.iter().filter(|item| item.kind != CONDITION);
    let compared = things.map(|item| Some(Amount { kind: item.kind, order: item.amount.cmp(&amount_of(b, item)?) }));
    compared.collect::<Option<Vec<Amount>>>().map(Amounts)
}

/// How much a claim has of the thing that an item names.
fn amount_of(claim: &Claim, of: &Item) -> Option<i32> {
    let same = claim.iter().find(|item| (item.kind, item.number) == (of.kind, of.number));
    same.map(|item| item.amount)
}

/// The things of a claim in the order in which they are written.
fn order(claim: &Claim) -> Vec<(u8, u16)> {
    claim.iter().filter(|item| item.kind != CONDITION).map(|item| (item.kind, item.number)).collect()
}
