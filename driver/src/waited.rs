//! What came up of waiting: who waits for what, and who passes on.

use crate::counts::{Counts, WAITED};
use reference::journal::{lines, BLOCKED};
use reference::model::{Action, Item, CONDITION};
use reference::run::{State, Tested};

/// What the branches of an action answer in this state.
pub fn tests(state: &State, action: &Action) -> Vec<Tested> {
    action.claims().iter().map(|claim| state.test(claim)).collect()
}

impl Counts {
    /// A step that did this action, whose branches answered so before, and the lines that it wrote.
    pub fn waited(&mut self, action: &Action, tests: &[Tested], journal: &[u8]) {
        let some_met = tests.contains(&Tested::Met);
        if let Action::While { .. } = action {
            let passed_on = journal.is_empty();
            return self.add_each(WAITED, 5, &[passed_on && some_met, passed_on && !some_met]);
        }
        let Some(blocked) = lines(journal).find(|line| line.kind == BLOCKED) else {
            return;
        };
        if blocked.value == -1 {
            return self.add_each(WAITED, 0, &[some_met, !some_met]);
        }
        let lacking = usize::try_from(blocked.value).expect("-1 or an item");
        let is_condition = |item: &Item| item.kind == CONDITION;
        let (before, from) = action.claims()[0].split_at(lacking - 1);
        let so = [is_condition(&from[0]), before.iter().any(is_condition), tests.first() != tests.last()];
        self.add_each(WAITED, 2, &so);
    }
}
