//! The bound: NONE, OVER, or the number of steps that no run of the model passes.

use crate::model::{Action, Model};

#[derive(Clone, Copy, Debug, PartialEq, Eq)]
pub enum Bound {
    None,
    Over,
    Number(u32),
}

/// Weights stop at the greatest u64. A weight that stopped is far above any number the answer can give, stays
/// there under sums and under products with 1 or more, and is dropped by a product with 0, so OVER is exact.
type Weight = u64;

pub fn bound(model: &Model) -> Bound {
    if has_none(model) {
        return Bound::None;
    }
    let weights = block_weights(model);
    let total = model
        .entities
        .iter()
        .map(|entity| class_weight(model, &weights, entity.class))
        .fold(0, Weight::saturating_add);
    u32::try_from(total).map_or(Bound::Over, Bound::Number)
}

fn has_none(model: &Model) -> bool {
    model.blocks.iter().enumerate().any(|(own, actions)| {
        actions.iter().any(|action| match action {
            Action::While { .. } => true,
            Action::Start { class, .. } => usize::from(model.classes[usize::from(*class)]) <= own,
            _ => false,
        })
    })
}

/// A block weighs only greater blocks, so each is measured once, the last first.
fn block_weights(model: &Model) -> Vec<Weight> {
    let mut weights = vec![0; model.blocks.len()];
    for (number, actions) in model.blocks.iter().enumerate().rev() {
        weights[number] = actions
            .iter()
            .map(|action| action_weight(model, &weights, action))
            .fold(0, Weight::saturating_add);
    }
    weights
}

fn action_weight(model: &Model, weights: &[Weight], action: &Action) -> Weight {
    let block_and_one = |block: &u16| weights[usize::from(*block)].saturating_add(1);
    match action {
        Action::Putr { .. } | Action::Putb { .. } => 2,
        Action::Start { class, .. } => class_weight(model, weights, *class).saturating_add(1),
        Action::Do { rounds, block } => Weight::from(*rounds)
            .saturating_mul(block_and_one(block))
            .saturating_add(1),
        Action::Try { blocks, .. } => blocks
            .iter()
            .map(block_and_one)
            .max()
            .expect("a TRY has a branch")
            .saturating_add(1),
        _ => 1,
    }
}

fn class_weight(model: &Model, weights: &[Weight], class: u16) -> Weight {
    weights[usize::from(model.classes[usize::from(class)])].saturating_add(1)
}
