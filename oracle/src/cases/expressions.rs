//! Cases for the chapter "Expressions", most of them with an answer that a second route knows.

mod arithmetic;
mod depths;
mod growth;
mod lengths;
mod operators;
mod owners;
mod pages;
mod refusals;
mod soups;
mod texts;
mod trees;

use super::pairs::Pair;
use crate::lines::Case;
use crate::random::Random;

fn eval(text: &[u8], pair: &Pair, allowance: u32) -> Case {
    Case::Eval {
        text: text.to_vec(),
        tables: pair.lent(),
        allowance,
    }
}

/// The telling texts, the depths, the faults in their order, the two tables' names, the lengths;
/// last every operator.
pub fn fixed() -> Vec<Case> {
    [
        texts::fixed(),
        depths::fixed(),
        refusals::fixed(),
        owners::fixed(),
        lengths::fixed(),
        operators::fixed(),
    ]
    .into_iter()
    .flatten()
    .collect()
}

/// Trees of a known answer more often than soups.
pub fn random(random: &mut Random) -> Case {
    match random.below(16) {
        0..=5 => growth::good(random),
        6..=8 => growth::faulty(random),
        9 | 10 => depths::random(random),
        _ => soups::random(random),
    }
}
