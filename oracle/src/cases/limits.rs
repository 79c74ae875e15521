//! Allowances and rooms around the exact ones.

use crate::gs::Allowance;
use crate::random::Random;
use crate::refusal::{Located, Refusal};

/// The least allowance under which an operation is not refused for it, or one over the most.
pub fn least_allowance(refusal_under: impl Fn(u32) -> Option<Located>) -> u32 {
    let (mut low, mut high) = (0, Allowance::MOST + 1);
    while low < high {
        let middle = (low + high) / 2;
        if refusal_under(middle).is_some_and(is_spent) {
            low = middle + 1;
        } else {
            high = middle;
        }
    }
    low
}

fn is_spent(Located { refused, .. }: Located) -> bool {
    refused.refusal == Refusal::AllowanceSpent
}

/// The exact allowance, its neighbours, and those at the rule's own limits.
pub fn allowance(random: &mut Random, exact: u32) -> u32 {
    match random.below(12) {
        0..=3 => exact,
        4 | 5 => exact.saturating_sub(1),
        6 => exact + 1,
        7 => random.below(20) as u32,
        _ => random.pick(&[0, 1, 1_023, 1_024, 1_025, 65_536, u32::MAX]),
    }
}

/// The exact room, its neighbours, none and plenty.
pub fn room(random: &mut Random, need: usize) -> usize {
    match random.below(10) {
        0..=2 => need,
        3 => need.saturating_sub(1),
        4 => need + 1,
        5 => random.below(need + 1),
        6 => random.pick(&[0, 1]),
        _ => need + random.between(2, 200),
    }
}
