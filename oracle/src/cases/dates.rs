//! Cases for the diaries' dates, each with an answer that a second route knows.

mod agreed;
mod calendar;
mod clocks;
mod formats;
mod growth;
#[cfg(test)]
mod kinds;
mod lengths;
mod moments;

pub use calendar::calendar;

use crate::lines::Case;
use crate::random::Random;

/// The telling formats, the lengths, the clock and the edges of bytes, the edges of the calendar.
pub fn fixed() -> Vec<Case> {
    [
        formats::fixed(),
        lengths::fixed(),
        clocks::fixed(),
        calendar::edges(),
    ]
    .into_iter()
    .flatten()
    .collect()
}

pub fn random(random: &mut Random) -> Case {
    growth::random(random)
}
