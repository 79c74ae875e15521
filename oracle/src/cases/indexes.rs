//! Cases for the index beside the house table, each with an answer that a second route knows.

mod agreed;
pub mod building;
mod houses;
#[cfg(test)]
mod kinds;
mod known;
pub mod looks;
#[cfg(test)]
mod met;
pub mod owners;
pub mod texts;
mod wrongs;

#[cfg(test)]
pub use agreed::Text;
