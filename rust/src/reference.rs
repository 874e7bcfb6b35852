//! Document 01 as plainly as it can be said. Nothing here is tuned: it is what the other
//! implementations are held against.

pub mod accept;
pub mod areas;
pub mod entry;
pub mod lists;
pub mod search;
pub mod slack;

pub use accept::{check, read};
pub use areas::Reference;
pub use lists::{list_at, plan};
pub use slack::{legal, slack_of};

/// A pair: seen load and least time.
#[derive(Clone, Copy, Debug, PartialEq, Eq, PartialOrd, Ord)]
pub struct Pair {
    pub load: i64,
    pub time: i64,
}

impl Pair {
    /// "One pair beats another when its load is no greater, its time no less, and the two pairs
    /// differ."
    pub fn beats(self, other: Pair) -> bool {
        self.load <= other.load && self.time >= other.time && self != other
    }
}

#[cfg(test)]
mod tests;
