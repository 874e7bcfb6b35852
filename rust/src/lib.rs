//! The proved library for Rust, and what holds it to account: a second, independent implementation of
//! document 01, and what is needed to hold another implementation against it.
//!
//! - [`net`]: the safe types: [`Net`], [`Placement`], [`Refusal`]
//! - [`entries`]: the public entries over lent areas, as a trait
//! - [`reference`]: document 01 said as plainly as possible; slow, and the judge
//! - [`yardstick`]: the same planner written for speed; the measure of speed
//! - [`random`]: seeded nets, tables and damaged texts
//! - [`cases`]: the fixed cases behind `vectors/read.txt` and `vectors/plan.txt`
//! - [`nets`]: the example nets
//! - [`conformance`]: holds any implementation of the entries against the reference
//! - [`made`]: how a test runs what `rt` makes
//! - `linked`, with the feature of that name: the proved library behind safe calls
//!
//! Everything here is safe Rust over the standard library alone but for `linked`, which calls C.

#![deny(unsafe_code)]

pub mod cases;
pub mod conformance;
pub mod entries;
#[cfg(feature = "linked")]
pub mod linked;
pub mod made;
pub mod net;
pub mod nets;
pub mod random;
pub mod recipe;
pub mod reference;
pub mod yardstick;

pub use entries::{Candidate, Columns, Counts, Entries, Planned, Records, TableWords, Tables};
pub use net::{Kind, Net, Pin, Placement, Refusal, Row, Type};

/// The rooms and ranges of document 01.
pub mod room {
    pub const TYPES: usize = 4;
    pub const ROWS: usize = 256;
    pub const SITES: usize = 64;
    pub const TEXT: usize = 32_768;
    pub const PLACEMENT: usize = 4;
    pub const LIST: usize = 257;
    pub const WORK: usize = 768;

    /// Words of one type and of one row in the tables.
    pub const TYPE_WORDS: usize = 3;
    pub const ROW_WORDS: usize = 6;

    pub const RESISTANCE: u32 = 100_000;
    pub const CAPACITANCE: u32 = 100_000;
    pub const OWN_DELAY: u32 = 1_000_000_000;
    pub const DUE: i64 = 1_000_000_000_000;
    /// What a parent field may say before it is a number out of range.
    pub const PARENT: u32 = 255;
}
