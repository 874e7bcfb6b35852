//! Fixed cases, each with a short name: the corners of reading and checking, and the nets whose
//! plan, lists and slacks are to be got. `vectors` prints what the reference gives for them.

pub mod plan;
pub mod print;
pub mod program;
pub mod read_tables;
pub mod read_text;

use crate::entries::TableWords;
use crate::net::Net;
use crate::recipe;

/// Where an expected answer comes from, besides the reference.
#[derive(Clone, Copy, Debug, PartialEq, Eq)]
pub enum By {
    /// Document 01 prints this answer or says it in so many words.
    Document,
    /// A settled open point says it.
    Ruling,
    /// Worked out by hand from the document's definitions.
    Hand,
    /// Only the reference has worked it out.
    Reference,
}

impl By {
    pub fn word(self) -> &'static str {
        match self {
            By::Document => "document",
            By::Ruling => "ruling",
            By::Hand => "hand",
            By::Reference => "reference",
        }
    }
}

/// A text to be read.
pub struct TextCase {
    pub name: &'static str,
    pub recipe: &'static str,
    /// Lengths of types, rows and due where they are not lent at their room.
    pub lengths: Option<[usize; 3]>,
    pub expected: &'static str,
    pub by: By,
}

/// Tables to be checked: those of an accepted text, zero past its entries, then changed.
pub struct TableCase {
    pub name: &'static str,
    pub recipe: &'static str,
    pub set: &'static [(Area, usize, i64)],
    pub counts: Option<(usize, usize)>,
    /// Lengths of types, rows and due; what is added is 4294967295, or -1 in due.
    pub lengths: Option<[usize; 3]>,
    pub expected: &'static str,
    pub by: By,
}

#[derive(Clone, Copy, Debug, PartialEq, Eq)]
pub enum Area {
    Types,
    Rows,
    Due,
}

impl Area {
    pub fn word(self) -> &'static str {
        match self {
            Area::Types => "types",
            Area::Rows => "rows",
            Area::Due => "due",
        }
    }
}

impl TableCase {
    pub fn tables(&self) -> TableWords {
        let net = Net::read(&recipe::make(self.recipe)).expect("a case starts from a good net");
        let mut tables = net.tables();
        for &(area, index, value) in self.set {
            match area {
                Area::Types => tables.types[index] = value as u32,
                Area::Rows => tables.rows[index] = value as u32,
                Area::Due => tables.due[index] = value,
            }
        }
        if let Some((types, rows)) = self.counts {
            (tables.type_count, tables.row_count) = (types, rows);
        }
        if let Some([types, rows, due]) = self.lengths {
            tables.types.resize(types, u32::MAX);
            tables.rows.resize(rows, u32::MAX);
            tables.due.resize(due, -1);
        }
        tables
    }
}

/// A net and what is asked of it.
pub struct PlanCase {
    pub name: &'static str,
    pub recipe: &'static str,
    pub asked: &'static [(Ask, &'static str, By)],
}

/// An empty expected answer is left to the reference.
#[derive(Clone, Copy, Debug, PartialEq, Eq)]
pub enum Ask {
    Plan,
    List(usize),
    /// The lists at all rows; only the reference's.
    Lists,
    /// The loads of the list at a row alone.
    Loads(usize),
    Slack([u64; 4]),
}

#[cfg(test)]
mod tests;
