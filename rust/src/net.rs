//! The safe types: a net that was accepted, a placement, a refusal.

use crate::entries::TableWords;
use crate::reference;
use crate::room;
use std::fmt;

/// Number and place of document 01's refusal list.
#[derive(Clone, Copy, Debug, PartialEq, Eq)]
pub struct Refusal {
    pub number: u32,
    pub place: u32,
}

impl Refusal {
    pub fn at(number: u32, place: usize) -> Refusal {
        Refusal { number, place: place as u32 }
    }
}

impl fmt::Display for Refusal {
    fn fmt(&self, f: &mut fmt::Formatter) -> fmt::Result {
        write!(f, "refused {} {}", self.number, self.place)
    }
}

/// A type of repeater.
#[derive(Clone, Copy, Debug, PartialEq, Eq)]
pub struct Type {
    pub input_load: u32,
    pub resistance: u32,
    pub own_delay: u32,
}

/// What only a sink has.
#[derive(Clone, Copy, Debug, PartialEq, Eq)]
pub struct Pin {
    pub load: u32,
    pub due: i64,
}

#[derive(Clone, Copy, Debug, PartialEq, Eq)]
pub enum Kind {
    Driver,
    Point,
    Sink(Pin),
}

/// A row with its wire; the driver's resistance stands where a row has its wire's.
#[derive(Clone, Copy, Debug, PartialEq, Eq)]
pub struct Row {
    pub kind: Kind,
    pub parent: usize,
    pub resistance: u32,
    pub capacitance: u32,
    pub site: bool,
}

/// An accepted net. There is no way to make one but to have it accepted.
#[derive(Clone, Debug, PartialEq, Eq)]
pub struct Net {
    types: Vec<Type>,
    rows: Vec<Row>,
}

impl Net {
    /// Only acceptance calls this.
    pub(crate) fn accepted(types: Vec<Type>, rows: Vec<Row>) -> Net {
        Net { types, rows }
    }

    pub fn read(text: &[u8]) -> Result<Net, Refusal> {
        reference::read(text)
    }

    pub fn types(&self) -> &[Type] {
        &self.types
    }

    pub fn rows(&self) -> &[Row] {
        &self.rows
    }

    /// The line a row has, or would have, as text.
    pub fn line(&self, row: usize) -> usize {
        self.types.len() + 1 + row
    }

    /// The rows that have a site, in row order: site j is at the j-th of them.
    pub fn site_rows(&self) -> Vec<usize> {
        (0..self.rows.len()).filter(|&row| self.rows[row].site).collect()
    }

    /// For each row the number of its site.
    pub fn sites(&self) -> Vec<Option<usize>> {
        let mut next = 0..;
        self.rows.iter().map(|row| if row.site { next.next() } else { None }).collect()
    }

    /// For each row the rows directly below it, in row order.
    pub fn below(&self) -> Vec<Vec<usize>> {
        let mut below = vec![Vec::new(); self.rows.len()];
        for row in 1..self.rows.len() {
            below[self.rows[row].parent].push(row);
        }
        below
    }

    pub fn text(&self) -> String {
        let mut text = String::new();
        for t in &self.types {
            text += &format!("T\t{}\t{}\t{}\n", t.input_load, t.resistance, t.own_delay);
        }
        for row in &self.rows {
            let wire = format!(
                "{}\t{}\t{}\t{}",
                row.parent, row.resistance, row.capacitance, row.site as u32
            );
            text += &match row.kind {
                Kind::Driver => format!("D\t{}\n", row.resistance),
                Kind::Point => format!("W\t{wire}\n"),
                Kind::Sink(pin) => format!("S\t{wire}\t{}\t{}\n", pin.load, pin.due),
            };
        }
        text
    }

    /// The tables of the net in areas of exactly their room, zero past the entries in use.
    pub fn tables(&self) -> TableWords {
        let mut words = TableWords::empty();
        words.type_count = self.types.len();
        words.row_count = self.rows.len();
        for (t, entry) in self.types.iter().zip(words.types.chunks_mut(room::TYPE_WORDS)) {
            entry.copy_from_slice(&[t.input_load, t.resistance, t.own_delay]);
        }
        for (row, entry) in self.rows.iter().zip(words.rows.chunks_mut(room::ROW_WORDS)) {
            let (kind, pin_load) = match row.kind {
                Kind::Driver => (0, 0),
                Kind::Point => (1, 0),
                Kind::Sink(pin) => (2, pin.load),
            };
            let (parent, site) = (row.parent as u32, row.site as u32);
            entry.copy_from_slice(&[kind, parent, row.resistance, row.capacitance, site, pin_load]);
        }
        for (row, due) in self.rows.iter().zip(&mut words.due) {
            if let Kind::Sink(pin) = row.kind {
                *due = pin.due;
            }
        }
        words
    }
}

/// Sixteen marks of four bits to a word, site j at bit 4 × (j mod 16) of word j / 16.
#[derive(Clone, Copy, Debug, PartialEq, Eq, Default)]
pub struct Placement(pub [u64; room::PLACEMENT]);

impl Placement {
    pub const NONE: Placement = Placement([0; room::PLACEMENT]);

    pub fn mark(&self, site: usize) -> usize {
        (self.0[site / 16] >> (4 * (site % 16)) & 15) as usize
    }

    pub fn with(mut self, site: usize, mark: usize) -> Placement {
        let shift = 4 * (site % 16);
        let word = &mut self.0[site / 16];
        *word = *word & !(15 << shift) | (mark as u64) << shift;
        self
    }

    /// Placements of different branches mark different sites.
    pub fn join(self, other: Placement) -> Placement {
        Placement(std::array::from_fn(|word| self.0[word] | other.0[word]))
    }

    /// Row and type of each repeater, rows rising, as the planning program prints them.
    pub fn repeaters(&self, net: &Net) -> Vec<(usize, usize)> {
        let rows = net.site_rows().into_iter().enumerate();
        rows.map(|(site, row)| (row, self.mark(site))).filter(|&(_, mark)| mark != 0).collect()
    }
}
