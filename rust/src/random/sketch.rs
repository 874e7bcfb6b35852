//! A net in a few words (tree, order of rows, kind of values) and its making.

use super::Random;
use crate::net::Net;
use crate::reference::accept::accept;
use crate::reference::entry::{Entry, Number, Wire};
use crate::room;

/// How the rows hang together.
#[derive(Clone, Copy, Debug, PartialEq, Eq)]
pub enum Tree {
    Chain,
    Star,
    /// Each row under any earlier one.
    Loose,
    /// Each row under one of the few before it: long, with short branches.
    Long,
    Binary,
    /// A trunk with a sink at every point.
    Comb,
}

/// In which order the rows stand.
#[derive(Clone, Copy, Debug, PartialEq, Eq)]
pub enum Order {
    DepthFirst,
    BreadthFirst,
    /// Any order that has parents before children.
    Mixed,
}

/// What the numbers are like.
#[derive(Clone, Copy, Debug, PartialEq, Eq)]
pub enum Values {
    /// Of a readout chip: tens to hundreds of ohms and femtofarads, picoseconds.
    Typical,
    /// So small that pairs often tie.
    Small,
    /// The ends of every range.
    Limits,
    /// Anywhere in the ranges.
    Whole,
    /// Wires without resistance, often without capacitance.
    ZeroWires,
    /// All sinks alike and all types alike: equal slacks everywhere.
    Twins,
}

#[derive(Clone, Copy, Debug)]
pub struct Sketch {
    pub rows: usize,
    pub types: usize,
    /// At most so many sites.
    pub sites: usize,
    /// Of the rows, how many in a hundred get a site while there are some left.
    pub site_percent: usize,
    pub tree: Tree,
    pub order: Order,
    pub values: Values,
}

impl Sketch {
    /// Any net of at most so many rows and sites.
    pub fn any(random: &mut Random, rows: usize, sites: usize) -> Sketch {
        use {Order::*, Tree::*, Values::*};
        Sketch {
            rows: random.between(2, rows as i64) as usize,
            types: random.below(room::TYPES + 1),
            sites,
            site_percent: random.pick(&[0, 30, 60, 100, 100]),
            tree: random.pick(&[Chain, Star, Loose, Loose, Long, Binary, Comb]),
            order: random.pick(&[DepthFirst, BreadthFirst, Mixed]),
            values: random.pick(&[Typical, Small, Small, Limits, Whole, ZeroWires, Twins]),
        }
    }

    /// 10 to 40 rows, about half of them sites, as most nets of a chip are.
    pub fn typical(random: &mut Random) -> Sketch {
        Sketch {
            rows: random.between(10, 40) as usize,
            types: random.between(1, 3) as usize,
            sites: room::SITES,
            site_percent: 50,
            tree: random.pick(&[Tree::Loose, Tree::Long, Tree::Long, Tree::Comb, Tree::Chain]),
            order: Order::DepthFirst,
            values: Values::Typical,
        }
    }

    pub fn net(&self, random: &mut Random) -> Net {
        accept(&self.entries(random)).expect("a sketched net keeps to document 01")
    }

    pub fn entries(&self, random: &mut Random) -> Vec<Entry> {
        let mut entries = Vec::new();
        for _ in 0..self.types {
            entries.push(self.repeater(random));
        }
        entries.push(Entry::Driver { resistance: self.values.resistance(random, 2_000) });
        let parents = ordered(&self.parents(random), self.order, random);
        let mut sites_left = self.sites;
        for row in 1..self.rows {
            let site = sites_left > 0 && random.chance(self.site_percent);
            sites_left -= usize::from(site);
            let wire = Wire {
                parent: parents[row] as Number,
                resistance: self.values.wire(random, 400),
                capacitance: self.values.wire(random, 120),
                site: site.into(),
            };
            let is_parent = parents[row + 1..].contains(&row);
            entries.push(if is_parent { Entry::Point { wire } } else { self.sink(random, wire) });
        }
        entries
    }

    /// For each row its parent, each row after its parent. Row 0's own is never used.
    fn parents(&self, random: &mut Random) -> Vec<usize> {
        let parent = |row: usize, random: &mut Random| match self.tree {
            Tree::Chain => row - 1,
            Tree::Star => 0,
            Tree::Loose => random.below(row),
            Tree::Long => row - 1 - random.below(row.min(4)),
            Tree::Binary => (row - 1) / 2,
            Tree::Comb if row.is_multiple_of(2) => row - 1,
            Tree::Comb => row.saturating_sub(2),
        };
        (0..self.rows).map(|row| if row == 0 { 0 } else { parent(row, random) }).collect()
    }

    fn repeater(&self, random: &mut Random) -> Entry {
        if self.values == Values::Twins {
            return Entry::Type { input_load: 3, resistance: 2, own_delay: 5 };
        }
        Entry::Type {
            input_load: self.values.capacitance(random, 20),
            resistance: self.values.resistance(random, 2_000),
            own_delay: match self.values {
                Values::Typical => random.between(5_000, 40_000).into(),
                Values::Limits => random.pick(&[0, 1, room::OWN_DELAY - 1, room::OWN_DELAY]).into(),
                Values::Whole => random.between(0, room::OWN_DELAY.into()).into(),
                _ => random.between(0, 30).into(),
            },
        }
    }

    fn sink(&self, random: &mut Random, wire: Wire) -> Entry {
        let due = match self.values {
            Values::Typical => random.between(500_000, 3_000_000),
            Values::Limits => {
                random.pick(&[-room::DUE, 1 - room::DUE, 0, room::DUE - 1, room::DUE])
            }
            Values::Whole => random.between(-room::DUE, room::DUE),
            Values::Twins => 100,
            _ => random.between(-20, 120),
        };
        let pin_load = match self.values {
            Values::Twins => 7,
            values => values.capacitance(random, 15),
        };
        Entry::Sink { wire, pin_load, due: due.into() }
    }
}

impl Values {
    fn number(self, random: &mut Random, typical: i64, last: u32) -> Number {
        let number = match self {
            Values::Typical => random.between(1, typical),
            Values::Limits => random.pick(&[0, 1, i64::from(last) - 1, last.into(), last.into()]),
            Values::Whole => random.between(0, last.into()),
            _ => random.between(0, 9),
        };
        number.into()
    }

    fn resistance(self, random: &mut Random, typical: i64) -> Number {
        self.number(random, typical, room::RESISTANCE)
    }

    fn capacitance(self, random: &mut Random, typical: i64) -> Number {
        self.number(random, typical, room::CAPACITANCE)
    }

    fn wire(self, random: &mut Random, typical: i64) -> Number {
        match self {
            Values::ZeroWires => 0,
            Values::Twins => 1,
            _ => self.number(random, typical, room::RESISTANCE),
        }
    }
}

/// The same tree with its rows in another order.
fn ordered(parents: &[usize], order: Order, random: &mut Random) -> Vec<usize> {
    let mut ready = vec![0];
    let mut place = vec![0; parents.len()];
    let mut ordered = Vec::new();
    while !ready.is_empty() {
        let next = match order {
            Order::DepthFirst => ready.pop().expect("not empty"),
            Order::BreadthFirst => ready.remove(0),
            Order::Mixed => {
                let chosen = random.below(ready.len());
                ready.swap_remove(chosen)
            }
        };
        place[next] = ordered.len();
        ordered.push(place[parents[next]]);
        ready.extend((1..parents.len()).filter(|&row| parents[row] == next));
    }
    ordered
}
