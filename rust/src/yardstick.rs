//! The speed yardstick: van Ginneken's method as an engineer in a hurry for speed would write it,
//! unproved. Same inputs and duties as the planner it is measured against: the tables are checked
//! in full, the work area is lent and left all zero, thinning is exact, nothing is allocated.

mod check;
mod steps;

use crate::entries::{Candidate, Planned, Tables};
use crate::net::Refusal;
use crate::room;
use check::Tree;
use steps::{join, pass_site, pass_wire, Repeater};

/// Plans in one pass from the last row to the driver and writes the four placement words.
pub fn plan(
    tables: Tables,
    placement: &mut [u64],
    work: &mut [Candidate],
) -> Result<Planned, Refusal> {
    if tables.short() || placement.len() < room::PLACEMENT || work.len() < room::WORK {
        return Err(Refusal::at(7, 0));
    }
    let mut tree = Tree::new();
    tree.check(&tables)?;
    let work = &mut work[..room::WORK];
    let (repeaters, count) = steps::by_load(&tables);
    let end = walk(&tables, &tree, &repeaters[..count], work);
    let (best, planned) = at_driver(&work[..end], tables.rows[2]);
    placement[..room::PLACEMENT].copy_from_slice(&best);
    work.fill(Candidate::default());
    Ok(planned)
}

/// Leaves the driven list of the driver at the front of the work area and gives its end.
///
/// In depth-first order, walked backwards, the lists that wait form a stack: a row finds what hangs
/// under it on top, and below that what its later siblings made.
fn walk(tables: &Tables, tree: &Tree, repeaters: &[Repeater], work: &mut [Candidate]) -> usize {
    let mut starts = [0u16; room::ROWS];
    let mut waiting = 0;
    let mut end = 0;
    for &row in tree.order[1..tables.row_count].iter().rev() {
        let row = row as usize;
        let words: &[u32; room::ROW_WORDS] =
            tables.rows[row * room::ROW_WORDS..][..room::ROW_WORDS].try_into().expect("six");
        let [kind, _, resistance, capacitance, site, pin_load] = *words;
        if kind == 2 {
            starts[waiting] = end as u16;
            waiting += 1;
            work[end] = Candidate { load: pin_load.into(), time: tables.due[row], words: [0; 4] };
            end += 1;
        }
        let start = starts[waiting - 1] as usize;
        if site == 1 {
            end = pass_site(work, start, end, repeaters, tree.site[row] as usize);
        }
        end = pass_wire(work, start, end, resistance, capacitance);
        if tree.has_later_sibling(row, words[1] as usize) {
            waiting -= 1;
            end = join(work, starts[waiting - 1] as usize, start, end);
        }
    }
    end
}

/// Loads rise along the list, so the first of the greatest has the least load.
fn at_driver(list: &[Candidate], resistance: u32) -> ([u64; room::PLACEMENT], Planned) {
    let mut best = &list[0];
    let mut slack = i64::MIN;
    for candidate in list {
        let time = candidate.time - i64::from(resistance) * candidate.load as i64;
        if time > slack {
            slack = time;
            best = candidate;
        }
    }
    (best.words, Planned { slack, load: best.load as u32 })
}

#[cfg(test)]
mod tests;
