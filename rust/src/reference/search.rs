//! Exhaustive search: every legal placement, judged by the definitions alone. For small nets.

use super::slack::{slack_of, Loads};
use super::Pair;
use crate::net::{Net, Placement};

/// Every legal placement of a net.
pub fn placements(net: &Net) -> Vec<Placement> {
    let mut all = vec![Placement::NONE];
    for site in 0..net.site_rows().len() {
        let marks = 1..=net.types().len();
        let marked = all.iter().flat_map(|p| marks.clone().map(|mark| p.with(site, mark)));
        let marked: Vec<Placement> = marked.collect();
        all.extend(marked);
    }
    all
}

/// The greatest slack, and of the placements that have it the least load on the driver.
pub fn best(net: &Net) -> Pair {
    let slacks = placements(net).into_iter().map(|p| slack_of(net, p).expect("legal"));
    slacks.max_by_key(|pair| (pair.time, -pair.load)).expect("a net has a placement")
}

/// The unbeaten pairs at every row, loads rising.
pub fn lists(net: &Net) -> Vec<Vec<Pair>> {
    let mut reached = vec![Vec::new(); net.rows().len()];
    for placement in placements(net) {
        let loads = Loads::of(net, placement);
        for (row, pairs) in reached.iter_mut().enumerate() {
            pairs.push(loads.pair_at(row));
        }
    }
    reached.into_iter().map(unbeaten).collect()
}

/// The pairs that no other beats, each once, said as document 01 says it.
pub fn unbeaten(mut pairs: Vec<Pair>) -> Vec<Pair> {
    pairs.sort();
    pairs.dedup();
    let kept = pairs.iter().filter(|pair| !pairs.iter().any(|other| other.beats(**pair)));
    kept.copied().collect()
}
