//! The exact lists by dynamic programming: make every combination, then thin by sorting. For nets
//! of any size.

use super::Pair;
use crate::net::{Kind, Net, Placement, Row};

/// A pair with the placement that is kept for it.
#[derive(Clone, Copy, Debug, PartialEq, Eq)]
pub struct Choice {
    pub pair: Pair,
    pub placement: Placement,
}

/// Keeps the unbeaten, each pair once, loads and times rising. Of equal pairs the first that was
/// handed in stays: the sort is stable.
pub fn thin(mut choices: Vec<Choice>) -> Vec<Choice> {
    choices.sort_by_key(|choice| (choice.pair.load, -choice.pair.time));
    let mut kept: Vec<Choice> = Vec::new();
    for choice in choices {
        // Sorted so, only a kept choice can beat this one, and the last kept has the best time.
        if kept.last().is_none_or(|last| choice.pair.time > last.pair.time) {
            kept.push(choice);
        }
    }
    kept
}

/// Where two branches meet, loads add and the earlier time counts.
pub fn meet(left: &[Choice], right: &[Choice]) -> Vec<Choice> {
    let mut all = Vec::with_capacity(left.len() * right.len());
    for a in left {
        for b in right {
            let load = a.pair.load + b.pair.load;
            let time = a.pair.time.min(b.pair.time);
            let placement = a.placement.join(b.placement);
            all.push(Choice { pair: Pair { load, time }, placement });
        }
    }
    thin(all)
}

/// The unbeaten choices at every row.
pub fn lists(net: &Net) -> Vec<Vec<Choice>> {
    let sites = net.sites();
    let mut driven: Vec<Option<Vec<Choice>>> = vec![None; net.rows().len()];
    let mut lists = vec![Vec::new(); net.rows().len()];
    for (row, entry) in net.rows().iter().enumerate().rev() {
        let below = match entry.kind {
            Kind::Sink(pin) => {
                let pair = Pair { load: pin.load.into(), time: pin.due };
                vec![Choice { pair, placement: Placement::NONE }]
            }
            _ => driven[row].take().expect("refusal 5 leaves a row below"),
        };
        lists[row] = at_site(net, sites[row], below);
        if row > 0 {
            let hung = behind_wire(entry, &lists[row]);
            let met = match driven[entry.parent].take() {
                None => hung,
                Some(others) => meet(&others, &hung),
            };
            driven[entry.parent] = Some(met);
        }
    }
    lists
}

/// The row's repeater drives what hangs under the row: from each driven choice one for each type.
/// No repeater comes before one, the lower type before the higher, the lighter driven before the
/// heavier; so equal pairs go to what stands.
fn at_site(net: &Net, site: Option<usize>, driven: Vec<Choice>) -> Vec<Choice> {
    let Some(site) = site else { return driven };
    let mut all = driven.clone();
    for (index, repeater) in net.types().iter().enumerate() {
        for choice in &driven {
            let delay =
                i64::from(repeater.own_delay) + i64::from(repeater.resistance) * choice.pair.load;
            let pair = Pair { load: repeater.input_load.into(), time: choice.pair.time - delay };
            all.push(Choice { pair, placement: choice.placement.with(site, index + 1) });
        }
    }
    thin(all)
}

/// A wire can turn a kept pair into a beaten one, so it is thinned behind the wire again.
fn behind_wire(row: &Row, seen: &[Choice]) -> Vec<Choice> {
    let through = |choice: &Choice| {
        let load = choice.pair.load + i64::from(row.capacitance);
        let time = choice.pair.time - i64::from(row.resistance) * load;
        Choice { pair: Pair { load, time }, ..*choice }
    };
    thin(seen.iter().map(through).collect())
}

/// The list at a row.
pub fn list_at(net: &Net, row: usize) -> Vec<Pair> {
    lists(net)[row].iter().map(|choice| choice.pair).collect()
}

/// The greatest slack, the least load on the driver that has it, and the placement kept for them.
pub fn plan(net: &Net) -> Choice {
    let resistance = i64::from(net.rows()[0].resistance);
    let at_driver = lists(net).swap_remove(0).into_iter().map(|choice| {
        let time = choice.pair.time - resistance * choice.pair.load;
        Choice { pair: Pair { time, ..choice.pair }, ..choice }
    });
    let best = at_driver.max_by_key(|choice| (choice.pair.time, -choice.pair.load));
    best.expect("a list is never empty")
}
