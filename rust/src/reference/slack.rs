//! Loads, times and the slack of a given placement, from the definitions: the path of every sink,
//! and no lists.

use super::Pair;
use crate::net::{Kind, Net, Placement, Refusal, Type};
use crate::room;

/// Refusal 6, lowest site first.
pub fn legal(net: &Net, placement: Placement) -> Result<(), Refusal> {
    let site_rows = net.site_rows();
    for site in 0..room::SITES {
        let mark = placement.mark(site);
        match site_rows.get(site) {
            Some(&row) if mark > net.types().len() => return Err(Refusal::at(6, net.line(row))),
            None if mark != 0 => return Err(Refusal::at(6, 0)),
            _ => {}
        }
    }
    Ok(())
}

/// The slack of a legal placement and its load on the driver.
pub fn slack_of(net: &Net, placement: Placement) -> Result<Pair, Refusal> {
    legal(net, placement)?;
    let loads = Loads::of(net, placement);
    let at_driver = loads.pair_at(0);
    let driver_delay = i64::from(net.rows()[0].resistance) * at_driver.load;
    Ok(Pair { load: at_driver.load, time: at_driver.time - driver_delay })
}

/// The driven and seen load of every row under one placement.
pub struct Loads<'a> {
    net: &'a Net,
    repeater: Vec<Option<Type>>,
    driven: Vec<i64>,
    seen: Vec<i64>,
}

impl<'a> Loads<'a> {
    pub fn of(net: &'a Net, placement: Placement) -> Loads<'a> {
        let rows = net.rows();
        let repeater_of = |site: &Option<usize>| match site.map(|site| placement.mark(site)) {
            None | Some(0) => None,
            Some(mark) => Some(net.types()[mark - 1]),
        };
        let repeater: Vec<Option<Type>> = net.sites().iter().map(repeater_of).collect();
        let mut driven = vec![0; rows.len()];
        let mut seen = vec![0; rows.len()];
        // Parents stand before children, so from the last row up every row's sum is complete.
        for row in (0..rows.len()).rev() {
            if let Kind::Sink(pin) = rows[row].kind {
                driven[row] = pin.load.into();
            }
            seen[row] = repeater[row].map_or(driven[row], |repeater| repeater.input_load.into());
            if row > 0 {
                driven[rows[row].parent] += i64::from(rows[row].capacitance) + seen[row];
            }
        }
        Loads { net, repeater, driven, seen }
    }

    /// "Its own delay plus its resistance times its driven load."
    fn repeater_delay(&self, row: usize) -> i64 {
        self.repeater[row].map_or(0, |repeater| {
            i64::from(repeater.own_delay) + i64::from(repeater.resistance) * self.driven[row]
        })
    }

    /// "Wire resistance times (wire capacitance plus seen load)."
    fn wire_delay(&self, row: usize) -> i64 {
        let wire = &self.net.rows()[row];
        i64::from(wire.resistance) * (i64::from(wire.capacitance) + self.seen[row])
    }

    /// The delays between a row's seen side and a sink at or below it; none where the sink is
    /// not at or below the row. The row's repeater counts, its wire does not.
    fn delay_between(&self, row: usize, sink: usize) -> Option<i64> {
        let mut at = sink;
        let mut delay = self.repeater_delay(sink);
        while at > row {
            let parent = self.net.rows()[at].parent;
            delay += self.wire_delay(at) + self.repeater_delay(parent);
            at = parent;
        }
        (at == row).then_some(delay)
    }

    /// The pair of the placement at a row. At row 0 the driver's own delay is left out.
    pub fn pair_at(&self, row: usize) -> Pair {
        let time_of = |sink: usize| match self.net.rows()[sink].kind {
            Kind::Sink(pin) => self.delay_between(row, sink).map(|delay| pin.due - delay),
            _ => None,
        };
        let time = (row..self.net.rows().len()).filter_map(time_of).min();
        Pair { load: self.seen[row], time: time.expect("refusal 5 leaves a sink below every row") }
    }
}
