//! Everyday calls: a planner that owns its work area.

use super::Linked;
use crate::entries::{Columns, Counts, Entries, Planned, TableWords};
use crate::net::{Placement, Refusal};
use crate::room;

/// A work area of full room.
pub struct Area {
    loads: Vec<u32>,
    times: Vec<i64>,
    words: Vec<u64>,
}

impl Area {
    pub fn new() -> Area {
        Area {
            loads: vec![0; room::WORK],
            times: vec![0; room::WORK],
            words: vec![0; room::WORK * room::PLACEMENT],
        }
    }

    pub fn lent(&mut self) -> Columns<'_> {
        Columns { loads: &mut self.loads, times: &mut self.times, words: &mut self.words }
    }
}

impl Default for Area {
    fn default() -> Area {
        Area::new()
    }
}

/// The proved planner with a work area of its own. Keep one for each thread.
#[derive(Default)]
pub struct Planner {
    work: Area,
}

impl Planner {
    pub fn new() -> Planner {
        Planner::default()
    }

    /// The tables of a net given as text.
    pub fn read(&self, text: &[u8]) -> Result<TableWords, Refusal> {
        let mut tables = TableWords::empty();
        let Counts { types, rows } =
            Linked.read_net(text, &mut tables.types, &mut tables.rows, &mut tables.due)?;
        tables.type_count = types;
        tables.row_count = rows;
        Ok(tables)
    }

    /// Whether the tables are a net that the library takes.
    pub fn check(&self, tables: &TableWords) -> Result<(), Refusal> {
        Linked.check_net(tables.lent())
    }

    /// The slack of a placement, and the load on the driver.
    pub fn slack(&self, tables: &TableWords, placement: Placement) -> Result<Planned, Refusal> {
        Linked.slack_of(tables.lent(), &placement.0)
    }

    /// A placement of greatest slack and, of those, of least load on the driver.
    pub fn plan(&mut self, tables: &TableWords) -> Result<(Placement, Planned), Refusal> {
        let mut placement = Placement::NONE;
        let planned = Linked.plan_net(tables.lent(), &mut placement.0, self.work.lent())?;
        Ok((placement, planned))
    }

    /// The unbeaten pairs at a row: load and time, both rising.
    pub fn list(&mut self, tables: &TableWords, row: usize) -> Result<Vec<(u32, i64)>, Refusal> {
        let mut loads = [0; room::LIST];
        let mut times = [0; room::LIST];
        let length =
            Linked.list_at(tables.lent(), row, &mut loads, &mut times, self.work.lent())?;
        Ok(loads.into_iter().zip(times).take(length).collect())
    }

    /// The loads of that list alone, rising.
    pub fn loads(&mut self, tables: &TableWords, row: usize) -> Result<Vec<u32>, Refusal> {
        let mut loads = [0; room::LIST];
        let length = Linked.loads_at(tables.lent(), row, &mut loads, self.work.lent())?;
        Ok(loads[..length].to_vec())
    }
}
