//! The public entries over lent areas, as traits. An implementation is held against the reference by
//! writing them for it and giving it to [`crate::conformance`].

use crate::net::Refusal;
use crate::room;

/// A net given as tables, lent. Three words a type: input load, resistance, own delay. Six words
/// a row: kind (0 driver, 1 point, 2 sink), parent, resistance, capacitance, site, pin load.
#[derive(Clone, Copy, Debug)]
pub struct Tables<'a> {
    pub types: &'a [u32],
    pub rows: &'a [u32],
    pub due: &'a [i64],
    pub type_count: usize,
    pub row_count: usize,
}

impl Tables<'_> {
    /// Every area is lent at its full room, however few entries it has.
    pub fn short(&self) -> bool {
        self.types.len() < room::TYPES * room::TYPE_WORDS
            || self.rows.len() < room::ROWS * room::ROW_WORDS
            || self.due.len() < room::ROWS
    }
}

/// The same tables, owned.
#[derive(Clone, Debug, PartialEq, Eq)]
pub struct TableWords {
    pub types: Vec<u32>,
    pub rows: Vec<u32>,
    pub due: Vec<i64>,
    pub type_count: usize,
    pub row_count: usize,
}

impl TableWords {
    pub fn empty() -> TableWords {
        TableWords {
            types: vec![0; room::TYPES * room::TYPE_WORDS],
            rows: vec![0; room::ROWS * room::ROW_WORDS],
            due: vec![0; room::ROWS],
            type_count: 0,
            row_count: 0,
        }
    }

    pub fn lent(&self) -> Tables<'_> {
        Tables {
            types: &self.types,
            rows: &self.rows,
            due: &self.due,
            type_count: self.type_count,
            row_count: self.row_count,
        }
    }
}

/// How many types and rows a text has.
#[derive(Clone, Copy, Debug, PartialEq, Eq)]
pub struct Counts {
    pub types: usize,
    pub rows: usize,
}

/// A slack and the load on the driver.
#[derive(Clone, Copy, Debug, PartialEq, Eq)]
pub struct Planned {
    pub slack: i64,
    pub load: u32,
}

/// Load, time and placement together. The load takes a whole word so that a record has no gaps:
/// a run of them is then cleared at the speed of memory.
#[derive(Clone, Copy, Debug, PartialEq, Eq, Default)]
pub struct Candidate {
    pub load: u64,
    pub time: i64,
    pub words: [u64; room::PLACEMENT],
}

/// The work area as columns: 768 loads, 768 times, 4 × 768 words of placement.
pub struct Columns<'a> {
    pub loads: &'a mut [u32],
    pub times: &'a mut [i64],
    pub words: &'a mut [u64],
}

impl Columns<'_> {
    pub fn short(&self) -> bool {
        self.loads.len() < room::WORK
            || self.times.len() < room::WORK
            || self.words.len() < room::WORK * room::PLACEMENT
    }

    /// "When an entry succeeds … the work area is all zero", and nothing beyond its room changes.
    pub fn clear(&mut self) {
        self.loads[..room::WORK].fill(0);
        self.times[..room::WORK].fill(0);
        self.words[..room::WORK * room::PLACEMENT].fill(0);
    }
}

/// What document 01 asks for. Every entry takes anything; a refusal leaves every area as it was.
pub trait Entries {
    fn read_net(
        &self,
        text: &[u8],
        types: &mut [u32],
        rows: &mut [u32],
        due: &mut [i64],
    ) -> Result<Counts, Refusal>;

    fn check_net(&self, tables: Tables) -> Result<(), Refusal>;

    fn slack_of(&self, tables: Tables, placement: &[u64]) -> Result<Planned, Refusal>;

    fn plan_net(
        &self,
        tables: Tables,
        placement: &mut [u64],
        work: Columns,
    ) -> Result<Planned, Refusal>;

    /// The length of the list at the row; its pairs stand in `loads` and `times`.
    fn list_at(
        &self,
        tables: Tables,
        row: usize,
        loads: &mut [u32],
        times: &mut [i64],
        work: Columns,
    ) -> Result<usize, Refusal>;

    /// `list_at` with the times left out: the loads of the same list, and no area for its times.
    fn loads_at(
        &self,
        tables: Tables,
        row: usize,
        loads: &mut [u32],
        work: Columns,
    ) -> Result<usize, Refusal>;
}

/// The two entries that use a work area, over a lent run of records in place of columns.
pub trait Records: Entries {
    /// `plan_net` over a lent run of records.
    fn plan_records(
        &self,
        tables: Tables,
        placement: &mut [u64],
        work: &mut [Candidate],
    ) -> Result<Planned, Refusal>;

    /// `list_at` over a lent run of records.
    fn list_records(
        &self,
        tables: Tables,
        row: usize,
        loads: &mut [u32],
        times: &mut [i64],
        work: &mut [Candidate],
    ) -> Result<usize, Refusal>;
}
