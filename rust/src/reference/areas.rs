//! The reference as the public entries: what each lent area holds afterwards.

use super::{check, legal, list_at, plan, read, slack_of};
use crate::entries::{Candidate, Columns, Counts, Entries, Planned, Records, Tables};
use crate::net::{Net, Placement, Refusal};
use crate::reference::Pair;
use crate::room;

pub struct Reference;

fn refuse_short(short: bool) -> Result<(), Refusal> {
    if short {
        return Err(Refusal::at(7, 0));
    }
    Ok(())
}

fn planned(pair: Pair) -> Planned {
    Planned { slack: pair.time, load: pair.load as u32 }
}

/// Writes the loads of the list into their area and gives its length.
fn hand_out_loads(list: &[Pair], loads: &mut [u32]) -> usize {
    for (index, pair) in list.iter().enumerate() {
        loads[index] = pair.load as u32;
    }
    list.len()
}

/// Writes the list into its areas and gives its length.
fn hand_out(list: &[Pair], loads: &mut [u32], times: &mut [i64]) -> usize {
    for (index, pair) in list.iter().enumerate() {
        times[index] = pair.time;
    }
    hand_out_loads(list, loads)
}

fn list_of(tables: &Tables, row: usize) -> Result<Vec<Pair>, Refusal> {
    let net: Net = check(tables)?;
    if row >= net.rows().len() {
        return Err(Refusal::at(8, 0));
    }
    Ok(list_at(&net, row))
}

impl Entries for Reference {
    fn read_net(
        &self,
        text: &[u8],
        types: &mut [u32],
        rows: &mut [u32],
        due: &mut [i64],
    ) -> Result<Counts, Refusal> {
        let lent = Tables { types, rows, due, type_count: 0, row_count: 0 };
        refuse_short(lent.short())?;
        let net = read(text)?;
        let words = net.tables();
        let counts = Counts { types: net.types().len(), rows: net.rows().len() };
        let (type_end, row_end) = (counts.types * room::TYPE_WORDS, counts.rows * room::ROW_WORDS);
        types[..type_end].copy_from_slice(&words.types[..type_end]);
        rows[..row_end].copy_from_slice(&words.rows[..row_end]);
        due[..counts.rows].copy_from_slice(&words.due[..counts.rows]);
        Ok(counts)
    }

    fn check_net(&self, tables: Tables) -> Result<(), Refusal> {
        check(&tables).map(|_| ())
    }

    fn slack_of(&self, tables: Tables, placement: &[u64]) -> Result<Planned, Refusal> {
        refuse_short(placement.len() < room::PLACEMENT)?;
        let net = check(&tables)?;
        let marks = Placement(std::array::from_fn(|word| placement[word]));
        legal(&net, marks)?;
        slack_of(&net, marks).map(planned)
    }

    fn plan_net(
        &self,
        tables: Tables,
        placement: &mut [u64],
        mut work: Columns,
    ) -> Result<Planned, Refusal> {
        refuse_short(placement.len() < room::PLACEMENT || work.short())?;
        let best = plan(&check(&tables)?);
        placement[..room::PLACEMENT].copy_from_slice(&best.placement.0);
        work.clear();
        Ok(planned(best.pair))
    }

    fn list_at(
        &self,
        tables: Tables,
        row: usize,
        loads: &mut [u32],
        times: &mut [i64],
        mut work: Columns,
    ) -> Result<usize, Refusal> {
        refuse_short(loads.len() < room::LIST || times.len() < room::LIST || work.short())?;
        let list = list_of(&tables, row)?;
        work.clear();
        Ok(hand_out(&list, loads, times))
    }

    fn loads_at(
        &self,
        tables: Tables,
        row: usize,
        loads: &mut [u32],
        mut work: Columns,
    ) -> Result<usize, Refusal> {
        refuse_short(loads.len() < room::LIST || work.short())?;
        let list = list_of(&tables, row)?;
        work.clear();
        Ok(hand_out_loads(&list, loads))
    }
}

impl Records for Reference {
    fn plan_records(
        &self,
        tables: Tables,
        placement: &mut [u64],
        work: &mut [Candidate],
    ) -> Result<Planned, Refusal> {
        refuse_short(placement.len() < room::PLACEMENT || work.len() < room::WORK)?;
        let best = plan(&check(&tables)?);
        placement[..room::PLACEMENT].copy_from_slice(&best.placement.0);
        work[..room::WORK].fill(Candidate::default());
        Ok(planned(best.pair))
    }

    fn list_records(
        &self,
        tables: Tables,
        row: usize,
        loads: &mut [u32],
        times: &mut [i64],
        work: &mut [Candidate],
    ) -> Result<usize, Refusal> {
        let short = loads.len() < room::LIST || times.len() < room::LIST;
        refuse_short(short || work.len() < room::WORK)?;
        let list = list_of(&tables, row)?;
        work[..room::WORK].fill(Candidate::default());
        Ok(hand_out(&list, loads, times))
    }
}
