//! The reference as its own entries, and the judge itself: an implementation with a known
//! fault must be told apart. `linked.rs` tests the proved library in the same way.

use zombrict::conformance::{self, Areas};
use zombrict::random::{damage_tables, damage_text, Lengths, Random, Sketch};
use zombrict::reference::Reference;
use zombrict::{room, Candidate, Columns, Counts, Entries, Planned, Records, Refusal, Tables};

/// One round over texts, tables and areas of every kind.
fn round(subject: &impl Records, random: &mut Random) -> conformance::Outcome {
    let rows = random.pick(&[6, 12, 30, 60]);
    let net = Sketch::any(random, rows, 20).net(random);
    let text = net.text().into_bytes();
    let mut tables = net.tables();
    let lengths = Lengths::any(random);
    let areas = Areas::filled(random, lengths);
    conformance::read_net(subject, &text, &areas)?;
    conformance::read_net(subject, &damage_text(random, &text), &areas)?;
    for _ in 0..2 {
        conformance::every_entry(subject, &tables, random, lengths)?;
        conformance::every_record_entry(subject, &tables, random, lengths)?;
        damage_tables(random, &mut tables);
    }
    Ok(())
}

#[test]
fn the_reference_conforms() {
    let mut random = Random::new(21);
    for _ in 0..1_500 {
        assert_eq!(round(&Reference, &mut random), Ok(()));
    }
}

/// The reference with one fault.
struct Faulty(Fault);

#[derive(Clone, Copy, PartialEq)]
enum Fault {
    SlackClaimed,
    WorkLeft,
    ListCut,
    PlaceOff,
    ReadTooMuch,
    PlacementUnwritten,
    TieTurned,
    LoadBeaten,
    LoadPastEnd,
    LoadsWorkLeft,
    LoadsRowFirst,
}

/// Another placement with the same slack and load, where one mark less or changed has them.
fn turn_tie(tables: Tables, placement: &mut [u64], planned: Planned) {
    let marks =
        (0..16 * room::PLACEMENT).flat_map(|site| (0..=room::TYPES).map(move |m| (site, m)));
    for (site, mark) in marks {
        let mut other = placement.to_vec();
        let shift = 4 * (site % 16);
        other[site / 16] = other[site / 16] & !(15 << shift) | (mark as u64) << shift;
        if other != placement && Reference.slack_of(tables, &other) == Ok(planned) {
            return placement.copy_from_slice(&other);
        }
    }
}

impl Entries for Faulty {
    fn read_net(
        &self,
        text: &[u8],
        types: &mut [u32],
        rows: &mut [u32],
        due: &mut [i64],
    ) -> Result<Counts, Refusal> {
        let counts = Reference.read_net(text, types, rows, due)?;
        if self.0 == Fault::ReadTooMuch && counts.rows < due.len() {
            due[counts.rows] = 0;
        }
        Ok(counts)
    }

    fn check_net(&self, tables: Tables) -> Result<(), Refusal> {
        Reference.check_net(tables).map_err(|mut refusal| {
            refusal.place += u32::from(self.0 == Fault::PlaceOff);
            refusal
        })
    }

    fn slack_of(&self, tables: Tables, placement: &[u64]) -> Result<Planned, Refusal> {
        Reference.slack_of(tables, placement)
    }

    fn plan_net(
        &self,
        tables: Tables,
        placement: &mut [u64],
        work: Columns,
    ) -> Result<Planned, Refusal> {
        let former = placement.to_vec();
        let mut planned = Reference.plan_net(tables, placement, work)?;
        planned.slack += i64::from(self.0 == Fault::SlackClaimed);
        if self.0 == Fault::PlacementUnwritten {
            placement.copy_from_slice(&former);
        }
        if self.0 == Fault::TieTurned {
            turn_tie(tables, placement, planned);
        }
        Ok(planned)
    }

    fn list_at(
        &self,
        tables: Tables,
        row: usize,
        loads: &mut [u32],
        times: &mut [i64],
        work: Columns,
    ) -> Result<usize, Refusal> {
        let length = Reference.list_at(tables, row, loads, times, work)?;
        Ok(length - usize::from(self.0 == Fault::ListCut && length > 1))
    }

    fn loads_at(
        &self,
        tables: Tables,
        row: usize,
        loads: &mut [u32],
        work: Columns,
    ) -> Result<usize, Refusal> {
        if self.0 == Fault::LoadsRowFirst && row >= tables.row_count {
            return Err(Refusal::at(8, 0));
        }
        let lent = Columns { loads: work.loads, times: work.times, words: &mut *work.words };
        let length = Reference.loads_at(tables, row, loads, lent)?;
        work.words[0] = u64::from(self.0 == Fault::LoadsWorkLeft);
        if matches!(self.0, Fault::LoadBeaten | Fault::LoadPastEnd) && length < room::LIST {
            // A pair heavier than the last, which has the best time of all, is beaten.
            loads[length] = loads[length - 1] + 1;
            return Ok(length + usize::from(self.0 == Fault::LoadBeaten));
        }
        Ok(length)
    }
}

impl Records for Faulty {
    fn plan_records(
        &self,
        tables: Tables,
        placement: &mut [u64],
        work: &mut [Candidate],
    ) -> Result<Planned, Refusal> {
        let planned = Reference.plan_records(tables, placement, work)?;
        work[767].load = u64::from(self.0 == Fault::WorkLeft);
        Ok(planned)
    }

    fn list_records(
        &self,
        tables: Tables,
        row: usize,
        loads: &mut [u32],
        times: &mut [i64],
        work: &mut [Candidate],
    ) -> Result<usize, Refusal> {
        Reference.list_records(tables, row, loads, times, work)
    }
}

#[test]
fn each_fault_is_found() {
    let faults = [
        Fault::SlackClaimed,
        Fault::WorkLeft,
        Fault::ListCut,
        Fault::PlaceOff,
        Fault::ReadTooMuch,
        Fault::PlacementUnwritten,
        Fault::TieTurned,
        Fault::LoadBeaten,
        Fault::LoadPastEnd,
        Fault::LoadsWorkLeft,
        Fault::LoadsRowFirst,
    ];
    for fault in faults {
        let mut random = Random::new(22);
        let found = (0..200).any(|_| round(&Faulty(fault), &mut random).is_err());
        assert!(found, "fault {} was not found", fault as u32);
    }
}
