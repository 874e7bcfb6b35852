//! Holds any implementation of the entries against the reference: the answer, and every word of
//! every lent area, the part beyond its room included. Of several placements with the same pair a
//! planner has to return the one that the reference has: ties at a site go to what stands.

use crate::entries::{Candidate, Columns, Counts, Entries, Planned, Records, TableWords, Tables};
use crate::net::{Placement, Refusal};
use crate::random::{Lengths, Random};
use crate::reference::Reference;
use crate::room;
use std::fmt::Debug;

/// What differed, in words.
pub type Outcome = Result<(), String>;

fn same<T: PartialEq + Debug>(what: &str, subject: &T, expected: &T) -> Outcome {
    if subject == expected {
        return Ok(());
    }
    Err(format!("{what}: got {subject:?}, expected {expected:?}"))
}

/// The lent areas of every entry, filled with what no entry would write.
#[derive(Clone, Debug, PartialEq, Eq)]
pub struct Areas {
    pub types: Vec<u32>,
    pub rows: Vec<u32>,
    pub due: Vec<i64>,
    pub placement: Vec<u64>,
    pub list_loads: Vec<u32>,
    pub list_times: Vec<i64>,
    pub loads: Vec<u32>,
    pub times: Vec<i64>,
    pub words: Vec<u64>,
    pub records: Vec<Candidate>,
}

impl Areas {
    pub fn filled(random: &mut Random, lengths: Lengths) -> Areas {
        let mut words =
            |length: usize| -> Vec<u64> { (0..length).map(|_| random.word()).collect() };
        let short = |words: Vec<u64>| words.into_iter().map(|word| word as u32).collect();
        let signed = |words: Vec<u64>| words.into_iter().map(|word| word as i64).collect();
        let record = |word: u64| Candidate { load: word, time: !word as i64, words: [word; 4] };
        Areas {
            types: short(words(lengths.types)),
            rows: short(words(lengths.rows)),
            due: signed(words(lengths.due)),
            placement: words(lengths.placement),
            list_loads: short(words(lengths.list)),
            list_times: signed(words(lengths.list)),
            loads: short(words(lengths.work)),
            times: signed(words(lengths.work)),
            words: words(lengths.work * room::PLACEMENT),
            records: words(lengths.work).into_iter().map(record).collect(),
        }
    }
}

/// Tables lent at other lengths: what was beyond the old one is filled, not zero.
pub fn relent(tables: &TableWords, random: &mut Random, lengths: Lengths) -> TableWords {
    let areas = Areas::filled(random, lengths);
    let mut relent = tables.clone();
    relent.types.resize(lengths.types, 0);
    relent.rows.resize(lengths.rows, 0);
    relent.due.resize(lengths.due, 0);
    for (at, word) in areas.types.into_iter().enumerate().skip(tables.types.len()) {
        relent.types[at] = word;
    }
    for (at, word) in areas.rows.into_iter().enumerate().skip(tables.rows.len()) {
        relent.rows[at] = word;
    }
    for (at, word) in areas.due.into_iter().enumerate().skip(tables.due.len()) {
        relent.due[at] = word;
    }
    relent
}

/// What one entry answers, and what it leaves in the areas.
fn run<A>(before: &Areas, entry: impl Fn(&mut Areas) -> A) -> (A, Areas) {
    let mut areas = before.clone();
    (entry(&mut areas), areas)
}

pub fn read_net(subject: &impl Entries, text: &[u8], before: &Areas) -> Outcome {
    fn read(entries: &impl Entries, text: &[u8], a: &mut Areas) -> Result<Counts, Refusal> {
        entries.read_net(text, &mut a.types, &mut a.rows, &mut a.due)
    }
    let got = run(before, |areas| read(subject, text, areas));
    let expected = run(before, |areas| read(&Reference, text, areas));
    same("read_net", &got, &expected)
}

pub fn check_net(subject: &impl Entries, tables: Tables) -> Outcome {
    same("check_net", &subject.check_net(tables), &Reference.check_net(tables))
}

pub fn slack_of(subject: &impl Entries, tables: Tables, placement: &[u64]) -> Outcome {
    let got = subject.slack_of(tables, placement);
    same("slack_of", &got, &Reference.slack_of(tables, placement))
}

/// The list at a row, then its loads alone: the same answer and the same areas, but for the area of
/// times, which is not lent. Both areas of the list are of one length, so both are refused alike.
pub fn lists_at(subject: &impl Entries, tables: Tables, row: usize, before: &Areas) -> Outcome {
    fn list(e: &impl Entries, tables: Tables, row: usize, a: &mut Areas) -> Result<usize, Refusal> {
        let work = Columns { loads: &mut a.loads, times: &mut a.times, words: &mut a.words };
        e.list_at(tables, row, &mut a.list_loads, &mut a.list_times, work)
    }
    let mut expected = run(before, |areas| list(&Reference, tables, row, areas));
    let got = run(before, |areas| list(subject, tables, row, areas));
    same("list_at", &got, &expected)?;
    let got = run(before, |a| {
        let work = Columns { loads: &mut a.loads, times: &mut a.times, words: &mut a.words };
        subject.loads_at(tables, row, &mut a.list_loads, work)
    });
    expected.1.list_times.clone_from(&before.list_times);
    same("loads_at", &got, &expected)
}

pub fn list_records(subject: &impl Records, tables: Tables, row: usize, before: &Areas) -> Outcome {
    fn list(e: &impl Records, tables: Tables, row: usize, a: &mut Areas) -> Result<usize, Refusal> {
        e.list_records(tables, row, &mut a.list_loads, &mut a.list_times, &mut a.records)
    }
    let got = run(before, |areas| list(subject, tables, row, areas));
    let expected = run(before, |areas| list(&Reference, tables, row, areas));
    same("list_records", &got, &expected)
}

pub fn plan_net(subject: &impl Entries, tables: Tables, before: &Areas) -> Outcome {
    fn plan(entries: &impl Entries, tables: Tables, a: &mut Areas) -> Result<Planned, Refusal> {
        let work = Columns { loads: &mut a.loads, times: &mut a.times, words: &mut a.words };
        entries.plan_net(tables, &mut a.placement, work)
    }
    let got = run(before, |areas| plan(subject, tables, areas));
    let expected = run(before, |areas| plan(&Reference, tables, areas));
    same("plan_net", &got, &expected)
}

/// Takes the planner alone, for one that has no other entry.
pub fn plan_records(
    planner: impl Fn(Tables, &mut [u64], &mut [Candidate]) -> Result<Planned, Refusal>,
    tables: Tables,
    before: &Areas,
) -> Outcome {
    let got = run(before, |a| planner(tables, &mut a.placement, &mut a.records));
    let expected =
        run(before, |a| Reference.plan_records(tables, &mut a.placement, &mut a.records));
    same("plan_records", &got, &expected)
}

/// Every entry on one net given as tables, at areas of these lengths, and the list at every row and
/// past the last, with its times and without. The placement judged is what stands in the area by
/// chance and one that marks sites of the net.
pub fn every_entry(
    subject: &impl Entries,
    tables: &TableWords,
    random: &mut Random,
    lengths: Lengths,
) -> Outcome {
    let relent = relent(tables, random, lengths);
    let tables = relent.lent();
    let areas = Areas::filled(random, lengths);
    check_net(subject, tables)?;
    slack_of(subject, tables, &areas.placement)?;
    slack_of(subject, tables, &marks(random, &tables))?;
    plan_net(subject, tables, &areas)?;
    every_row(tables).try_for_each(|row| lists_at(subject, tables, row, &areas))
}

/// The entries over records, likewise.
pub fn every_record_entry(
    subject: &impl Records,
    tables: &TableWords,
    random: &mut Random,
    lengths: Lengths,
) -> Outcome {
    let relent = relent(tables, random, lengths);
    let tables = relent.lent();
    let areas = Areas::filled(random, lengths);
    plan_records(|t, p, w| subject.plan_records(t, p, w), tables, &areas)?;
    every_row(tables).try_for_each(|row| list_records(subject, tables, row, &areas))
}

/// The rows of the net, and some that it hasn't.
fn every_row(tables: Tables) -> impl Iterator<Item = usize> {
    let rows = tables.row_count.min(room::ROWS);
    (0..=rows + 1).chain([usize::MAX])
}

/// Marks that are mostly legal: now and then a type too many or a site beyond the last.
fn marks(random: &mut Random, tables: &Tables) -> [u64; room::PLACEMENT] {
    let sites = tables.rows.chunks(room::ROW_WORDS).take(tables.row_count);
    let sites = sites.filter(|row| row.get(4) == Some(&1)).count().min(room::SITES);
    let types = tables.type_count.min(room::TYPES);
    let mut placement = Placement::NONE;
    for site in 0..sites {
        placement = placement.with(site, random.below(types + 1));
    }
    if random.chance(20) {
        placement = placement.with(random.below(room::SITES), random.below(16));
    }
    placement.0
}
