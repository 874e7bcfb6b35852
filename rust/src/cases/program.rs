//! The cases as requests to the proved program, and the lines it is to answer with. The requests
//! are told at the head of its source; the answers are the reference's alone.

use super::print::{self, plan_cases, table_cases, text_cases};
use super::{Ask, PlanCase};
use crate::entries::{Columns, Entries, TableWords};
use crate::net::{Net, Placement, Refusal};
use crate::recipe;
use crate::reference::{self, Reference};
use crate::room;

/// The lengths at which the areas are lent: placement, loads, times and words of the work.
const ROOM: [usize; 4] = [room::PLACEMENT, room::WORK, room::WORK, room::WORK * room::PLACEMENT];

/// A longer area, whose part beyond the room is neither read nor changed.
const LONGER: [usize; 4] = [6, 800, 800, 3100];

const LONGER_LIST: usize = 300;

const TABLE_ROOM: [usize; 3] =
    [room::TYPES * room::TYPE_WORDS, room::ROWS * room::ROW_WORDS, room::ROWS];

/// A run of so many equal bytes is written once.
const LONG_RUN: usize = 1_000;

/// Requests, and the lines they are to be answered with.
#[derive(Default)]
pub struct Script {
    pub requests: Vec<u8>,
    pub answers: String,
    name: String,
    areas: [usize; 3],
}

impl Script {
    fn line(&mut self, line: &str) {
        self.requests.extend(line.as_bytes());
        self.requests.push(b'\n');
    }

    fn case(&mut self, name: &str) {
        self.name = name.to_string();
        self.line(&format!("case {name}"));
    }

    /// Sets the lengths of the net's areas where they are not those set before.
    fn areas(&mut self, lengths: [usize; 3]) {
        if self.areas != lengths {
            self.areas = lengths;
            self.line(&format!("areas {}", words(lengths)));
        }
    }

    fn ask(&mut self, question: &str, answer: &str) {
        self.line(question);
        self.answers += &format!("{} {question}: {answer}\n", self.name);
    }

    /// A text in pieces, none with a long run of one byte.
    fn text(&mut self, text: &[u8]) {
        self.line("text");
        let mut rest = text;
        while !rest.is_empty() {
            let (start, run) = first_run(rest);
            self.bytes(1, &rest[..start]);
            self.bytes(run, &rest[start..rest.len().min(start + 1)]);
            rest = &rest[start + run..];
        }
    }

    fn bytes(&mut self, times: usize, bytes: &[u8]) {
        if times > 0 && !bytes.is_empty() {
            self.line(&format!("bytes {times} {}", bytes.len()));
            self.requests.extend(bytes);
            self.requests.push(b'\n');
        }
    }

    /// The words of one area up to the last that is not zero, an entry a line.
    fn area<T: ToString + Default + PartialEq>(&mut self, name: &str, area: &[T], entry: usize) {
        let used = area.iter().rposition(|word| *word != T::default()).map_or(0, |last| last + 1);
        self.line(&format!("{name} {used}"));
        for entry in area[..used].chunks(entry) {
            self.line(&words(entry.iter().map(T::to_string)));
        }
    }

    fn tables(&mut self, tables: &TableWords) {
        self.areas([tables.types.len(), tables.rows.len(), tables.due.len()]);
        self.area("types", &tables.types, room::TYPE_WORDS);
        self.area("rows", &tables.rows, room::ROW_WORDS);
        self.area("due", &tables.due, 16);
        self.line(&format!("counts {} {}", tables.type_count, tables.row_count));
    }
}

/// Where a long run of one byte starts, and how long it is; none is at the end.
fn first_run(bytes: &[u8]) -> (usize, usize) {
    let mut start = 0;
    while start < bytes.len() {
        let run = bytes[start..].iter().take_while(|&&byte| byte == bytes[start]).count();
        if run >= LONG_RUN {
            return (start, run);
        }
        start += run;
    }
    (start, 0)
}

fn words<T: ToString>(words: impl IntoIterator<Item = T>) -> String {
    let words: Vec<String> = words.into_iter().map(|word| word.to_string()).collect();
    words.join(" ")
}

/// Every case, in the order of the data files, with each entry asked of each table.
pub fn script() -> Script {
    let mut script = Script { areas: TABLE_ROOM, ..Script::default() };
    for case in text_cases() {
        script.case(case.name);
        script.text(&recipe::make(case.recipe));
        script.areas(case.lengths.unwrap_or(TABLE_ROOM));
        let answer = print::answer_text(case);
        script.ask("read", &format!("{answer} kept"));
        if answer.starts_with("accepted") {
            script.ask("check", "accepted");
        }
    }
    for case in table_cases() {
        let tables = case.tables();
        script.case(case.name);
        script.tables(&tables);
        every_entry(&mut script, &tables);
    }
    for case in plan_cases() {
        plan_case(&mut script, case);
    }
    let net_a = plan_cases().next().expect("net A is the first");
    lengths(&mut script, net_a);
    counts(&mut script);
    script
}

/// All entries on one net as tables: they refuse it alike.
fn every_entry(script: &mut Script, tables: &TableWords) {
    let answer = reference::check(&tables.lent());
    script.ask("check", &answer.as_ref().map_or_else(Refusal::to_string, |_| "accepted".into()));
    slack(script, tables, room::PLACEMENT, [0; 4]);
    plan(script, tables, ROOM);
    list(script, tables, 0, [room::LIST; 2], ROOM);
    loads(script, tables, 0, room::LIST, ROOM);
}

fn slack(script: &mut Script, tables: &TableWords, length: usize, placement: [u64; 4]) {
    let lent = [&placement[..], &[5, 6]].concat();
    let answer = Reference.slack_of(tables.lent(), &lent[..length]);
    let answer =
        answer.map_or_else(|refusal| refusal.to_string(), |found| pair(found.slack, found.load));
    script.ask(&format!("slack {length} {}", words(placement)), &answer);
}

fn pair(slack: i64, load: u32) -> String {
    format!("slack {slack} load {load}")
}

/// The areas of the work at these lengths, for the reference to fill.
fn work(lengths: [usize; 4]) -> (Vec<u64>, Vec<u32>, Vec<i64>, Vec<u64>) {
    let [placement, loads, times, words] = lengths;
    (vec![1; placement], vec![1; loads], vec![1; times], vec![1; words])
}

fn plan(script: &mut Script, tables: &TableWords, lengths: [usize; 4]) {
    let (mut placement, mut loads, mut times, mut words_) = work(lengths);
    let columns = Columns { loads: &mut loads, times: &mut times, words: &mut words_ };
    let answer = match Reference.plan_net(tables.lent(), &mut placement, columns) {
        Err(refusal) => format!("{refusal} kept"),
        Ok(best) => format!("{} kept cleared", pair(best.slack, best.load)),
    };
    script.ask(&format!("plan {}", words(lengths)), &answer);
}

fn list(
    script: &mut Script,
    tables: &TableWords,
    row: usize,
    pairs: [usize; 2],
    lengths: [usize; 4],
) {
    let (_, mut loads, mut times, mut words_) = work(lengths);
    let columns = Columns { loads: &mut loads, times: &mut times, words: &mut words_ };
    let (mut list_loads, mut list_times) = (vec![0; pairs[0]], vec![0; pairs[1]]);
    let given = Reference.list_at(tables.lent(), row, &mut list_loads, &mut list_times, columns);
    let answer = match given {
        Err(refusal) => format!("{refusal} kept"),
        Ok(length) => {
            let pairs = list_loads.iter().zip(&list_times).take(length);
            let pairs = words(pairs.map(|(load, time)| format!("{load} {time}")));
            format!("length {length} pairs {pairs} kept cleared")
        }
    };
    let lengths = words(lengths.into_iter().skip(1));
    script.ask(&format!("list {row} {} {lengths}", words(pairs)), &answer);
}

fn loads(script: &mut Script, tables: &TableWords, row: usize, list: usize, lengths: [usize; 4]) {
    let (_, mut loads, mut times, mut words_) = work(lengths);
    let columns = Columns { loads: &mut loads, times: &mut times, words: &mut words_ };
    let mut list_loads = vec![0; list];
    let answer = match Reference.loads_at(tables.lent(), row, &mut list_loads, columns) {
        Err(refusal) => format!("{refusal} kept"),
        Ok(length) => {
            format!("length {length} loads {} kept cleared", words(&list_loads[..length]))
        }
    };
    let lengths = words(lengths.into_iter().skip(1));
    script.ask(&format!("loads {row} {list} {lengths}"), &answer);
}

fn plan_case(script: &mut Script, case: &PlanCase) {
    let text = recipe::make(case.recipe);
    let net = Net::read(&text).expect("a net to be planned is a good one");
    let tables = net.tables();
    script.case(case.name);
    script.areas(TABLE_ROOM);
    script.text(&text);
    let sum = print::table_sum(&tables);
    let (types, rows) = (tables.type_count, tables.row_count);
    script.ask("read", &format!("accepted {types} {rows} sum {sum} kept"));
    for &(ask, ..) in case.asked {
        match ask {
            Ask::Plan => planned(script, &net, &tables),
            Ask::List(row) => list(script, &tables, row, [room::LIST; 2], ROOM),
            Ask::Loads(row) => loads(script, &tables, row, room::LIST, ROOM),
            Ask::Slack(placement) => slack(script, &tables, room::PLACEMENT, placement),
            Ask::Lists => {
                (0..rows).for_each(|row| list(script, &tables, row, [room::LIST; 2], ROOM))
            }
        }
    }
}

/// The plan, that its placement has its slack and load, and the placement.
fn planned(script: &mut Script, net: &Net, tables: &TableWords) {
    plan(script, tables, ROOM);
    let best = reference::plan(net);
    script.ask("planned", &pair(best.pair.time, best.pair.load as u32));
    let Placement(marks) = best.placement;
    let marks: Vec<String> = marks.iter().map(|word| format!("{word:016x}")).collect();
    script.ask("marks", &marks.join(" "));
}

/// The entries' own areas shorter than their room, at it and longer, on a net that is accepted and
/// one that is not: refusal 7 comes before every other.
fn lengths(script: &mut Script, case: &PlanCase) {
    let good = Net::read(&recipe::make(case.recipe)).expect("a good net").tables();
    let mut bad = good.clone();
    bad.rows[0] = 9;
    for (name, tables) in [("lengths-good", &good), ("lengths-bad", &bad)] {
        script.case(name);
        script.tables(tables);
        for length in 0..=LONGER[0] {
            slack(script, tables, length, [1, 0, 0, 0]);
        }
        for lengths in near(ROOM) {
            plan(script, tables, lengths);
            list(script, tables, 1, [room::LIST; 2], lengths);
        }
        plan(script, tables, LONGER);
        for pairs in [[256, 257], [257, 256], [0, 0], [258, 258], [300, 300]] {
            list(script, tables, 1, pairs, LONGER);
        }
        list(script, tables, 9, [256, 257], ROOM);
        list(script, tables, usize::MAX, [room::LIST; 2], ROOM);
        loads_lengths(script, tables);
    }
}

/// The same of the loads alone, which are lent no placement; and the rows just inside the net and
/// just past it.
fn loads_lengths(script: &mut Script, tables: &TableWords) {
    for lengths in near(ROOM).into_iter().filter(|lengths| lengths[0] == ROOM[0]) {
        loads(script, tables, 1, room::LIST, lengths);
    }
    for list in [0, room::LIST - 1, room::LIST + 1, LONGER_LIST] {
        loads(script, tables, 1, list, LONGER);
    }
    loads(script, tables, 9, room::LIST - 1, ROOM);
    for row in [tables.row_count - 1, tables.row_count, usize::MAX] {
        loads(script, tables, row, room::LIST, ROOM);
    }
}

/// Counts that only 64 bits hold, on tables whose every row is good.
fn counts(script: &mut Script) {
    let case = table_cases().find(|case| case.name == "tables-rows-256");
    let mut tables = case.expect("a star of 255").tables();
    for (name, types, rows) in [
        ("counts-types-64-bits", usize::MAX, 256),
        ("counts-rows-64-bits", 0, usize::MAX),
        ("counts-types-past-32-bits", 1 << 32, 256),
        ("counts-rows-past-32-bits", 0, (1 << 32) + 256),
    ] {
        (tables.type_count, tables.row_count) = (types, rows);
        script.case(name);
        script.tables(&tables);
        every_entry(script, &tables);
    }
}

/// Each length by itself one less, none, and one more.
fn near(lengths: [usize; 4]) -> Vec<[usize; 4]> {
    let changed = |at: usize, to: usize| {
        let mut changed = lengths;
        changed[at] = to;
        changed
    };
    (0..4).flat_map(|at| [lengths[at] - 1, 0, lengths[at] + 1].map(|to| changed(at, to))).collect()
}
