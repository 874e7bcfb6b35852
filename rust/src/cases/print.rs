//! What the reference gives for each case, one answer a line, and the data files made from it.

use super::{plan, read_tables, read_text, Ask, By, PlanCase, TableCase, TextCase};
use crate::entries::{Entries, TableWords};
use crate::net::{Net, Placement};
use crate::recipe;
use crate::reference::{self, Pair, Reference};

pub fn text_cases() -> impl Iterator<Item = &'static TextCase> {
    read_text::ALL.iter().flat_map(|group| group.iter())
}

pub fn table_cases() -> impl Iterator<Item = &'static TableCase> {
    read_tables::ALL.iter().flat_map(|group| group.iter())
}

pub fn plan_cases() -> impl Iterator<Item = &'static PlanCase> {
    plan::ALL.iter().flat_map(|group| group.iter())
}

/// `accepted`, the counts and the sum of the tables, or the refusal.
pub fn answer_text(case: &TextCase) -> String {
    let text = recipe::make(case.recipe);
    let mut lent = TableWords::empty();
    if let Some([types, rows, due]) = case.lengths {
        lent.types.resize(types, 0);
        lent.rows.resize(rows, 0);
        lent.due.resize(due, 0);
    }
    match Reference.read_net(&text, &mut lent.types, &mut lent.rows, &mut lent.due) {
        Err(refusal) => refusal.to_string(),
        Ok(counts) => {
            (lent.type_count, lent.row_count) = (counts.types, counts.rows);
            format!("accepted {} {} sum {}", counts.types, counts.rows, table_sum(&lent))
        }
    }
}

/// Every word in use (types, then rows, then due) times its position among them, from 1.
pub fn table_sum(tables: &TableWords) -> i64 {
    let types = tables.types.iter().take(3 * tables.type_count).map(|&word| i64::from(word));
    let rows = tables.rows.iter().take(6 * tables.row_count).map(|&word| i64::from(word));
    let due = tables.due.iter().take(tables.row_count).copied();
    types.chain(rows).chain(due).zip(1..).map(|(word, position): (i64, i64)| word * position).sum()
}

pub fn answer_tables(case: &TableCase) -> String {
    match reference::check(&case.tables().lent()) {
        Err(refusal) => refusal.to_string(),
        Ok(_) => "accepted".to_string(),
    }
}

/// What is asked, in words, with its answer. `Lists` asks at every row.
pub fn answer_plan(case: &PlanCase) -> Vec<(String, String, By)> {
    let net = Net::read(&recipe::make(case.recipe)).expect("a net to be planned is a good one");
    let mut answers = Vec::new();
    for &(ask, _, by) in case.asked {
        match ask {
            Ask::Plan => answers.push(("plan".to_string(), plan_words(&net), by)),
            Ask::List(row) => answers.push((format!("list {row}"), list_words(&net, row), by)),
            Ask::Slack(words) => {
                let [a, b, c, d] = words;
                let asked = format!("slack {a} {b} {c} {d}");
                answers.push((asked, slack_words(&net, Placement(words)), by));
            }
            Ask::Loads(row) => answers.push((format!("loads {row}"), loads_words(&net, row), by)),
            Ask::Lists => {
                for row in 0..net.rows().len() {
                    answers.push((format!("list {row}"), list_words(&net, row), by));
                }
            }
        }
    }
    answers
}

fn plan_words(net: &Net) -> String {
    let best = reference::plan(net);
    let mut words = slack_and_load(best.pair) + " buffers";
    for (row, mark) in best.placement.repeaters(net) {
        words += &format!(" {row} {mark}");
    }
    words
}

fn list_words(net: &Net, row: usize) -> String {
    each_pair(net, row, |pair| format!("{} {}", pair.load, pair.time))
}

fn loads_words(net: &Net, row: usize) -> String {
    each_pair(net, row, |pair| pair.load.to_string())
}

fn each_pair(net: &Net, row: usize, words: impl Fn(&Pair) -> String) -> String {
    if row >= net.rows().len() {
        return "refused 8 0".to_string();
    }
    let pairs: Vec<String> = reference::list_at(net, row).iter().map(words).collect();
    pairs.join(" ")
}

fn slack_words(net: &Net, placement: Placement) -> String {
    match reference::slack_of(net, placement) {
        Err(refusal) => refusal.to_string(),
        Ok(pair) => slack_and_load(pair),
    }
}

fn slack_and_load(pair: Pair) -> String {
    format!("slack {} load {}", pair.time, pair.load)
}

/// One line for each answer: what is asked, the case, the answer.
pub fn lines() -> Vec<String> {
    let texts = text_cases().map(|case| format!("read {}: {}", case.name, answer_text(case)));
    let tables = table_cases().map(|case| format!("check {}: {}", case.name, answer_tables(case)));
    let plans = plan_cases().flat_map(|case| {
        let line = |(asked, answer, _)| format!("{} {asked}: {answer}", case.name);
        answer_plan(case).into_iter().map(line)
    });
    texts.chain(tables).chain(plans).collect()
}

/// The data file of reading and checking.
pub fn read_file() -> String {
    let mut file = String::from(READ_HEADER);
    for case in text_cases() {
        file += &format!("\ncase {}\ntext {}\n", case.name, case.recipe);
        file += &lengths_line(case.lengths);
        file += &format!("expect {}\nby {}\n", answer_text(case), case.by.word());
    }
    for case in table_cases() {
        file += &format!("\ncase {}\ntables {}\n", case.name, case.recipe);
        for (area, index, value) in case.set {
            file += &format!("set {} {index} {value}\n", area.word());
        }
        if let Some((types, rows)) = case.counts {
            file += &format!("counts {types} {rows}\n");
        }
        file += &lengths_line(case.lengths);
        file += &format!("expect {}\nby {}\n", answer_tables(case), case.by.word());
    }
    file
}

fn lengths_line(lengths: Option<[usize; 3]>) -> String {
    lengths.map_or(String::new(), |[types, rows, due]| format!("lengths {types} {rows} {due}\n"))
}

/// The data file of plans, lists and slacks.
pub fn plan_file() -> String {
    let mut file = String::from(PLAN_HEADER);
    for case in plan_cases() {
        file += &format!("\ncase {}\ntext {}\n", case.name, case.recipe);
        for (asked, answer, by) in answer_plan(case) {
            file += &format!("{asked}: {answer} ; {}\n", by.word());
        }
    }
    file
}

const READ_HEADER: &str = "\
# Reading and checking: what each text or table is answered with. Made by `vectors read`.
#
# case NAME
# text RECIPE          a text to be read, or
# tables RECIPE        tables to be checked: those of this text, zero past the entries in use
# set AREA INDEX WORD  then this word of types, rows or due changed
# counts TYPES ROWS    then these counts given
# lengths T R D        types, rows and due lent at these lengths, not at their room; of tables to be
#                      checked the words added are 4294967295, in due -1
# expect ANSWER        refused NUMBER PLACE; or accepted, for a text with the counts of types and
#                      rows and the sum over all words in use (types, rows, due) of word times
#                      position, positions counted from 1 through all three
# by SOURCE            besides the reference: document (document 01 says it), ruling (a settled
#                      open point), hand (worked out by hand), reference (nothing besides)
#
# A recipe is pieces joined by ` + `: \"...\" these bytes, with \\t \\n \\r \\0 \\\\ \\\" \\xHH; repeat N
# \"...\" these bytes N times; each A B \"...\" these bytes for i from A to B, with {...} worked out
# from i by + - * / % and parentheses (* / % bind first, / rounds toward zero).
";

const PLAN_HEADER: &str = "\
# Plans, lists and slacks of good nets. Made by `vectors plan`.
#
# case NAME
# text RECIPE                     as in read.txt
# plan: slack S load L buffers .. the greatest slack, its least load on the driver, and the
#                                 repeaters of the placement returned, row and type of each
# list ROW: LOAD TIME ...         the unbeaten pairs at the row, loads rising
# loads ROW: LOAD ...             their loads alone
# slack W W W W: slack S load L   of the placement of these four words
#
# An answer may be `refused NUMBER PLACE`. After ` ; ` stands the source, as in read.txt.
";
