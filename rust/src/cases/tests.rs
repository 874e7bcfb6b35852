use super::print::{self, answer_plan, answer_tables, answer_text};
use super::{program, Ask};
use crate::recipe;
use std::collections::HashSet;

/// What was said by hand is the answer, or its beginning up to a blank.
fn agrees(answer: &str, by_hand: &str) -> bool {
    answer.strip_prefix(by_hand).is_some_and(|rest| rest.is_empty() || rest.starts_with(' '))
}

#[test]
fn texts_as_said_by_hand() {
    for case in print::text_cases() {
        assert!(agrees(&answer_text(case), case.expected), "{}: {}", case.name, answer_text(case));
    }
}

#[test]
fn tables_as_said_by_hand() {
    for case in print::table_cases() {
        assert_eq!(answer_tables(case), case.expected, "{}", case.name);
    }
}

#[test]
fn plans_as_said_by_hand() {
    for case in print::plan_cases() {
        let answers = answer_plan(case);
        for &(ask, by_hand, _) in case.asked {
            let asked = match ask {
                Ask::Plan => "plan".to_string(),
                Ask::List(row) => format!("list {row}"),
                Ask::Loads(row) => format!("loads {row}"),
                Ask::Slack([a, b, c, d]) => format!("slack {a} {b} {c} {d}"),
                Ask::Lists => continue,
            };
            let (_, answer, _) = answers.iter().find(|answer| answer.0 == asked).unwrap();
            let all =
                matches!(ask, Ask::List(_) | Ask::Loads(_) | Ask::Plan) && !by_hand.is_empty();
            let right = if all { answer == by_hand } else { agrees(answer, by_hand) };
            assert!(right || by_hand.is_empty(), "{} {asked}: {answer}", case.name);
        }
    }
}

#[test]
fn lengths_as_named() {
    for case in print::text_cases() {
        let named = case.name.strip_prefix("text-").and_then(|rest| rest.split('-').next());
        if let Some(named) = named {
            assert_eq!(recipe::make(case.recipe).len().to_string(), named, "{}", case.name);
        }
    }
}

#[test]
fn names_differ_and_cases_suffice() {
    let reading = print::text_cases().count() + print::table_cases().count();
    assert!(reading >= 100);
    let names = print::text_cases().map(|case| ("text", case.name));
    let names = names.chain(print::table_cases().map(|case| ("text", case.name)));
    let names: Vec<_> = names.chain(print::plan_cases().map(|case| ("plan", case.name))).collect();
    assert_eq!(names.iter().collect::<HashSet<_>>().len(), names.len());
}

/// The sum of net A's words, worked out by hand.
#[test]
fn sum_of_net_a() {
    let net_a = print::text_cases().find(|case| case.name == "net-a").unwrap();
    assert_eq!(answer_text(net_a), "accepted 1 3 sum 24753");
}

/// What the proved program is run on, and what it must write.
#[test]
fn program_files_are_current() {
    let script = program::script();
    let requests = include_bytes!("../../../crates/vectors/stdin");
    let answers = include_str!("../../../crates/vectors/stdout");
    assert!(script.requests == requests && script.answers == answers, "run `script`");
}

#[test]
fn data_files_are_current() {
    assert!(include_str!("../../vectors/read.txt") == print::read_file(), "run `vectors write`");
    assert!(include_str!("../../vectors/plan.txt") == print::plan_file(), "run `vectors write`");
}
