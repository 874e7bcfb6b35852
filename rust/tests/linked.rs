//! The proved library held against the reference: refusal numbers and places, slacks, loads, the
//! worth of every placement, the list at every row, and every word of every lent area. What differs
//! is printed with its net.

use zombrict::cases::print;
use zombrict::conformance::{self, Areas};
use zombrict::linked::{Area, Linked, Planner};
use zombrict::random::{damage_tables, damage_text, Lengths, Random, Sketch};
use zombrict::reference::{self, Reference};
use zombrict::{recipe, room, Entries, Net, Placement, Refusal, TableWords};

fn shown(text: &[u8]) -> String {
    String::from_utf8_lossy(text).into_owned()
}

#[track_caller]
fn texts_alike(text: &[u8], random: &mut Random, lengths: Lengths) {
    let areas = Areas::filled(random, lengths);
    if let Err(difference) = conformance::read_net(&Linked, text, &areas) {
        panic!("{difference}\n{}", shown(text));
    }
}

#[track_caller]
fn tables_alike(tables: &TableWords, random: &mut Random, lengths: Lengths) {
    if let Err(difference) = conformance::every_entry(&Linked, tables, random, lengths) {
        panic!("{difference}\n{lengths:?}\n{tables:?}");
    }
}

/// A net as text and as tables, and the same damaged: four cases.
#[track_caller]
fn net_alike(net: &Net, random: &mut Random) {
    let lengths = Lengths::any(random);
    let text = net.text().into_bytes();
    texts_alike(&text, random, lengths);
    texts_alike(&damage_text(random, &text), random, lengths);
    let mut tables = net.tables();
    if let Err(difference) = conformance::every_entry(&Linked, &tables, random, lengths) {
        panic!("{difference}\n{lengths:?}\n{}", net.text());
    }
    damage_tables(random, &mut tables);
    tables_alike(&tables, random, lengths);
}

fn nets_alike(seed: u64, count: usize, rows: usize, sites: usize) {
    let mut random = Random::new(seed);
    for _ in 0..count {
        let net = Sketch::any(&mut random, rows, sites).net(&mut random);
        net_alike(&net, &mut random);
    }
}

/// 16,000 cases.
#[test]
fn small_nets() {
    nets_alike(31, 4_000, 12, 12);
}

/// 8,000 cases.
#[test]
fn middling_nets() {
    nets_alike(32, 2_000, 40, 24);
}

/// 400 cases of up to 256 rows.
#[test]
fn large_nets() {
    nets_alike(33, 100, room::ROWS, room::SITES);
}

/// Damage alone: 20,000 texts and 20,000 tables, most of them refused.
#[test]
fn damaged() {
    let mut random = Random::new(34);
    for _ in 0..20_000 {
        let net = Sketch::any(&mut random, 10, 10).net(&mut random);
        let lengths = Lengths::any(&mut random);
        let text = damage_text(&mut random, net.text().as_bytes());
        texts_alike(&text, &mut random, lengths);
        let mut tables = net.tables();
        damage_tables(&mut random, &mut tables);
        let lent = conformance::relent(&tables, &mut random, lengths);
        let outcome = conformance::check_net(&Linked, lent.lent());
        assert_eq!(outcome, Ok(()), "{lent:?}");
    }
}

#[test]
fn fixed_texts() {
    let mut random = Random::new(35);
    for case in print::text_cases() {
        let mut lengths = Lengths::ROOM;
        if let Some([types, rows, due]) = case.lengths {
            (lengths.types, lengths.rows, lengths.due) = (types, rows, due);
        }
        texts_alike(&recipe::make(case.recipe), &mut random, lengths);
    }
}

#[test]
fn fixed_tables() {
    for case in print::table_cases() {
        let tables = case.tables();
        let answer = Linked.check_net(tables.lent());
        let answer = answer.map_or_else(|refusal| refusal.to_string(), |()| "accepted".to_string());
        assert_eq!(answer, case.expected, "{}", case.name);
    }
}

#[test]
fn fixed_nets() {
    let mut random = Random::new(36);
    for case in print::plan_cases() {
        let net = Net::read(&recipe::make(case.recipe)).expect("a good net");
        tables_alike(&net.tables(), &mut random, Lengths::ROOM);
    }
}

/// The calls on a text answer as reading the text and calling with its tables does.
#[test]
fn calls_on_texts() {
    let mut random = Random::new(37);
    for _ in 0..3_000 {
        let mut text = Sketch::any(&mut random, 20, 20).net(&mut random).text().into_bytes();
        if random.chance(50) {
            text = damage_text(&mut random, &text);
        }
        text_alike(&text, &mut random);
    }
}

fn text_alike(text: &[u8], random: &mut Random) {
    let lengths = Lengths::any(random);
    let mut areas = Areas::filled(random, lengths);
    let before = areas.clone();
    let marks = Placement::NONE.with(random.below(20), random.below(5));
    let row = random.below(22);
    let short = lengths.placement < room::PLACEMENT;
    let short_list = lengths.list < room::LIST;
    let net = reference::read(text);
    let refused = |short: bool| if short { "refused 7 0".into() } else { said(&net) };

    let counts = Linked.check_text(text).map(|counts| (counts.types, counts.rows));
    let expected = net.clone().map(|net| (net.types().len(), net.rows().len()));
    assert_eq!(counts, expected, "{}", shown(text));

    let slack = Linked.slack_text(text, &marks.0);
    let planned = Linked.plan_text(text, &mut areas.placement);
    let list = Linked.list_text(text, row, &mut areas.list_loads, &mut areas.list_times);
    loads_alike(text, &net, row, &before);
    match &net {
        Ok(net) if !short && !short_list => {
            let tables = net.tables();
            assert_eq!(slack, Reference.slack_of(tables.lent(), &marks.0), "{}", net.text());
            let planned = planned.expect("not refused");
            let best = reference::plan(net);
            assert_eq!((planned.slack, planned.load as i64), (best.pair.time, best.pair.load));
            assert_eq!(areas.placement[..room::PLACEMENT], best.placement.0, "{}", net.text());
            let has = Reference.slack_of(tables.lent(), &areas.placement);
            assert_eq!(has, Ok(planned), "{}", net.text());
            if row < net.rows().len() {
                let pairs = reference::list_at(net, row);
                assert_eq!(list, Ok(pairs.len()), "{}", net.text());
                for (at, pair) in pairs.iter().enumerate() {
                    let got = (areas.list_loads[at] as i64, areas.list_times[at]);
                    assert_eq!(got, (pair.load, pair.time), "{}", net.text());
                }
            } else {
                assert_eq!(list.unwrap_err().to_string(), "refused 8 0");
            }
        }
        _ => {
            if net.is_err() {
                assert_eq!(slack.unwrap_err().to_string(), said(&net), "{}", shown(text));
            }
            if short || net.is_err() {
                assert_eq!(planned.unwrap_err().to_string(), refused(short), "{}", shown(text));
                assert_eq!(areas.placement, before.placement);
            }
            if short_list || net.is_err() {
                assert_eq!(list.unwrap_err().to_string(), refused(short_list), "{}", shown(text));
                assert_eq!(
                    (&areas.list_loads, &areas.list_times),
                    (&before.list_loads, &before.list_times)
                );
            }
        }
    }
}

/// The loads at a row of a text: those of its tables, when nothing is refused before.
fn loads_alike(text: &[u8], net: &Result<Net, Refusal>, row: usize, before: &Areas) {
    let mut got = before.list_loads.clone();
    let answer = Linked.loads_text(text, row, &mut got);
    let mut loads = before.list_loads.clone();
    let expected = match net {
        _ if loads.len() < room::LIST => Err(Refusal::at(7, 0)),
        Err(refusal) => Err(*refusal),
        Ok(net) => Reference.loads_at(net.tables().lent(), row, &mut loads, Area::new().lent()),
    };
    assert_eq!((answer, got), (expected, loads), "row {row} of\n{}", shown(text));
}

fn said(net: &Result<Net, Refusal>) -> String {
    net.as_ref().map_or_else(|refusal| refusal.to_string(), |_| String::new())
}

/// An answer's area that is too short is refused before all else, and nothing is written.
#[test]
fn short_answers() {
    let tables = TableWords::empty();
    for length in 0..3 {
        let mut answer = vec![9; length];
        assert_eq!(Linked.check_into(tables.lent(), &mut answer), 7);
        assert_eq!(answer, vec![9; length]);
    }
    let mut answer = [9; 5];
    assert_eq!(Linked.check_into(tables.lent(), &mut answer), 1);
    assert_eq!(answer, [1, 0, 0, 9, 9]);
}

#[test]
fn everyday_calls() {
    let mut planner = Planner::new();
    let text = b"T\t2\t3\t10\nD\t20\nW\t0\t4\t5\t1\nS\t1\t6\t7\t0\t8\t1000\n";
    let tables = planner.read(text).expect("net A");
    assert_eq!(planner.check(&tables), Ok(()));
    let (placement, planned) = planner.plan(&tables).expect("net A");
    assert_eq!((planned.slack, planned.load, placement.mark(0)), (687, 7, 1));
    assert_eq!(planner.slack(&tables, placement), Ok(planned));
    assert_eq!(planner.list(&tables, 1), Ok(vec![(2, 855), (15, 910)]));
    assert_eq!(planner.list(&tables, 3).unwrap_err().to_string(), "refused 8 0");
    assert_eq!(planner.loads(&tables, 1), Ok(vec![2, 15]));
    assert_eq!(planner.loads(&tables, 3).unwrap_err().to_string(), "refused 8 0");
    assert_eq!(planner.read(b"").unwrap_err().to_string(), "refused 1 1");
}
