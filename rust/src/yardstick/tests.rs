use super::check;
use super::{plan, steps, walk};
use crate::conformance::{self, Areas};
use crate::entries::Candidate;
use crate::net::Net;
use crate::random::{damage_tables, Lengths, Random, Sketch, Tree, Values};
use crate::recipe;
use crate::reference::{self, Pair};
use crate::room;

#[track_caller]
fn conforms(net: &Net, random: &mut Random) {
    let areas = Areas::filled(random, Lengths::ROOM);
    if let Err(difference) = conformance::plan_records(plan, net.tables().lent(), &areas) {
        panic!("{difference}\n{}", net.text());
    }
}

/// The list that reaches the driver: a pair too many costs no slack, and would not show in a plan.
fn list_at_driver(net: &Net) -> Vec<Pair> {
    let words = net.tables();
    let tables = words.lent();
    let mut tree = check::Tree::new();
    tree.check(&tables).expect("a good net");
    let mut work = vec![Candidate::default(); room::WORK];
    let (repeaters, count) = steps::by_load(&tables);
    let end = walk(&tables, &tree, &repeaters[..count], &mut work);
    work[..end].iter().map(|c| Pair { load: c.load as i64, time: c.time }).collect()
}

#[test]
fn thinning_is_exact() {
    let mut random = Random::new(16);
    for round in 0..4_000 {
        let rows = if round % 10 == 0 { room::ROWS } else { 15 };
        let net = Sketch::any(&mut random, rows, room::SITES).net(&mut random);
        assert_eq!(list_at_driver(&net), reference::list_at(&net, 0), "{}", net.text());
    }
}

#[test]
fn small_nets() {
    let mut random = Random::new(11);
    for _ in 0..10_000 {
        let net = Sketch::any(&mut random, 12, 12).net(&mut random);
        conforms(&net, &mut random);
    }
}

#[test]
fn large_nets() {
    let mut random = Random::new(12);
    for _ in 0..600 {
        let net = Sketch::any(&mut random, room::ROWS, room::SITES).net(&mut random);
        conforms(&net, &mut random);
    }
}

/// The fullest nets, where the work area is used to its end.
#[test]
fn fullest_nets() {
    let mut random = Random::new(13);
    for _ in 0..60 {
        let mut sketch = Sketch::any(&mut random, room::ROWS, room::SITES);
        sketch.rows = room::ROWS;
        sketch.types = room::TYPES;
        sketch.site_percent = random.pick(&[25, 50, 100]);
        sketch.tree =
            random.pick(&[Tree::Chain, Tree::Star, Tree::Loose, Tree::Binary, Tree::Comb]);
        sketch.values = random.pick(&[Values::Typical, Values::Whole]);
        conforms(&sketch.net(&mut random), &mut random);
    }
}

#[test]
fn fixed_nets() {
    let mut random = Random::new(14);
    for case in crate::cases::print::plan_cases() {
        let net = Net::read(&recipe::make(case.recipe)).expect("a good net");
        conforms(&net, &mut random);
    }
}

/// Refusals, and what they leave: damaged tables at areas of any lengths.
#[test]
fn damaged_tables() {
    let mut random = Random::new(15);
    for _ in 0..20_000 {
        let mut tables = Sketch::any(&mut random, 30, 20).net(&mut random).tables();
        damage_tables(&mut random, &mut tables);
        let lengths = Lengths::any(&mut random);
        let lent = conformance::relent(&tables, &mut random, lengths);
        let areas = Areas::filled(&mut random, lengths);
        let outcome = conformance::plan_records(plan, lent.lent(), &areas);
        assert_eq!(outcome, Ok(()), "{lent:?}");
    }
}

#[test]
fn fixed_tables() {
    for case in crate::cases::print::table_cases() {
        let tables = case.tables();
        let mut work = vec![Candidate::default(); room::WORK];
        let answer = plan(tables.lent(), &mut [0; 4], &mut work);
        let answer = answer.map_or_else(|refusal| refusal.to_string(), |_| "accepted".to_string());
        assert_eq!(answer, case.expected, "{}", case.name);
    }
}
