//! Times planners side by side in one run: nets per second of each, and the ratio of its time to
//! the yardstick's. With the feature `linked` the proved planner is one of them. Another joins by a
//! line in `planners`.
//!
//! `bench` times every set. A number is about how many seconds each planner has on each set; `again`
//! times the yardstick a second time as if it were another planner: its ratio is the noise of the
//! machine; any other word picks the sets whose names hold it.

use std::hint::black_box;
use std::time::{Duration, Instant};
use zombrict::random::{Order, Random, Sketch, Tree, Values};
use zombrict::{room, yardstick, Candidate, Planned, Refusal, TableWords, Tables};

type Plan = fn(Tables, &mut Lent) -> Result<Planned, Refusal>;

struct Planner {
    name: &'static str,
    plan: Plan,
}

fn plan_by_yardstick(tables: Tables, lent: &mut Lent) -> Result<Planned, Refusal> {
    yardstick::plan(tables, &mut lent.placement, &mut lent.work)
}

#[cfg(feature = "linked")]
fn plan_by_library(tables: Tables, lent: &mut Lent) -> Result<Planned, Refusal> {
    use zombrict::{linked::Linked, Entries};
    Linked.plan_net(tables, &mut lent.placement, lent.columns.lent())
}

/// The first is what the others are measured against.
fn planners(again: bool) -> Vec<Planner> {
    let mut planners = vec![Planner { name: "yardstick", plan: plan_by_yardstick }];
    #[cfg(feature = "linked")]
    planners.push(Planner { name: "proved", plan: plan_by_library });
    if again {
        planners.push(Planner { name: "yardstick again", plan: plan_by_yardstick });
    }
    planners
}

struct Set {
    name: &'static str,
    nets: Vec<TableWords>,
}

fn full(tree: Tree, order: Order) -> Sketch {
    Sketch {
        rows: room::ROWS,
        types: room::TYPES,
        sites: room::SITES,
        // Spread over the rows: with a little luck none is left over.
        site_percent: 27,
        tree,
        order,
        values: Values::Typical,
    }
}

fn drawn(random: &mut Random, count: usize, sketch: Sketch) -> Vec<TableWords> {
    (0..count).map(|_| sketch.net(random).tables()).collect()
}

fn sets() -> Vec<Set> {
    use {Order::*, Tree::*};
    let random = &mut Random::new(7);
    let typical = (0..1_000).map(|_| Sketch::typical(random).net(random).tables()).collect();
    vec![
        Set { name: "typical, 10 to 40 rows", nets: typical },
        Set { name: "largest, loose tree", nets: drawn(random, 50, full(Loose, DepthFirst)) },
        Set { name: "largest, long tree", nets: drawn(random, 50, full(Long, DepthFirst)) },
        Set { name: "largest, comb", nets: drawn(random, 50, full(Comb, DepthFirst)) },
        Set { name: "largest, breadth first", nets: drawn(random, 50, full(Binary, BreadthFirst)) },
        Set { name: "largest, mixed order", nets: drawn(random, 50, full(Long, Mixed)) },
        Set { name: "chain of 255", nets: drawn(random, 50, full(Chain, DepthFirst)) },
        Set { name: "star of 255", nets: drawn(random, 50, full(Star, DepthFirst)) },
        Set { name: "longest lists", nets: vec![longest_lists(false)] },
        Set { name: "longest lists, reversed", nets: vec![longest_lists(true)] },
        Set { name: "longest, chain and star", nets: vec![chain_and_star()] },
    ]
}

/// Hardly a pair is beaten here, so the lists reach their 257. It is a star of 64 sinks with sites and
/// 191 without, and its rows may stand in any order: reversed, those without come first, and planners
/// that take later rows before earlier ones join each of them with the longest list.
fn longest_lists(reversed: bool) -> TableWords {
    let case = zombrict::cases::print::plan_cases().find(|case| case.name == "longest-list");
    let text = zombrict::recipe::make(case.expect("a fixed case").recipe);
    let text = String::from_utf8(text).expect("plain text");
    let (mut rows, types): (Vec<&str>, Vec<&str>) =
        text.split_inclusive('\n').partition(|line| line.starts_with('S'));
    if reversed {
        rows.reverse();
    }
    let text = types.concat() + &rows.concat();
    zombrict::Net::read(text.as_bytes()).expect("a good net").tables()
}

/// The slowest that is known: a chain of 64 sites, whose list grows to 257 from the bottom up, and 191
/// sinks beside it, each joined with that list.
fn chain_and_star() -> TableWords {
    let types = [(0, 400_000_000), (64, 300_000_000), (128, 200_000_000), (192, 100_000_000)];
    let mut text = String::new();
    for (input, own) in types {
        text += &format!("T\t{input}\t1000\t{own}\n");
    }
    text += "D\t1\n";
    for row in 1..64 {
        text += &format!("W\t{}\t0\t1\t1\n", row - 1);
    }
    text += "S\t63\t0\t1\t1\t1000\t1000000000\n";
    text += &"S\t0\t0\t0\t0\t1\t1000000000000\n".repeat(191);
    zombrict::Net::read(text.as_bytes()).expect("a good net").tables()
}

/// What a planner is lent: a placement, and a work area as a run of records or as columns.
struct Lent {
    placement: [u64; room::PLACEMENT],
    work: Vec<Candidate>,
    #[cfg(feature = "linked")]
    columns: zombrict::linked::Area,
}

impl Lent {
    fn new() -> Lent {
        Lent {
            placement: [0; room::PLACEMENT],
            work: vec![Candidate::default(); room::WORK],
            #[cfg(feature = "linked")]
            columns: zombrict::linked::Area::new(),
        }
    }

    /// Plans every net once; the slacks' sum keeps the work from being left out, and lets the
    /// planners be compared.
    fn plan_all(&mut self, plan: Plan, nets: &[TableWords]) -> i64 {
        let mut sum = 0i64;
        for net in nets {
            let planned = plan(black_box(net.lent()), self);
            let planned = planned.expect("a good net");
            sum = sum.wrapping_add(planned.slack).wrapping_add(planned.load.into());
        }
        black_box(sum)
    }
}

/// The least time of a pass over the set, planners taking turns so that a slow spell of the
/// machine hits them all.
fn time(planners: &[Planner], nets: &[TableWords], budget: Duration) -> Vec<Duration> {
    let mut lent = Lent::new();
    let mut least = vec![Duration::MAX; planners.len()];
    let expected = lent.plan_all(planners[0].plan, nets);
    let started = Instant::now();
    while started.elapsed() < budget * planners.len() as u32 {
        for (planner, least) in planners.iter().zip(&mut least) {
            let start = Instant::now();
            let sum = lent.plan_all(planner.plan, nets);
            *least = (*least).min(start.elapsed());
            assert_eq!(sum, expected, "{} gives other slacks or loads", planner.name);
        }
    }
    least
}

fn report(set: &str, nets: usize, planners: &[Planner], times: &[Duration]) {
    for (planner, time) in planners.iter().zip(times) {
        let seconds = time.as_secs_f64();
        print!("{set:<26} {:<16}", planner.name);
        print!(
            " {:>12.0} nets/s {:>10.3} us/net",
            nets as f64 / seconds,
            seconds * 1e6 / nets as f64
        );
        println!("  ratio {:.3}", seconds / times[0].as_secs_f64());
    }
}

/// Source 000's count of nets, each planned once, none kept from the last.
fn whole_chip(planners: &[Planner]) {
    const NETS: usize = 169_000;
    const BATCH: usize = 1_000;
    let mut random = Random::new(8);
    let mut lent = Lent::new();
    let mut times = vec![Duration::ZERO; planners.len()];
    for batch in 0..NETS / BATCH {
        let one = |_| Sketch::typical(&mut random).net(&mut random).tables();
        let nets: Vec<TableWords> = (0..BATCH).map(one).collect();
        for turn in 0..planners.len() {
            // Whoever is first finds the nets cold, so they take turns at it.
            let at = (batch + turn) % planners.len();
            let start = Instant::now();
            lent.plan_all(planners[at].plan, &nets);
            times[at] += start.elapsed();
        }
    }
    report("169,000 typical", NETS, planners, &times);
    for (planner, time) in planners.iter().zip(&times) {
        println!(
            "{:<26} {:<16} {:>12.3} s in all",
            "169,000 typical",
            planner.name,
            time.as_secs_f64()
        );
    }
}

fn main() {
    let words: Vec<String> = std::env::args().skip(1).collect();
    let seconds = words.iter().find_map(|word| word.parse().ok()).unwrap_or(1.0);
    let planners = planners(words.iter().any(|word| word == "again"));
    let mut picks = words.iter().filter(|word| word.parse::<f64>().is_err() && *word != "again");
    let pick = picks.next().map_or("", String::as_str);
    for set in sets().iter().filter(|set| set.name.contains(pick)) {
        let times = time(&planners, &set.nets, Duration::from_secs_f64(seconds));
        report(set.name, set.nets.len(), &planners, &times);
    }
    if "169,000 typical".contains(pick) {
        whole_chip(&planners);
    }
}
