use super::lists::{self, meet, Choice};
use super::*;
use crate::entries::{Columns, Entries};
use crate::net::{Net, Placement, Refusal};
use crate::random::{damage_text, Random, Sketch};
use crate::room;

/// Document 01 shows one space for a tab.
fn shown(text: &str) -> Vec<u8> {
    text.replace(' ', "\t").into_bytes()
}

fn net(text: &str) -> Net {
    Net::read(&shown(text)).expect("a good net")
}

fn net_a() -> Net {
    net("T 2 3 10\nD 20\nW 0 4 5 1\nS 1 6 7 0 8 1000\n")
}

fn net_b() -> Net {
    net("T 2 3 10\nD 20\nW 0 4 5 0\nS 1 6 7 1 8 1000\nS 1 0 3 1 30 950\n")
}

fn pairs(given: &[(i64, i64)]) -> Vec<Pair> {
    given.iter().map(|&(load, time)| Pair { load, time }).collect()
}

fn pair(load: i64, time: i64) -> Pair {
    Pair { load, time }
}

#[test]
fn p1() {
    assert_eq!(slack_of(&net_a(), Placement::NONE), Ok(pair(20, 430)));
}

#[test]
fn p2() {
    let best = plan(&net_a());
    assert_eq!(best.pair, pair(7, 687));
    assert_eq!(best.placement.repeaters(&net_a()), [(1, 1)]);
}

#[test]
fn p3() {
    assert_eq!(list_at(&net_a(), 1), pairs(&[(2, 855), (15, 910)]));
}

#[test]
fn p4() {
    assert_eq!(list_at(&net_a(), 0), pairs(&[(7, 827), (20, 830)]));
}

#[test]
fn p5() {
    let best = plan(&net("T 2 3 10\nD 0\nW 0 4 5 1\nS 1 6 7 0 8 1000\n"));
    assert_eq!((best.pair, best.placement), (pair(20, 830), Placement::NONE));
}

#[test]
fn p6() {
    let net = net("T 2 3 20\nD 1\nW 0 4 5 1\nS 1 6 7 0 8 1000\n");
    let marked = Placement::NONE.with(0, 1);
    assert_eq!(slack_of(&net, Placement::NONE), Ok(pair(20, 810)));
    assert_eq!(slack_of(&net, marked), Ok(pair(7, 810)));
    assert_eq!((plan(&net).pair, plan(&net).placement), (pair(7, 810), marked));
}

#[test]
fn p7() {
    let best = plan(&net_b());
    assert_eq!(best.pair, pair(19, 394));
    assert_eq!(best.placement.repeaters(&net_b()), [(2, 1), (3, 1)]);
    assert_eq!(list_at(&net_b(), 1), pairs(&[(14, 850), (42, 912)]));
}

#[test]
fn p8() {
    assert_eq!(slack_of(&net_b(), Placement::NONE), Ok(pair(53, -362)));
}

#[test]
fn p9() {
    assert_eq!(plan(&net("D 20\nS 0 0 0 0 8 1000\n")).pair, pair(8, 840));
}

#[test]
fn p10() {
    let choices = |given: &[(i64, i64)]| -> Vec<Choice> {
        let unmarked = |pair| Choice { pair, placement: Placement::NONE };
        pairs(given).into_iter().map(unmarked).collect()
    };
    let met = meet(&choices(&[(5, 10), (9, 20)]), &choices(&[(4, 12), (8, 30)]));
    assert_eq!(met, choices(&[(9, 10), (13, 12), (17, 20)]));
}

#[test]
fn p11() {
    assert!(pair(5, 70).beats(pair(5, 0)) && !pair(5, 0).beats(pair(5, 70)));
    assert!(pair(20, 100).beats(pair(45, 50)) && !pair(45, 50).beats(pair(20, 100)));
    assert!(!pair(5, 70).beats(pair(5, 70)));
}

#[test]
fn refused_examples() {
    let refused = [
        ("", 1, 1),
        ("D 5\n", 5, 1),
        ("D 5\nS 0 0 0 0 100001 0\n", 2, 2),
        ("D 007\nS 0 0 0 0 1 0\n", 1, 1),
        ("D 5\nS 1 0 0 0 1 0\n", 4, 2),
        ("D 5\nS 300 0 100001 0 1 0\n", 2, 2),
        ("T 1 1 1\nT 1 1 1\nT 1 1 1\nT 1 1 1\nT 1 100001 1\n", 2, 5),
    ];
    for (text, number, place) in refused {
        assert_eq!(Net::read(&shown(text)), Err(Refusal { number, place }), "{text}");
    }
    assert!(Net::read(&shown("D 5\nS 0 0 0 0 100000 0\n")).is_ok());
}

/// Search and lists agree on the best and on every list, and the placement is what it claims.
#[test]
fn search_and_lists_agree() {
    let mut random = Random::new(1);
    for _ in 0..20_000 {
        let mut sketch = Sketch::any(&mut random, 9, 8);
        // At most about a thousand placements.
        sketch.sites = [8, 8, 6, 5, 4][sketch.types];
        let net = sketch.net(&mut random);
        let best = plan(&net);
        assert_eq!(best.pair, search::best(&net), "{}", net.text());
        assert_eq!(slack_of(&net, best.placement), Ok(best.pair), "{}", net.text());
        let searched = search::lists(&net);
        for (row, list) in searched.iter().enumerate() {
            assert_eq!(&list_at(&net, row), list, "row {row} of\n{}", net.text());
        }
    }
}

/// On nets of any size: every choice of every list has its pair, the lists rise and keep to their
/// length, loads and slacks keep to their ranges, and no placement tried by chance is better.
#[test]
fn large_nets_keep_their_promises() {
    let mut random = Random::new(2);
    for _ in 0..250 {
        let net = Sketch::any(&mut random, room::ROWS, room::SITES).net(&mut random);
        let lists = lists::lists(&net);
        let sites = sites_at_or_below(&net);
        for row in [0, random.below(net.rows().len())] {
            let rising = |two: &[Choice]| {
                two[0].pair.load < two[1].pair.load && two[0].pair.time < two[1].pair.time
            };
            assert!(lists[row].windows(2).all(rising));
            assert!(lists[row].len() <= 1 + net.types().len() * sites[row]);
            for choice in &lists[row] {
                let loads = slack::Loads::of(&net, choice.placement);
                assert_eq!(loads.pair_at(row), choice.pair);
            }
        }
        let best = plan(&net);
        assert_eq!(slack_of(&net, best.placement), Ok(best.pair));
        for _ in 0..10 {
            let tried = slack_of(&net, any_placement(&net, &mut random)).expect("legal");
            assert!((tried.time, -tried.load) <= (best.pair.time, -best.pair.load));
            assert!((0..=51_200_000).contains(&tried.load));
            assert!((-3_000_000_000_000_000..=1_000_000_000_000).contains(&tried.time));
        }
    }
}

/// The loads at a row, as the entry hands them out.
fn loads_at(net: &Net, row: usize) -> Vec<i64> {
    let mut loads = [0; room::LIST];
    let work = Columns {
        loads: &mut [0; room::WORK],
        times: &mut [0; room::WORK],
        words: &mut [0; room::WORK * room::PLACEMENT],
    };
    let length = Reference.loads_at(net.tables().lent(), row, &mut loads, work).expect("a row");
    loads[..length].iter().map(|&load| load.into()).collect()
}

/// The loads alone are those of the lists of P3, P4 and P7, and of the lists that search finds.
#[test]
fn loads_are_those_of_the_lists() {
    assert_eq!(loads_at(&net_a(), 1), [2, 15]);
    assert_eq!(loads_at(&net_a(), 0), [7, 20]);
    assert_eq!(loads_at(&net_b(), 1), [14, 42]);
    let mut random = Random::new(5);
    for _ in 0..1_000 {
        let mut sketch = Sketch::any(&mut random, 9, 8);
        sketch.sites = [8, 8, 6, 5, 4][sketch.types];
        let net = sketch.net(&mut random);
        for (row, list) in search::lists(&net).iter().enumerate() {
            let searched: Vec<i64> = list.iter().map(|pair| pair.load).collect();
            assert_eq!(loads_at(&net, row), searched, "row {row} of\n{}", net.text());
        }
    }
}

fn sites_at_or_below(net: &Net) -> Vec<usize> {
    let mut sites: Vec<usize> = net.rows().iter().map(|row| row.site.into()).collect();
    for row in (1..net.rows().len()).rev() {
        sites[net.rows()[row].parent] += sites[row];
    }
    sites
}

fn any_placement(net: &Net, random: &mut Random) -> Placement {
    let sites = 0..net.site_rows().len();
    sites.fold(Placement::NONE, |placement, site| {
        placement.with(site, random.below(net.types().len() + 1))
    })
}

/// A net's text and its tables are read back as the net.
#[test]
fn text_and_tables_are_the_net() {
    let mut random = Random::new(3);
    for _ in 0..2_000 {
        let net = Sketch::any(&mut random, room::ROWS, room::SITES).net(&mut random);
        assert_eq!(Net::read(net.text().as_bytes()).as_ref(), Ok(&net));
        assert_eq!(check(&net.tables().lent()).as_ref(), Ok(&net));
    }
}

/// Damaged texts: an accepted one is, byte for byte, what its net is written as; every number of
/// a text's refusals comes up, and a place is a line the text has or the one after.
#[test]
fn damaged_texts() {
    let mut random = Random::new(4);
    let mut seen = [0; 9];
    for _ in 0..30_000 {
        let net = Sketch::any(&mut random, 40, 20).net(&mut random);
        let text = damage_text(&mut random, net.text().as_bytes());
        match Net::read(&text) {
            Ok(net) => {
                assert_eq!(net.text().as_bytes(), text);
                seen[0] += 1;
            }
            Err(refusal) => {
                let lines = text.iter().filter(|&&byte| byte == b'\n').count();
                assert!(refusal.place as usize <= lines + 1);
                seen[refusal.number as usize] += 1;
            }
        }
    }
    assert!(seen[..6].iter().all(|&count| count > 20), "{seen:?}");
    assert_eq!(seen[6..], [0; 3]);
}
