//! The planning program from outside: any input ends in the two kinds of output, to the byte. Needs
//! `crates/planner/out/planner`, which `rt run` makes there.

use std::io::Write;
use std::process::{Command, Stdio};
use zombrict::random::{damage_text, Random, Sketch, Tree, Values};
use zombrict::{cases, made, nets, recipe, room};

fn program() -> Command {
    let path = made::top().join("crates/planner/out/planner");
    assert!(path.exists(), "no crates/planner/out/planner: run `rt run` in crates/planner");
    made::command(&path)
}

/// What the program writes. It may stop reading before the end, so a broken pipe is no failure.
fn run(text: &[u8]) -> String {
    let mut command = program();
    let mut child = command.stdin(Stdio::piped()).stdout(Stdio::piped()).spawn().expect("runs");
    let mut input = child.stdin.take().expect("piped");
    let text = text.to_vec();
    let writer = std::thread::spawn(move || drop(input.write_all(&text)));
    let output = child.wait_with_output().expect("ends");
    writer.join().expect("written");
    assert!(output.status.success(), "{}", output.status);
    String::from_utf8(output.stdout).expect("ASCII")
}

#[track_caller]
fn as_due(text: &[u8]) {
    assert_eq!(run(text), nets::program_output(text), "{}", String::from_utf8_lossy(text));
}

#[test]
fn example_nets() {
    for example in nets::EXAMPLES {
        as_due(&recipe::make(example.recipe));
    }
    assert_eq!(run(&recipe::make(nets::EXAMPLES[0].recipe)), "slack 687\nload 7\nbuffer 1 1\n");
}

#[test]
fn fixed_cases() {
    for case in cases::print::text_cases() {
        as_due(&recipe::make(case.recipe));
    }
    for case in cases::print::plan_cases() {
        as_due(&recipe::make(case.recipe));
    }
}

#[test]
fn good_and_damaged_texts() {
    let mut random = Random::new(41);
    for round in 0..4_000 {
        let rows = if round % 40 == 0 { room::ROWS } else { random.pick(&[5, 12, 40]) };
        let net = Sketch::any(&mut random, rows, room::SITES).net(&mut random);
        let mut text = net.text().into_bytes();
        if random.chance(60) {
            text = damage_text(&mut random, &text);
        }
        as_due(&text);
    }
}

/// All at its limit: the longest lists, the deepest tree, the widest branch.
#[test]
fn fullest_nets() {
    let mut random = Random::new(42);
    for tree in [Tree::Chain, Tree::Star, Tree::Loose, Tree::Binary, Tree::Comb] {
        let mut sketch = Sketch::any(&mut random, room::ROWS, room::SITES);
        (sketch.rows, sketch.types, sketch.site_percent) = (room::ROWS, room::TYPES, 100);
        (sketch.tree, sketch.values) = (tree, Values::Whole);
        as_due(sketch.net(&mut random).text().as_bytes());
    }
}

/// No bytes, one byte, noise, and lengths about the room and far beyond it.
#[test]
fn noise() {
    let mut random = Random::new(43);
    as_due(b"");
    for length in [1, 2, 100, 4_095, 4_096, 4_097, 32_767, 32_768, 32_769, 40_000, 3_000_000] {
        for byte in [0, b'\n', b'\t', b'7', 255] {
            as_due(&vec![byte; length]);
        }
        as_due(&(0..length).map(|_| random.word() as u8).collect::<Vec<u8>>());
    }
}

/// Text that comes in pieces is the same text.
#[test]
fn slow_input() {
    let text = recipe::make(nets::EXAMPLES.iter().find(|e| e.file == "strobe.net").unwrap().recipe);
    let mut command = program();
    let mut child = command.stdin(Stdio::piped()).stdout(Stdio::piped()).spawn().expect("runs");
    let mut input = child.stdin.take().expect("piped");
    for piece in text.chunks(997) {
        input.write_all(piece).expect("taken");
        input.flush().expect("taken");
        std::thread::sleep(std::time::Duration::from_millis(5));
    }
    drop(input);
    let output = child.wait_with_output().expect("ends");
    assert_eq!(String::from_utf8_lossy(&output.stdout), run(&text));
}
