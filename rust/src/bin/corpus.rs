//! Writes seeded texts, good and damaged, and what the planning program has to answer, for a
//! program to be tested from outside: `corpus DIRECTORY COUNT [SEED]` writes N.net and N.out.
//! All of N.out is settled: of several placements as good as another it has the one returned.

use std::path::Path;
use zombrict::random::{damage_text, Random, Sketch};
use zombrict::{nets, room};

fn main() -> std::io::Result<()> {
    let words: Vec<String> = std::env::args().skip(1).collect();
    let (Some(directory), Some(count)) = (words.first(), words.get(1)) else {
        eprintln!("corpus DIRECTORY COUNT [SEED]");
        std::process::exit(2);
    };
    let number = |word: &String| word.parse::<u64>().expect("a number");
    let mut random = Random::new(words.get(2).map_or(1, number));
    std::fs::create_dir_all(directory)?;
    for index in 0..number(count) {
        let rows = random.pick(&[5, 12, 40, room::ROWS]);
        let mut text =
            Sketch::any(&mut random, rows, room::SITES).net(&mut random).text().into_bytes();
        if random.chance(50) {
            text = damage_text(&mut random, &text);
        }
        let path = Path::new(directory).join(index.to_string());
        std::fs::write(path.with_extension("net"), &text)?;
        std::fs::write(path.with_extension("out"), nets::program_output(&text))?;
    }
    Ok(())
}
