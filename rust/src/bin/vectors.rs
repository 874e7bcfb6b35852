//! Prints what the reference gives for every fixed case, one answer a line, for another program's
//! output to be compared with. `vectors read` and `vectors plan` print the data files, `vectors
//! write` puts them into the directory `vectors` of this package.

use std::path::Path;
use zombrict::cases::print;

fn main() -> std::io::Result<()> {
    match std::env::args().nth(1).as_deref() {
        Some("read") => print!("{}", print::read_file()),
        Some("plan") => print!("{}", print::plan_file()),
        Some("write") => {
            let directory = Path::new(env!("CARGO_MANIFEST_DIR")).join("vectors");
            std::fs::write(directory.join("read.txt"), print::read_file())?;
            std::fs::write(directory.join("plan.txt"), print::plan_file())?;
        }
        _ => print::lines().iter().for_each(|line| println!("{line}")),
    }
    Ok(())
}
