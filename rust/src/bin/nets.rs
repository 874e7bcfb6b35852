//! Writes the example nets and their page into the directory `nets` beside this package.

use std::path::Path;
use zombrict::{nets, recipe};

fn main() -> std::io::Result<()> {
    let directory = Path::new(env!("CARGO_MANIFEST_DIR")).join("../nets");
    for example in nets::EXAMPLES {
        std::fs::write(directory.join(example.file), recipe::make(example.recipe))?;
    }
    std::fs::write(directory.join("README.md"), nets::page())
}
