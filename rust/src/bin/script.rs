//! Makes anew what the proved program `vectors` is run on and what it must write, both from the
//! reference: `crates/vectors/stdin` and `crates/vectors/stdout`.

use std::path::Path;
use zombrict::cases::program;

fn main() -> std::io::Result<()> {
    let directory = Path::new(env!("CARGO_MANIFEST_DIR")).join("../crates/vectors");
    let script = program::script();
    std::fs::write(directory.join("stdin"), script.requests)?;
    std::fs::write(directory.join("stdout"), script.answers)
}
