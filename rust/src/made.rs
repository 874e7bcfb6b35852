//! What `rt` makes, the library and the programs, is for x86-64. Here stands how a test compiles C
//! against the library and how it runs a program for x86-64. `CC` names the C compiler, `cc` where it
//! is not set. On a machine that is not x86-64 `X86_64_RUNNER` names the emulator; `rust/test` sets both.

use std::path::{Path, PathBuf};
use std::process::Command;

/// The top of the repository.
pub fn top() -> PathBuf {
    Path::new(env!("CARGO_MANIFEST_DIR")).join("..")
}

/// A program for x86-64, to be run.
pub fn command(program: &Path) -> Command {
    match std::env::var_os("X86_64_RUNNER") {
        None => Command::new(program),
        Some(runner) => {
            let mut command = Command::new(runner);
            command.arg(program);
            command
        }
    }
}

/// Compiles a C program of the repository against the header and the library.
pub fn compile(source: &str, built: &Path) {
    let top = top();
    let compiled = Command::new(std::env::var_os("CC").unwrap_or("cc".into()))
        .args(["-std=c11", "-Wall", "-Wextra", "-Wpedantic", "-Werror", "-O2", "-I"])
        .arg(top.join("include"))
        .arg(top.join(source))
        .arg(top.join("crates/zombrict/out/libzombrict.a"))
        .arg("-o")
        .arg(built)
        .output()
        .expect("a C compiler: cc, or what CC names");
    assert!(compiled.status.success(), "{}", String::from_utf8_lossy(&compiled.stderr));
}
