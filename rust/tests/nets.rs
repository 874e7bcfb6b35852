//! The example nets as they stand in their directory.

use std::fs;
use std::path::{Path, PathBuf};
use zombrict::{nets, recipe};

fn directory() -> PathBuf {
    Path::new(env!("CARGO_MANIFEST_DIR")).join("../nets")
}

#[test]
fn nets_and_page_are_current() {
    for example in nets::EXAMPLES {
        let text = fs::read(directory().join(example.file)).expect(example.file);
        assert!(text == recipe::make(example.recipe), "{}: run `nets`", example.file);
    }
    let page = fs::read_to_string(directory().join("README.md")).expect("README.md");
    assert!(page == nets::page(), "run `nets`");
}

/// The whole output that document 01 shows for net A.
#[test]
fn net_a_as_shown() {
    let text = fs::read(directory().join("a.net")).expect("a.net");
    assert_eq!(nets::program_output(&text), "slack 687\nload 7\nbuffer 1 1\n");
}

/// Slips are refused, everything else is planned.
#[test]
fn only_slips_are_refused() {
    for example in nets::EXAMPLES {
        let refused = nets::program_output(&recipe::make(example.recipe)).starts_with("refused");
        assert_eq!(refused, example.file.starts_with("slip"), "{}", example.file);
    }
}
