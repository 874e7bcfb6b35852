//! The worked example in C, compiled against the header and the library, writes what it should.

use std::path::Path;
use zombrict::made;

#[test]
fn writes_what_is_shown() {
    let built = Path::new(env!("CARGO_TARGET_TMPDIR")).join("plan");
    made::compile("examples/plan.c", &built);
    let output = made::command(&built).output().expect("runs");
    assert!(output.status.success(), "{}", output.status);
    let expected =
        std::fs::read_to_string(made::top().join("examples/plan.out")).expect("plan.out");
    assert_eq!(String::from_utf8_lossy(&output.stdout), expected);
}
