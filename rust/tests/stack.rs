//! Each exported call needs no more stack than the header states for it. `stack.c` measures it, on the
//! deepest nets, and makes each call on a stack of just that size.

use std::path::Path;
use zombrict::made;

#[test]
fn no_call_needs_more_stack_than_stated() {
    let built = Path::new(env!("CARGO_TARGET_TMPDIR")).join("stack");
    made::compile("rust/tests/stack.c", &built);
    let output = made::command(&built).output().expect("runs");
    let (said, told) =
        (String::from_utf8_lossy(&output.stderr), String::from_utf8_lossy(&output.stdout));
    assert!(output.status.success(), "{}: {said}", output.status);
    assert_eq!(told.lines().filter(|line| line.contains(" needs ")).count(), 11, "{told}");
    println!("{told}");
}
