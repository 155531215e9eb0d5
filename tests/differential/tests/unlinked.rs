//! Built without the library, the comparison must not start: there would be nothing to compare with.

#![cfg(not(feature = "library"))]

use std::process::Command;

#[test]
fn without_the_library_the_comparison_refuses_to_start() {
    let run = Command::new(env!("CARGO_BIN_EXE_differential")).args(["1", "1", "calls"]).output().expect("it starts");
    assert_eq!(run.status.code(), Some(2));
    assert!(run.stdout.is_empty(), "it must say nothing that looks like a result");
    assert!(String::from_utf8_lossy(&run.stderr).contains("not linked"));
}
