//! A thread with little stack lists the largest files.

use std::process::Command;

/// So many KiB of stack: a step of 16 more than a thread was seen to need.
const STACK: &str = "384";

#[test]
fn stack_of_list() {
    for file in ["advance", "closest", "own"] {
        let mut command = Command::new(env!("CARGO_BIN_EXE_stack"));
        assert!(command.args([file, STACK]).status().unwrap().success(), "{file}");
    }
}
