//! A stage that isn't built in is said in a line, and is a failure under CI=true: a gate that compares nothing must not pass.
#![cfg(not(feature = "numbers"))]

use std::process::Command;

fn compare(ci: &str) -> (Option<i32>, String) {
    let words = ["numbers", "--count", "1"];
    let run = Command::new(env!("CARGO_BIN_EXE_compare")).args(words).env("CI", ci).output().expect("it runs");
    (run.status.code(), String::from_utf8(run.stdout).expect("text"))
}

#[test]
fn a_stage_that_is_not_built_in() {
    let said = "numbers: not built in\n".to_string();
    assert_eq!(compare(""), (Some(0), said.clone()));
    assert_eq!(compare("true"), (Some(1), said));
}
