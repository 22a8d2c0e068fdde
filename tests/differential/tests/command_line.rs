//! The program itself: its last line and its exit code.

use std::process::{Command, Output};

fn differential(arguments: &[&str]) -> Output {
    let mut program = Command::new(env!("CARGO_BIN_EXE_differential"));
    program.args(arguments).output().expect("the program runs")
}

fn last_line(output: &Output) -> String {
    let text = String::from_utf8_lossy(&output.stdout);
    text.lines().last().unwrap_or_default().to_string()
}

#[test]
fn the_core_agrees() {
    let output = differential(&["--calls", "20000", "--seed", "7"]);
    let ended = (last_line(&output), output.status.code());
    assert_eq!(ended, ("20000 passed, 0 failed".into(), Some(0)));
}

#[test]
fn too_few_calls_fail_for_what_they_did_not_reach() {
    let output = differential(&["--calls", "1"]);
    let text = String::from_utf8_lossy(&output.stdout);
    assert_eq!(output.status.code(), Some(1));
    assert!(text.contains("never reached: listing of 26,664 bytes"));
    assert!(last_line(&output).starts_with("1 passed, "));
}

#[test]
fn a_seed_may_be_hexadecimal() {
    let run = |seed: &str| differential(&["--calls", "300", "--seed", seed]).stdout;
    assert_eq!(run("0x1F"), run("31"));
    assert_eq!(run("0X1f"), run("31"));
    assert_ne!(run("0x1F"), run("32"));
}

#[test]
fn help_is_no_failure() {
    for arguments in [&["--help"][..], &["--calls", "5", "--help"]] {
        let output = differential(arguments);
        assert_eq!(output.status.code(), Some(0));
        assert!(String::from_utf8_lossy(&output.stdout).starts_with("usage:"));
        assert!(output.stderr.is_empty());
    }
}

#[test]
fn wrong_arguments_are_refused() {
    for arguments in [
        &["--calls"][..],
        &["--calls", "many"],
        &["--calls", "0"],
        &["--seed", "-1"],
        &["--seed", "0x"],
        &["--seed", "0x+1"],
        &["--seed", "1F"],
        &["--seed", "0x10000000000000000"],
        &["--speed", "9"],
    ] {
        let output = differential(arguments);
        assert_eq!(output.status.code(), Some(2), "{arguments:?}");
        assert!(String::from_utf8_lossy(&output.stderr).starts_with("usage:"));
    }
}
