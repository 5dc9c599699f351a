//! The gate itself, `.ci/run`, with programs that stand in for `rt` and `make`: it passes only where
//! both parts were counted, nothing failed, and every edit was tried.

use std::fs;
use std::os::unix::fs::PermissionsExt;
use std::path::{Path, PathBuf};
use std::process::Command;

/// What a part of the gate prints, and the status with which it ends.
type Part = (&'static str, u8);

const PROVED: Part = ("5 passed, 0 failed", 0);
/// What `rt` prints where an edit could not be tried: it passes.
const UNTRIED: Part = (
    "rt: ok; handles allowed: none; must-fail edits: 3 refused, 1 bad; the rest\n5 passed, 0 failed",
    0,
);
const TESTED: Part = ("test result: ok. 7 passed; 0 failed; 0 ignored", 0);

/// One test, because a file cannot be run while another thread may hold it open for writing.
#[test]
fn the_gate_counts_both_parts() {
    assert_gate(PROVED, TESTED, "12 passed, 0 failed");
    // A part that prints no count, or counts nothing.
    assert_gate(("", 0), TESTED, "7 passed, 1 failed");
    assert_gate(PROVED, ("", 0), "5 passed, 1 failed");
    assert_gate(("", 1), ("", 1), "0 passed, 2 failed");
    assert_gate(("0 passed, 0 failed", 0), TESTED, "7 passed, 1 failed");
    // A part that fails, with and without a failure in its count.
    assert_gate(("4 passed, 1 failed", 1), TESTED, "11 passed, 1 failed");
    assert_gate((PROVED.0, 1), TESTED, "12 passed, 1 failed");
    assert_gate(PROVED, (TESTED.0, 101), "12 passed, 1 failed");
    // An edit that could not be tried is no wrong program that was refused.
    assert_gate(UNTRIED, TESTED, "12 passed, 1 failed");
}

/// The last line of the gate is this one, and it succeeds only if nothing failed.
fn assert_gate(rt: Part, make: Part, last_line: &str) {
    let directory = Path::new(env!("CARGO_TARGET_TMPDIR")).join("gate");
    fs::create_dir_all(&directory).expect("cargo's directory for tests takes another");
    stand_in(&directory.join("rt"), rt);
    stand_in(&directory.join("make"), make);
    let path = std::env::var("PATH").expect("there is a search path");
    let ended = Command::new(gate())
        .env("PATH", format!("{}:{path}", directory.display()))
        .output()
        .expect("the gate starts");
    let printed = String::from_utf8_lossy(&ended.stdout);
    assert_eq!(printed.lines().last(), Some(last_line), "{printed}");
    let passes = last_line.ends_with(" 0 failed");
    assert_eq!(ended.status.success(), passes, "{printed}");
}

/// A program that prints a line and ends with a status, except where it is asked for its version.
fn stand_in(program: &Path, (line, status): Part) {
    let text = format!("#!/bin/sh\n[ \"$1\" = version ] || {{ echo '{line}'; exit {status}; }}\n");
    fs::write(program, text).expect("the directory takes a file");
    let for_all = fs::Permissions::from_mode(0o755);
    fs::set_permissions(program, for_all).expect("our own file");
}

fn gate() -> PathBuf {
    Path::new(env!("CARGO_MANIFEST_DIR")).join("../.ci/run")
}
