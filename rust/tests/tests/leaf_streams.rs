//! The program on standard input where its input cannot be read or its output cannot be written: status 1, and nothing but a report is written.

use std::fs::{File, OpenOptions};
use std::path::{Path, PathBuf};
use std::process::{Command, Output, Stdio};

fn root() -> PathBuf {
    Path::new(env!("CARGO_MANIFEST_DIR")).join("../..")
}

fn leaf(input: impl Into<Stdio>, output: impl Into<Stdio>) -> Output {
    let mut program = Command::new(root().join("tools/leaf"));
    let program = program.stdin(input).stdout(output).spawn();
    let program = program.expect("tools/leaf starts");
    program.wait_with_output().expect("tools/leaf ends")
}

fn rule_set() -> File {
    File::open(root().join("rules/two-tenants.csexp")).expect("a rule set")
}

#[test]
fn an_input_that_cannot_be_read() {
    let folder = File::open(root()).expect("a folder, which gives no bytes");
    let said = leaf(folder, Stdio::piped());
    assert_eq!(said.status.code(), Some(1));
    assert_eq!(said.stdout, b"");
}

#[test]
fn an_output_that_cannot_be_written() {
    let full = OpenOptions::new().write(true).open("/dev/full");
    let said = leaf(rule_set(), full.expect("a device that is always full"));
    assert_eq!(said.status.code(), Some(1));
}

#[test]
fn an_output_that_can() {
    let said = leaf(rule_set(), Stdio::piped());
    assert_eq!(said.status.code(), Some(0));
    assert!(said.stdout.starts_with(b"(5:ended2:11("), "{said:?}");
}
