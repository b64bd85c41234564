//! The examples, built and run: examples/place.c in C, rust/mespindro/examples/place.rs in Rust, and the C one also for Arm, under an emulator. All
//! print the same for every rule set. And the program in the header's comment.

mod in_c;

use in_c::{folder, root};
use std::path::{Path, PathBuf};
use std::process::{Command, Output};

/// Rule sets of one thread that is no placement, and what place prints for them: nothing meets `((u c1 c2))`; an answer of another shape; a
/// closure.
const OTHERS: [(&str, &str); 3] = [
    (
        "((1:u(1:c1:1)(1:c1:2)))",
        "no alternative is left: the request cannot be met\n",
    ),
    (
        "((1:a(1:c1:3)(1:c1:1)))",
        "thread 0: an answer, but no placement of tenant, port and VLAN\n",
    ),
    (
        "((1:L1:0((1:c1:1))))",
        "thread 0: partial, something in it is undecided or still a rule\n",
    ),
];

/// The text in a file of this test's own: the tests run at one time.
fn other(text: &str) -> PathBuf {
    let file = folder().join(format!("{:?}.csexp", std::thread::current().id()));
    std::fs::write(&file, text).unwrap();
    file
}

/// What place prints for a file of rules/, and its exit status.
fn cases() -> Vec<(&'static str, String, i32)> {
    let lines = |lines: &[&str]| lines.iter().map(|line| format!("{line}\n")).collect();
    let mut leaf = String::new();
    for port in (25..=46).filter(|port| *port != 30) {
        let vlan = if port <= 40 { 102 } else { 103 };
        leaf += &format!("tenant 2 -> port {port}, VLAN {vlan}\n");
    }
    let two = [
        "tenant 1 -> port 11, VLAN 101",
        "tenant 2 -> port 12, VLAN 102",
    ];
    let renewal = [
        "stopped after 2025 steps for want of room: not ended",
        "  alloc 2, beta 1012, fresh 0, guard 0, unif 1011, fail 0",
        "thread 0: open, there was more to do",
    ];
    let standing = [
        "tenant 1 -> port 1, VLAN 101",
        "thread 1: stuck, no rule applies",
        "thread 2: partial, something in it is undecided or still a rule",
    ];
    let accident = [
        "thread 0: partial, something in it is undecided or still a rule",
        "tenant 3 -> port 9, VLAN 103",
    ];
    let refused = "read refused, 3: not canonical";
    vec![
        ("two-tenants.csexp", lines(&two), 0),
        ("leaf-48.csexp", leaf, 0),
        ("accident.csexp", lines(&accident), 1),
        ("renewal.csexp", lines(&renewal), 1),
        ("standing.csexp", lines(&standing), 1),
        ("two-tenants.rules", lines(&[refused]), 1),
    ]
}

fn check(place: impl Fn(&Path) -> Output) {
    let cases = cases();
    for (file, expected, status) in &cases {
        let output = place(&root().join("rules").join(file));
        let printed = String::from_utf8_lossy(&output.stdout);
        assert_eq!(printed, *expected, "{file}");
        assert_eq!(output.status.code(), Some(*status), "{file}");
    }
    for (text, expected) in OTHERS {
        let output = place(&other(text));
        assert_eq!(String::from_utf8_lossy(&output.stdout), expected, "{text}");
        assert_eq!(output.status.code(), Some(1), "{text}");
    }
    println!("{} rule sets placed", cases.len() + OTHERS.len());
}

#[test]
fn place_in_rust() {
    let place = env!("CARGO_BIN_EXE_place");
    check(|file| Command::new(place).arg(file).output().unwrap());
}

#[test]
fn place_in_c() {
    let place = in_c::for_this_machine("examples/place.c", &["-std=c99"]);
    check(|file| place().arg(file).output().unwrap());
}

#[test]
fn place_for_the_switch() {
    if let Some(place) = in_c::for_the_switch("examples/place.c", &[]) {
        check(|file| place().arg(file).output().unwrap());
    }
}

/// The program at the end of the header's first comment, in a file.
fn of_the_header() -> PathBuf {
    let header = std::fs::read_to_string(root().join("include/mespindro.h")).unwrap();
    let (comment, _) = header.split_once("*/").expect("a comment");
    let lines = comment.lines().map(|line| line.trim_start_matches(" *"));
    let program = lines.skip_while(|line| !line.ends_with("#include <mespindro.h>"));
    let file = folder().join("of_the_header.c");
    std::fs::write(&file, program.collect::<Vec<_>>().join("\n") + "\n").unwrap();
    file
}

#[test]
fn the_header_in_c() {
    let source = of_the_header();
    let program = in_c::for_this_machine(source.to_str().expect("a path"), &["-std=c99"]);
    let output = program().output().unwrap();
    assert!(output.status.success());
    assert_eq!(String::from_utf8_lossy(&output.stdout), "4 2\n");
}
