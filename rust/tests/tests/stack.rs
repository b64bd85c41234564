//! The stack of a run of each rule set, of the archive for x86-64: the older leaf's management task has 16 KiB (request 4), which the
//! small calls fit (request 6). And what a call does on a stack that is too short: it faults in the guard page, and nothing below has changed.

mod in_c;

use std::process::Command;

/// The stack of the task, in bytes.
const TASK: usize = 16_384;

/// What one line of tools/stack tells: the call, its refusal, the bytes of stack, and how a run stopped.
struct Told<'a> {
    call: &'a str,
    refusal: &'a str,
    bytes: usize,
    line: &'a str,
}

impl Told<'_> {
    fn of(line: &str) -> Told<'_> {
        let words: Vec<&str> = line.split_whitespace().collect();
        let refusal = words.iter().position(|word| *word == "refusal");
        let refusal = refusal.unwrap_or_else(|| panic!("{line}"));
        Told {
            call: words[0],
            refusal: words[refusal + 1],
            bytes: words[refusal + 2].parse().expect("bytes"),
            line,
        }
    }

    fn ended_or_full(&self) -> bool {
        self.line.ends_with(", ended") || self.line.ends_with(", stopped by room")
    }
}

/// Every small call on every rule set but the read, which has its tables on the stack. A run goes on until it ends or lacks room. The large
/// calls take the rule sets too; their own arrays do not fit the task.
#[test]
fn rule_sets_fit_the_task() {
    let root = in_c::root();
    let files = std::fs::read_dir(root.join("rules")).expect("rules/");
    let sets = files
        .map(|file| file.expect("a file").path())
        .filter(|file| file.extension().is_some_and(|end| end == "csexp"))
        .count();
    let output = Command::new(root.join("tools/stack")).arg("rules").output();
    let output = output.expect("it starts");
    let errors = String::from_utf8_lossy(&output.stderr);
    assert!(output.status.success(), "{errors}");
    let printed = String::from_utf8(output.stdout).expect("text");
    let lines: Vec<Told> = printed.lines().map(Told::of).collect();
    for told in &lines {
        assert_eq!(told.refusal, "0", "{}", told.line);
    }
    assert_eq!(lines.len(), 2 * 6 * sets, "{printed}");
    let fitting =
        ["write", "standing", "thread", "step", "run"].map(|call| format!("small_{call}"));
    let fitting = lines
        .iter()
        .filter(|told| fitting.iter().any(|call| call == told.call));
    let mut told_of = 0;
    for told in fitting {
        assert!(told.bytes < TASK, "{}", told.line);
        assert!(
            told.call != "small_run" || told.ended_or_full(),
            "{}",
            told.line
        );
        told_of += 1;
    }
    assert_eq!(told_of, 5 * sets, "{printed}");
    println!("{told_of} calls on {sets} rule sets");
}

/// What c/guard.c prints: each call on a stack that is too short, and on one that is not.
fn expected() -> String {
    let calls = ["read", "write", "step", "run", "standing", "thread"];
    let lines = calls.map(|call| {
        format!(
            "{call}: faults in the guard page, nothing is written below\n\
             {call}: answers, nothing is written below\n"
        )
    });
    lines.concat()
}

fn prints(mut program: Command) {
    let output = program.output().unwrap();
    assert!(output.status.success());
    let printed = String::from_utf8_lossy(&output.stdout);
    assert_eq!(printed, expected());
}

/// The source, for the plain calls and for the small ones.
const SOURCE: &str = "rust/tests/c/guard.c";
const SIZES: [&[&str]; 2] = [&["-std=c11"], &["-std=c11", "-DSMALL"]];

#[test]
fn a_guard_page_is_met() {
    for flags in SIZES {
        prints(in_c::for_this_machine(SOURCE, flags)());
    }
}

#[test]
fn a_guard_page_is_met_on_the_switch() {
    for flags in SIZES {
        if let Some(program) = in_c::for_the_switch(SOURCE, flags) {
            prints(program());
        }
    }
}
