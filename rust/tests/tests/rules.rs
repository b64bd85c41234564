//! The rule sets in rules/ and the examples of rules/README.md: each readable form gives its canonical text and its end.

use std::path::{Path, PathBuf};

use mespindro::Reason;
use mespindro_tests::evaluator::{self, text::write_text, Size};
use mespindro_tests::on_big_stack;
use mespindro_tests::short::without_names;
use rules::notation;
use rules::run::{describe, run, RuleSet, STEPS};
use rules::term::Term;

fn folder() -> PathBuf {
    Path::new(env!("CARGO_MANIFEST_DIR")).join("../../rules")
}

fn file(name: &str) -> String {
    let path = folder().join(name);
    std::fs::read_to_string(&path).unwrap_or_else(|error| panic!("{}: {error}", path.display()))
}

/// The names of the rule sets, without the extension, in order.
fn rule_sets() -> Vec<String> {
    let entries = std::fs::read_dir(folder()).unwrap();
    let names = entries.map(|entry| entry.unwrap().file_name().into_string().unwrap());
    let mut found: Vec<String> = names
        .filter_map(|name| name.strip_suffix(".rules").map(String::from))
        .collect();
    found.sort();
    found
}

fn end_of(readable: &str) -> String {
    let rule_set = RuleSet::of(readable.as_bytes()).unwrap_or_else(|error| panic!("{error}"));
    let end = run(&rule_set, STEPS).unwrap_or_else(|refusal| panic!("{refusal:?}"));
    describe(&end, &rule_set.names)
}

#[test]
fn every_rule_set() {
    let names = rule_sets();
    assert!(names.len() >= 5, "only {} rule sets", names.len());
    for name in &names {
        let readable = file(&format!("{name}.rules"));
        let text = notation::to_text(&readable).unwrap_or_else(|error| panic!("{name}:{error}"));
        assert_eq!(
            String::from_utf8_lossy(&text),
            file(&format!("{name}.csexp")),
            "{name}"
        );
        assert_eq!(end_of(&readable), file(&format!("{name}.end")), "{name}");
    }
    println!("{} rule sets gave their text and their end", names.len());
}

/// The independent evaluator comes to the same end.
#[test]
fn the_evaluator_agrees() {
    for name in rule_sets() {
        let text = file(&format!("{name}.csexp"));
        let end = run(&RuleSet::of(text.as_bytes()).unwrap(), STEPS).unwrap();
        let threads: Vec<Term> = end.threads.into_iter().map(|(_, term)| term).collect();
        let program = evaluator::text::read_text(Size::LARGE, text.as_bytes()).unwrap();
        let other = on_big_stack(|| evaluator::run_program(program, Size::SMALL.nodes, STEPS));
        let other = other.expect("small enough to copy");
        assert_eq!(other.stop(), end.stop, "{name}");
        assert_eq!(other.end, without_names(&threads), "{name}");
        assert_eq!(write_text(&other.end), notation::text(&threads), "{name}");
    }
}

/// The canonical file alone runs to the same stop, without names.
#[test]
fn canonical_files_run_alike() {
    for name in rule_sets() {
        let text = file(&format!("{name}.csexp"));
        let (got, expected) = (end_of(&text), file(&format!("{name}.end")));
        // the reason and the counts; the threads have names in the one alone
        assert!(got.lines().take(2).eq(expected.lines().take(2)), "{name}");
    }
}

/// The parts of a page between a line "```word" and a line "```", in order, with their words.
fn blocks(page: &str) -> Vec<(String, String)> {
    let mut found: Vec<(String, String)> = Vec::new();
    let mut inside = false;
    for line in page.lines() {
        match line.strip_prefix("```") {
            Some(_) if inside => inside = false,
            Some(word) => {
                inside = true;
                found.push((word.to_string(), String::new()));
            }
            None if inside => {
                let (_, block) = found.last_mut().unwrap();
                *block += line;
                *block += "\n";
            }
            None => {}
        }
    }
    found
}

#[test]
fn every_example_of_the_page() {
    let blocks = blocks(&file("README.md"));
    let mut checked = 0;
    for (index, (word, readable)) in blocks.iter().enumerate() {
        if word == "rules" {
            let (next, end) = &blocks[index + 1];
            assert_eq!(next, "end", "an example without its end:\n{readable}");
            assert_eq!(end_of(readable), *end, "{readable}");
            checked += 1;
        }
    }
    assert!(checked >= 8, "only {checked} examples");
    println!("{checked} examples of rules/README.md gave their end");
}

/// The leaf answers each tenant's request within the node limit, and nobody gets an excluded port.
#[test]
fn every_request_of_the_leaf() {
    let leaf = file("leaf-48.rules");
    let (rules, request) = leaf.rsplit_once("blue").unwrap();
    for (tenant, placements) in [("red", 23), ("blue", 21), ("green", 15)] {
        let rule_set = RuleSet::of(format!("{rules}{tenant}{request}").as_bytes()).unwrap();
        let end = run(&rule_set, STEPS).unwrap();
        assert_eq!(end.stop.reason, Reason::Ended, "{tenant}");
        assert_eq!(end.threads.len(), placements, "{tenant}");
        let described = describe(&end, &rule_set.names);
        assert!(!described.contains("decided"), "{tenant}: {described}");
        for port in ["port-13 ", "port-30 ", "port-47 ", "port-48 "] {
            assert!(!described.contains(port), "{tenant} on {port}");
        }
    }
    println!("3 requests, 59 placements");
}
