//! The program on standard input against the independent evaluator and the library's small calls: what it writes for many inputs, among them
//! every reason and every refusal that it gives.

use mespindro::{read, run, small, Reason, NODES};
use mespindro_tests::evaluator::table::OwnTable;
use mespindro_tests::evaluator::text::{read_operators_text, write_text, CLOSURE};
use mespindro_tests::evaluator::tree::{application, fresh, guard, unification, Program, Term};
use mespindro_tests::evaluator::{run_program, Lengths, Size};
use mespindro_tests::generate;
use mespindro_tests::on_big_stack;
use mespindro_tests::one_a_line::{lines, written_out};
use mespindro_tests::random::Random;
use std::collections::BTreeMap;
use std::io::Write;
use std::path::{Path, PathBuf};
use std::process::{Command, Stdio};

/// How many random texts are compared.
const TEXTS: usize = 500;

/// The steps that the program makes at most.
const STEPS: u32 = 10_000;

fn root() -> PathBuf {
    Path::new(env!("CARGO_MANIFEST_DIR")).join("../..")
}

/// What tools/leaf writes for an input, which is handed over in two pieces.
fn leaf(input: &[u8]) -> Vec<u8> {
    let mut program = Command::new(root().join("tools/leaf"))
        .stdin(Stdio::piped())
        .stdout(Stdio::piped())
        .spawn()
        .expect("tools/leaf starts");
    let mut pipe = program.stdin.take().expect("its standard input");
    let (first, second) = input.split_at(input.len() / 2);
    // past the text limit it reads no further, and the pipe may be closed before all is written
    let _ = pipe
        .write_all(first)
        .and_then(|()| pipe.flush())
        .and_then(|()| pipe.write_all(second));
    drop(pipe);
    let output = program.wait_with_output().expect("tools/leaf ends");
    assert!(output.status.success(), "{:?}", output.status);
    output.stdout
}

fn atom(bytes: &str) -> String {
    format!("{}:{}", bytes.len(), bytes)
}

fn refused(number: u16) -> Vec<u8> {
    format!("(7:refused{})", atom(&number.to_string())).into_bytes()
}

/// The report of a run, but for its end program and the last bracket.
fn head(reason: Reason, steps: usize) -> String {
    let reason = match reason {
        Reason::Ended => "ended",
        Reason::Steps => "steps",
        Reason::Room => "room",
    };
    format!("({}{}", atom(reason), atom(&steps.to_string()))
}

/// The evaluator's report; none where the values grow past what copying can hold.
fn expected(input: &[u8]) -> Option<Vec<u8>> {
    let program = match read_operators_text(input) {
        Ok(program) => program,
        Err(number) => return Some(refused(number)),
    };
    let run = run_program(program, Size::SMALL.nodes, STEPS)?;
    let head = head(run.reason, run.rules.len());
    Some([head.as_bytes(), &write_text(&run.end), b")"].concat())
}

/// What the library's small calls make of a text, written as the program writes it: its report before it turned closures away.
fn by_library(input: &[u8]) -> Vec<u8> {
    let lengths = Lengths::for_nodes(small::NODES);
    let (mut table, mut work) = (OwnTable::empty(lengths), OwnTable::empty(lengths));
    let run = small::read(input, table.lent_mut())
        .and_then(|count| small::run(table.lent_mut(), count, work.lent_mut(), STEPS));
    let stop = match run {
        Ok(stop) => stop,
        Err(refusal) => return refused(refusal.number()),
    };
    let mut text = vec![0; small::TEXT];
    let length = small::write(table.lent(), stop.nodes, &mut text).expect("an end is written");
    let head = head(stop.reason, stop.steps as usize);
    [head.as_bytes(), &text[..length], b")"].concat()
}

/// What the program writes for a text: the evaluator's report, and the library's but where a closure is turned away. That is so exactly if the tag of
/// a closure stands in a text that 2 to 7 let pass: a tag is one byte, and no other atom begins a list.
fn reported(text: &[u8]) -> Vec<u8> {
    let written = leaf(text);
    let shown = |report: &[u8]| String::from_utf8_lossy(report).into_owned();
    let by_library = by_library(text);
    if written == refused(CLOSURE) {
        let before = shown(&by_library);
        assert!(
            !before.starts_with("(7:refused") || by_library == refused(8),
            "{before} for the input {}",
            shown(text)
        );
    } else {
        assert_eq!(shown(&written), shown(&by_library), "{}", shown(text));
    }
    let others: Vec<_> = (2..=7).map(refused).collect();
    if !others.contains(&written) {
        let tagged = text.windows(4).any(|bytes| bytes == b"(1:L");
        assert_eq!(written == refused(CLOSURE), tagged, "{}", shown(text));
    }
    if let Some(report) = on_big_stack(|| expected(text)) {
        assert_eq!(shown(&written), shown(&report), "{}", shown(text));
    }
    written
}

/// How a report begins: its reason, or its refusal with the number.
fn first(report: &[u8]) -> String {
    let report = String::from_utf8_lossy(report);
    for reason in ["ended", "steps", "room"] {
        if report.starts_with(&format!("({}", atom(reason))) {
            return reason.to_string();
        }
    }
    let number = report.rsplit(':').next().expect("a number");
    format!("refused {}", number.trim_end_matches(')'))
}

/// Texts on either side of each limit of 2,048 nodes, and such as only a larger library takes.
fn at_the_limits() -> Vec<Vec<u8>> {
    let mut texts: Vec<Vec<u8>> = [
        "((1:x4:2047))",
        "((1:x4:2048))",
        "((1:x5:16383))",
        "((1:L4:2047((1:v1:0))))",
        "((1:L4:2048((1:v1:0))))",
        "((1:v4:2047))",
        "((1:v4:2048))",
        "((1:c5:65535))",
        "((1:c5:65536))",
    ]
    .iter()
    .map(|text| text.as_bytes().to_vec())
    .collect();
    for levels in [2045, 2046, 4913, 4914, 16_381] {
        let (heads, tails) = ("(1:n".repeat(levels), ")".repeat(levels));
        texts.push(format!("({heads}(1:c1:1){tails})").into_bytes());
    }
    for bytes in [24_576, 24_577, 73_728, 196_608] {
        texts.push(vec![b'('; bytes]);
    }
    texts
}

/// A text for each reason and each refusal that the program gives.
fn known() -> Vec<Vec<u8>> {
    let mut texts: Vec<Vec<u8>> = [
        "()",
        "((1:n(1:g(1:u(1:v1:0)(1:c1:1))(1:v1:0))))",
        "((1:a(1:L1:0((1:a(1:v1:0)(1:v1:0))))(1:L1:0((1:a(1:v1:0)(1:v1:0))))))",
        "((1:a(1:l((1:a(1:v1:0)(1:v1:0))))(1:l((1:a(1:v1:0)(1:v1:0))))))",
        "((1:a(1:l((1:a(1:c1:1)(1:a(1:v1:0)(1:v1:0)))))(1:l((1:a(1:c1:1)(1:a(1:v1:0)(1:v1:0)))))))",
        "",
        "()\n",
        "1:c",
        "((1:c2:01))",
        "((1:v1:0))",
        "((1:n(1:L1:0((1:v1:1)))))",
    ]
    .iter()
    .map(|text| text.as_bytes().to_vec())
    .collect();
    texts.extend(at_the_limits());
    for file in std::fs::read_dir(root().join("rules")).expect("rules/ is there") {
        let file = file.expect("a file of rules/").path();
        if file.extension().is_some_and(|e| e == "csexp") {
            texts.push(std::fs::read(file).expect("a rule set"));
        }
    }
    texts
}

#[test]
fn what_leaf_writes() {
    let mut random = Random::new(0x1eaf);
    let mut texts = known();
    // every other one of a larger library's, with numbers and node counts that this program refuses
    let sizes = Size::BOTH.into_iter().cycle().take(TEXTS);
    texts.extend(sizes.map(|size| generate::text(size, &mut random)));
    let mut told = BTreeMap::new();
    for text in &texts {
        *told.entry(first(&reported(text))).or_insert(0) += 1;
    }
    println!("{} inputs: {told:?}", texts.len());
    let all = [
        "ended",
        "steps",
        "room",
        "refused 2",
        "refused 3",
        "refused 4",
        "refused 5",
        "refused 6",
        "refused 7",
        "refused 15",
    ];
    for first in all {
        assert!(told.contains_key(first), "no input gives {first}");
    }
    assert_eq!(told.len(), all.len(), "{told:?}");
}

#[test]
fn cases() {
    let mut number = 0;
    for line in lines(include_str!("cases/standard-input.txt")) {
        let mut words = line.splitn(3, ' ');
        let mut word = || words.next().unwrap_or("");
        let (name, output, input) = (word(), word(), written_out(word()));
        let written = String::from_utf8(reported(&input)).expect("a report is ASCII");
        match output.strip_suffix("..") {
            Some(beginning) => assert!(written.starts_with(beginning), "{name}: {written}"),
            None => assert_eq!(written, output, "{name}"),
        }
        number += 1;
    }
    println!("standard-input.txt: {number} cases");
}

/// A program with a closure in the place of the term that has the number `left`, by preorder; then `left` is none.
fn with_closure(program: &[Term], left: &mut Option<usize>) -> Program {
    program.iter().map(|t| closure_at(t, left)).collect()
}

fn closure_at(term: &Term, left: &mut Option<usize>) -> Term {
    *left = match *left {
        Some(0) => {
            *left = None;
            return Term::Allocated(0, Vec::new());
        }
        Some(k) => Some(k - 1),
        None => return term.clone(),
    };
    match term {
        Term::Bound(_) | Term::Free(_) | Term::Constructor(_) => term.clone(),
        Term::Abstraction(body) => Term::Abstraction(with_closure(body, left)),
        Term::Allocated(location, body) => Term::Allocated(*location, with_closure(body, left)),
        Term::Fresh(part) => fresh(closure_at(part, left)),
        Term::Application(l, r) => {
            let l = closure_at(l, left);
            application(l, closure_at(r, left))
        }
        Term::Guard(l, r) => {
            let l = closure_at(l, left);
            guard(l, closure_at(r, left))
        }
        Term::Unification(l, r) => {
            let l = closure_at(l, left);
            unification(l, closure_at(r, left))
        }
    }
}

/// "a text that holds kind 6 anywhere": a closure in the place of each term of a program that is taken.
#[test]
fn a_closure_anywhere() {
    let rules = [
        &b"((1:n(1:g(1:u(1:v1:0)(1:c1:1))(1:v1:0))))"[..],
        b"((1:l((1:c1:1)(1:a(1:c1:2)(1:l((1:v1:1)(1:v1:0))))(1:n(1:u(1:v1:0)(1:v1:1)))))(1:x1:3))",
        include_bytes!("../../../rules/two-tenants.csexp"),
        include_bytes!("../../../rules/accident.csexp"),
    ];
    let mut number = 0;
    for text in rules {
        let program = read_operators_text(text).expect("it is taken");
        assert!(!leaf(text).starts_with(b"(7:refused"));
        for place in 0.. {
            let mut left = Some(place);
            let damaged = with_closure(&program, &mut left);
            if left.is_some() {
                break;
            }
            let written = reported(&write_text(&damaged));
            assert_eq!(written, refused(CLOSURE), "{place}");
            number += 1;
        }
    }
    println!("{number} places");
    assert!(number > 100);
}

/// "a stopped run is stored as text and read back": by the library, which goes on where the program stopped, and not by the program.
#[test]
fn a_stored_run_goes_on() {
    const MORE: u32 = 100;
    // guards pile up
    let rule = "(1:l((1:n(1:g(1:u(1:a(1:c1:1)(1:v1:0))(1:v1:1))(1:a(1:v1:0)(1:v1:1))))))";
    let rules = format!("((1:a{rule}(1:a(1:c1:1){rule}))(1:c1:2))").into_bytes();
    let program = read_operators_text(&rules).expect("it is taken");
    let stopped = run_program(program, Size::SMALL.nodes, STEPS).expect("it stays small");
    assert_eq!(stopped.reason, Reason::Room);
    let steps = stopped.rules.len();
    let stored = write_text(&stopped.end);
    let report = [head(Reason::Room, steps).as_bytes(), &stored, b")"].concat();
    assert_eq!(leaf(&rules), report);
    assert_eq!(leaf(&stored), refused(CLOSURE));
    let goes_on = |text: &[u8], most: u32| {
        let lengths = Lengths::for_nodes(NODES);
        let (mut table, mut work) = (OwnTable::empty(lengths), OwnTable::empty(lengths));
        let count = read(text, table.lent_mut()).expect("the library reads it");
        let stop = run(table.lent_mut(), count, work.lent_mut(), most).expect("and runs it");
        (stop.reason, stop.nodes, table)
    };
    let whole = goes_on(&rules, steps as u32 + MORE);
    assert!(goes_on(&stored, MORE) == whole);
    assert_eq!(whole.0, Reason::Steps);
}
