//! The cases of request 10, each as a single step by the library, the evaluator and the baseline; how far the baseline comes where values double;
//! and the rule sets, run by it to their ends.

use mespindro::{Move, Reason, Refusal, Rule, Stop};
use mespindro_tests::baseline::Baseline;
use mespindro_tests::evaluator::table::{write_table, OwnTable};
use mespindro_tests::evaluator::text::read_text;
use mespindro_tests::evaluator::tree::{
    application, guard, program_size, unification, Program, Term,
};
use mespindro_tests::evaluator::{self, Lengths, Size};
use mespindro_tests::lending::BEFORE;
use mespindro_tests::library::Library;
use mespindro_tests::{on_big_stack, short};
use rules::run::STEPS;
use std::path::Path;

/// What a step answers and the numbers of its result.
type Stepped = Result<(Move, Vec<u16>), Refusal>;

fn by_library(size: Size, program: &Program) -> Stepped {
    let (table, mut out) = (OwnTable::of(program), OwnTable::empty(Lengths::FULL));
    let made = (Library::at(size).step)(table.lent(), table.nodes(), out.lent_mut())?;
    Ok((made, front(&out.numbers, made.nodes)))
}

fn by_evaluator(size: Size, program: &Program) -> Option<Stepped> {
    let table = OwnTable::of(program);
    let stepped = evaluator::step(size, table.lent(), table.nodes(), Lengths::FULL)?;
    Some(stepped.map(|(made, result)| (made, result.numbers)))
}

fn by_baseline(baseline: &mut Baseline, program: &Program) -> Option<Stepped> {
    let table = OwnTable::of(program);
    let mut out = OwnTable::empty(Lengths::FULL).numbers;
    let stepped = baseline.step(&table.numbers, table.nodes(), &mut out)?;
    Some(stepped.map(|made| (made, front(&out, made.nodes))))
}

/// The numbers of a result, behind which nothing is written.
fn front(out: &[u16], nodes: usize) -> Vec<u16> {
    let (front, rest) = out.split_at(2 * nodes);
    assert!(rest.iter().all(|number| *number == BEFORE));
    front.to_vec()
}

/// What all three come to.
fn by_all(size: Size, program: &Program) -> Stepped {
    let stepped = by_library(size, program);
    assert_eq!(by_evaluator(size, program).as_ref(), Some(&stepped));
    let baseline = &mut Baseline::new(size);
    assert_eq!(by_baseline(baseline, program).as_ref(), Some(&stepped));
    stepped
}

/// A step in the first thread to this program.
fn to(rule: Rule, program: &Program) -> Stepped {
    let result = OwnTable::of(program);
    let made = Move {
        nodes: result.nodes(),
        rule,
        thread: 0,
    };
    Ok((made, result.numbers))
}

/// The goals of the request and what they become; without a unifier, nothing.
const GOALS: [(&str, &str); 10] = [
    (
        "((g (u (a (a c1 x0) x1) (a (a c1 x1) c2)) (a (a c3 x0) x1)))",
        "((g c0 (a (a c3 c2) c2)))",
    ),
    (
        "((g (u (a (a c1 x2) x1) (a (a c1 x1) x0)) (a (a c3 x2) x1)))",
        "((g c0 (a (a c3 x0) x0)))",
    ),
    ("((g (u (a c1 x3) (a c1 x1)) x3))", "((g c0 x1))"),
    (
        "((g (u x0 (L 0 (x1))) (L 1 (x0))))",
        "((g c0 (L 1 ((L 0 (x1))))))",
    ),
    (
        "((a (a c9 (L 0 (x1))) (u x1 (L 1 (b0)))))",
        "((a (a c9 (L 0 ((L 1 (b0))))) c0))",
    ),
    (
        "((u (a (a c1 x0) x1) (a (a c1 (L 0 (x1))) (L 1 (x0)))))",
        "()",
    ),
    ("((u x0 (a c1 x0)))", "()"),
    ("((u x0 x0))", "(c0)"),
    ("((g (u (L 0 (x0)) (L 0 (x0))) x0))", "((g c0 x0))"),
    ("((u (a (a c1 c2) c3) (a c1 c2)))", "()"),
];

#[test]
fn goals_of_the_request() {
    for (goal, result) in GOALS {
        let rule = match result {
            "()" => Rule::Fail,
            _ => Rule::Unif,
        };
        let expected = to(rule, &short::program(result));
        for size in Size::BOTH {
            assert_eq!(by_all(size, &short::program(goal)), expected, "{goal}");
        }
    }
}

/// A structure of so many arguments.
fn row(length: u16, argument: impl Fn(u16) -> Term) -> Term {
    (0..length).fold(Term::Constructor(9), |row, i| application(row, argument(i)))
}

fn pair(x: u16) -> Term {
    application(
        application(Term::Constructor(8), Term::Free(x)),
        Term::Free(x),
    )
}

/// D(n): x(i+1) against `(a (a c8 xi) xi)`, so that the value of each variable has twice the one before it.
fn doubling(levels: u16) -> Term {
    unification(row(levels, |i| Term::Free(i + 1)), row(levels, pair))
}

/// D(n) as the left part of a guard whose right part is its last variable.
fn used(levels: u16) -> Program {
    vec![guard(doubling(levels), Term::Free(levels))]
}

/// How many nodes the step has, or its refusal.
fn nodes(stepped: Stepped) -> Result<usize, Refusal> {
    stepped.map(|(made, _)| made.nodes)
}

#[test]
fn values_that_double() {
    let too_many = Err(Refusal::TooManyNodes);
    let cases = [
        (Size::SMALL, 8, Ok(1_025)),
        (Size::SMALL, 9, too_many),
        (Size::SMALL, 10, too_many),
        (Size::LARGE, 8, Ok(1_025)),
        (Size::LARGE, 9, Ok(2_049)),
        (Size::LARGE, 10, Ok(4_097)),
        (Size::LARGE, 11, Ok(8_193)),
        (Size::LARGE, 12, too_many),
    ];
    on_big_stack(|| {
        for (size, levels, expected) in cases {
            let told = nodes(by_all(size, &used(levels)));
            assert_eq!(told, expected, "D({levels}), {size:?}");
        }
    });
}

/// A huge value for a variable that no longer occurs costs nothing: not even a node of room.
#[test]
fn values_that_are_gone() {
    let ok = to(Rule::Unif, &vec![Term::Constructor(0)]);
    on_big_stack(|| {
        for size in Size::BOTH {
            for levels in 1..=12 {
                assert_eq!(by_all(size, &vec![doubling(levels)]), ok, "D({levels})");
            }
            let mut baseline = Baseline::new(size);
            for levels in 13..=18 {
                let goal = vec![doubling(levels)];
                assert_eq!(by_library(size, &goal), ok, "D({levels})");
                let told = by_baseline(&mut baseline, &goal);
                assert_eq!(told.as_ref(), Some(&ok), "D({levels})");
            }
        }
    });
}

/// In a run too, with no more room than the program has: D(11) is gone, D(8) is not.
#[test]
fn room_is_judged_on_the_result() {
    let cases = [
        (vec![doubling(11)], (Reason::Ended, 3, 1)),
        (used(8), (Reason::Room, 71, 0)),
    ];
    on_big_stack(|| {
        for (program, expected) in cases {
            let mut table = OwnTable::of(&program);
            let count = table.nodes();
            let (mut numbers, mut work) = (table.numbers.clone(), table.numbers.clone());
            let by_baseline = Baseline::new(Size::SMALL)
                .run(&mut numbers, count, &mut work, 100)
                .expect("small enough")
                .expect("a run");
            let mut lent = OwnTable::empty(Lengths::for_nodes(count));
            let run = Library::at(Size::SMALL).run;
            let by_library = run(table.lent_mut(), count, lent.lent_mut(), 100);
            assert_eq!(Ok(by_baseline), by_library);
            assert_eq!(told(&by_baseline), expected);
            assert_eq!(numbers, table.numbers);
        }
    });
}

fn told(stop: &Stop) -> (Reason, usize, u32) {
    (stop.reason, stop.nodes, stop.steps)
}

/// Where the library comes to its end and a program that copies does not: more nodes copied than its cap, or walked. What it has left in its
/// memory then does not matter to the next call.
#[test]
fn too_large_to_copy() {
    let ok = to(Rule::Unif, &vec![Term::Constructor(0)]);
    on_big_stack(|| {
        for size in Size::BOTH {
            let mut baseline = Baseline::new(size);
            let goals = [doubling(19), doubling(255), walked_again(16, 30)];
            for goal in goals.map(|goal| vec![goal]) {
                assert_eq!(by_library(size, &goal), ok);
                assert_eq!(by_evaluator(size, &goal), None);
                assert_eq!(by_baseline(&mut baseline, &goal), None);
                let after = by_baseline(&mut baseline, &used(8));
                assert_eq!(after.map(nodes), Some(Ok(1_025)));
            }
        }
    });
}

/// Two doublings of as many levels, over the even and the odd variables, and then their last variables against each other, so many times.
fn walked_again(levels: u16, times: u16) -> Term {
    let doubled = 2 * levels;
    let left = (0..doubled).map(|i| Term::Free(i + 2));
    let right = (0..doubled).map(pair);
    let last = |x| (0..times).map(move |_| Term::Free(x));
    let row = |arguments: Vec<Term>| {
        arguments
            .into_iter()
            .fold(Term::Constructor(9), application)
    };
    unification(
        row(left.chain(last(doubled)).collect()),
        row(right.chain(last(doubled + 1)).collect()),
    )
}

/// The names of the rule sets and their texts.
fn rule_sets() -> Vec<(String, Vec<u8>)> {
    let folder = Path::new(env!("CARGO_MANIFEST_DIR")).join("../../rules");
    let entries = std::fs::read_dir(folder).expect("rules/");
    let files = entries.map(|entry| entry.expect("a file").path());
    let texts = files.filter(|file| file.extension().is_some_and(|end| end == "csexp"));
    texts
        .map(|file| {
            let text = std::fs::read(&file).expect("a text");
            (file.display().to_string(), text)
        })
        .collect()
}

/// A run of a program in tables for every program of the size, by the library: how it stopped, and the numbers it left.
fn run_by_library(size: Size, program: &Program) -> (Stop, Vec<u16>) {
    let lengths = Lengths::for_nodes(size.nodes);
    let (mut table, mut work) = (OwnTable::empty(lengths), OwnTable::empty(lengths));
    let exact = OwnTable::of(program);
    table.numbers[..2 * exact.nodes()].copy_from_slice(&exact.numbers);
    table.column[..exact.nodes()].copy_from_slice(&exact.column);
    let run = Library::at(size).run;
    let stop = run(table.lent_mut(), exact.nodes(), work.lent_mut(), STEPS);
    (stop.expect("a run"), table.numbers)
}

/// The same by the baseline.
fn run_by_baseline(size: Size, program: &Program) -> (Stop, Vec<u16>) {
    let lengths = Lengths::for_nodes(size.nodes);
    let mut numbers = OwnTable::within(program, lengths).numbers;
    let mut work = OwnTable::empty(lengths).numbers;
    let count = program_size(program);
    let stop = Baseline::new(size).run(&mut numbers, count, &mut work, STEPS);
    assert!(work.iter().all(|number| *number == 0));
    (stop.expect("small enough").expect("a run"), numbers)
}

#[test]
fn rule_sets_to_their_ends() {
    let sets = rule_sets();
    assert!(sets.len() >= 5, "only {} rule sets", sets.len());
    on_big_stack(|| {
        for (name, text) in &sets {
            let program = read_text(Size::SMALL, text).expect("a rule set");
            for size in Size::BOTH {
                let end = run_by_baseline(size, &program);
                assert_eq!(end, run_by_library(size, &program), "{name}, {size:?}");
            }
            let by_evaluator = evaluator::run_program(program.clone(), Size::SMALL.nodes, STEPS);
            let by_evaluator = by_evaluator.expect("small enough");
            let (stop, numbers) = run_by_baseline(Size::SMALL, &program);
            assert_eq!(stop, by_evaluator.stop(), "{name}");
            assert!(
                numbers.starts_with(&write_table(&by_evaluator.end)),
                "{name}"
            );
        }
    });
    println!("{} rule sets came to their ends", sets.len());
}
