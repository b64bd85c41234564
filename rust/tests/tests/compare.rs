//! The library against the evaluator and the baseline, call by call, on random inputs of fixed seeds, at both sizes.

use mespindro::{Reason, Refusal, Rule, Table};
use mespindro_tests::calls::{on_damaged_column, on_program, on_text, random_calls};
use mespindro_tests::compare::{self, Call, Outcome, Tally};
use mespindro_tests::damage::Damage;
use mespindro_tests::evaluator::step::{step, Step};
use mespindro_tests::evaluator::table::{write_table, OwnTable};
use mespindro_tests::evaluator::tree::{application, fresh, program_size, Program, Term};
use mespindro_tests::evaluator::{self, Lengths, Size};
use mespindro_tests::random::Random;
use mespindro_tests::{generate, on_big_stack, short};
use std::collections::BTreeMap;

/// Compares the calls on random inputs, so many at each size, and prints how many there were.
fn compare_many(
    name: &str,
    seed: u64,
    inputs: [usize; 2],
    make: impl Fn(Size, &mut Random) -> Vec<Call> + Sync,
) -> Tally {
    let tally = on_big_stack(|| {
        let mut random = Random::new(seed);
        let mut tally = Tally::default();
        for (size, inputs) in Size::BOTH.into_iter().zip(inputs) {
            for input in 0..inputs {
                for call in make(size, &mut random) {
                    if let Err(difference) = tally.compare(size, &call) {
                        panic!(
                            "{name}, {size:?}, seed {seed}, input {input}: {difference}\n{call:?}"
                        );
                    }
                }
            }
        }
        tally
    });
    println!("{name}: {inputs:?} inputs, {tally}");
    tally
}

/// Compares one call at each size.
fn compare_at_both(tally: &mut Tally, call: &Call) {
    for size in Size::BOTH {
        tally.compare(size, call).unwrap();
    }
}

#[test]
fn texts() {
    compare_many("texts", 1, [20_000, 4_000], |size, random| {
        on_text(size, &generate::text(size, random))
    });
}

#[test]
fn sound_programs() {
    compare_many("sound programs", 2, [3_500, 700], |size, random| {
        on_program(size, &generate::sound_program(size, random), random)
    });
}

#[test]
fn faulty_programs() {
    compare_many("faulty programs", 3, [2_500, 500], |size, random| {
        on_program(size, &generate::faulty_program(size, random), random)
    });
}

#[test]
fn all_kinds_of_inputs() {
    compare_many("all kinds", 4, [6_000, 1_000], random_calls);
}

#[test]
fn worked_programs() {
    compare_many("worked programs", 5, [1_000, 300], |size, random| {
        on_program(size, &generate::worked_program(size, random), random)
    });
}

#[test]
fn large_programs() {
    compare_many("large programs", 6, [30, 30], |size, random| {
        on_program(size, &generate::large_program(size, random), random)
    });
}

#[test]
fn goals() {
    let tally = compare_many("goals", 7, [600, 150], |size, random| {
        on_program(size, &generate::goals_program(size, random), random)
    });
    assert!(tally.unif > 500 && tally.fail > 500);
}

/// Every goal that programs come to, step by step: the library, the evaluator and the baseline make the same of it.
#[test]
fn goals_on_the_way() {
    type Make = fn(Size, &mut Random) -> Program;
    let kinds: [(&str, [usize; 2], Make); 4] = [
        ("goals", [10_000, 2_000], generate::goals_program),
        ("sound programs", [6_000, 1_000], generate::sound_program),
        ("worked programs", [4_000, 1_000], generate::worked_program),
        ("large programs", [100, 30], generate::large_program),
    ];
    for (seed, (name, inputs, make)) in (300..).zip(kinds) {
        let name = format!("on the way of {name}");
        let tally = compare_many(&name, seed, inputs, |size, random| {
            goals_of(size, make(size, random))
        });
        assert!(tally.unif > 100 && tally.fail > 100, "{name}");
    }
}

/// A step by unif or fail is asked for at each of the first programs that take one.
fn goals_of(size: Size, mut program: Program) -> Vec<Call> {
    let mut calls = Vec::new();
    for _ in 0..60 {
        let Step::To(rule, _, next) = step(&program) else {
            break;
        };
        if matches!(rule, Rule::Unif | Rule::Fail) {
            let table = OwnTable::of(&program);
            calls.push(Call::Step {
                count: table.column.len(),
                table,
                out: Lengths::for_nodes(size.nodes),
            });
        }
        if program_size(&next) > size.nodes {
            break;
        }
        program = next;
    }
    calls
}

/// A column that is wrong in any way gives 14, whatever else is wrong with the program.
#[test]
fn damaged_columns() {
    for (seed, damage) in (100..).zip(Damage::ALL) {
        let name = format!("{damage:?} columns");
        let tally = compare_many(&name, seed, [1_000, 100], |size, random| {
            let program = match random.below(3) {
                0 => generate::faulty_program(size, random),
                1 => generate::worked_program(size, random),
                _ => generate::sound_program(size, random),
            };
            on_damaged_column(size, &OwnTable::of(&program), damage, random)
        });
        // too many nodes are no program
        let (none, wrong) = (tally.refused[1], tally.refused[14]);
        assert!(wrong > 2_000 && none + wrong == tally.compared(), "{name}");
    }
}

/// Each entry of a program, with each wrong number that a jump could take for right.
#[test]
fn every_entry() {
    on_big_stack(|| {
        let mut random = Random::new(9);
        let mut tally = Tally::default();
        for _ in 0..300 {
            let program = generate::worked_program(Size::SMALL, &mut random);
            let right = OwnTable::of(&program);
            let count = right.column.len();
            for place in (0..count).filter(|_| count < 150) {
                let (entry, left) = (right.column[place], (count - place) as u16);
                for wrong in [0, 1, entry - 1, entry + 1, left, left + 1, 65535] {
                    let mut table = right.clone();
                    table.column[place] = wrong;
                    compare_at_both(&mut tally, &Call::Standing { table, count, k: 0 });
                }
            }
        }
        println!("every entry: {tally}");
    });
}

/// All columns of all shapes of up to five nodes, numbers up to one more than the count.
#[test]
fn every_small_column() {
    let mut tally = Tally::default();
    for program in (1..=5).flat_map(lists_of) {
        let right = OwnTable::of(&program);
        let count = right.column.len();
        for length in 0..=count {
            for column in columns(length, count as u16 + 1) {
                let table = OwnTable {
                    numbers: right.numbers.clone(),
                    column,
                };
                compare_at_both(&mut tally, &Call::Standing { table, count, k: 0 });
            }
        }
    }
    println!("every small column: {tally}");
    // at each size, one right column a shape: (), (c1), two of four nodes and four of five; () has no thread
    assert_eq!((tally.accepted, tally.refused[10]), (14, 2));
}

/// All columns of a length with numbers up to a last.
fn columns(length: usize, last: u16) -> Vec<Vec<u16>> {
    if length == 0 {
        return vec![Vec::new()];
    }
    let shorter = columns(length - 1, last);
    let longer = |column: Vec<u16>| (0..=last).map(move |n| [&column[..], &[n]].concat());
    shorter.into_iter().flat_map(longer).collect()
}

/// The programs of so many nodes, one of each shape.
fn lists_of(nodes: usize) -> Vec<Program> {
    if nodes < 2 {
        return vec![Vec::new(); nodes];
    }
    let mut lists = Vec::new();
    for size in 1..nodes - 1 {
        for term in terms_of(size) {
            for rest in lists_of(nodes - 1 - size) {
                lists.push([vec![term.clone()], rest].concat());
            }
        }
    }
    lists
}

fn terms_of(nodes: usize) -> Vec<Term> {
    if nodes == 1 {
        return vec![Term::Constructor(1)];
    }
    let mut terms: Vec<Term> = terms_of(nodes - 1).into_iter().map(fresh).collect();
    terms.extend(lists_of(nodes - 1).into_iter().map(Term::Abstraction));
    for size in 1..nodes - 1 {
        for left in terms_of(size) {
            let rights = terms_of(nodes - 1 - size).into_iter();
            terms.extend(rights.map(|right| application(left.clone(), right)));
        }
    }
    terms
}

/// A program of 17 nodes whose run has 19 at most.
const GROWS: &str = "((u (a (L 2 (b0)) (a (L 0 (b0 c1)) x1)) x2))";

/// Each of a run's four lengths, around the program's size and the largest on its way.
#[test]
fn room_by_each_length() {
    let right = OwnTable::of(&short::program(GROWS));
    let mut tally = Tally::default();
    let lengths = |numbers: std::ops::RangeInclusive<usize>| {
        let all = numbers.flat_map(|numbers| (15..=20).map(move |column| (numbers, column)));
        all.map(|(numbers, column)| Lengths { numbers, column })
    };
    for table in lengths(34..=40) {
        for work in lengths(32..=40) {
            let mut lent = right.clone();
            lent.numbers.resize(table.numbers, 3);
            lent.column.resize(table.column, 3);
            let call = Call::Run {
                table: lent,
                count: 17,
                work,
                most: 60,
            };
            compare_at_both(&mut tally, &call);
        }
    }
    println!("room by each length: {tally}");
}

/// The random runs stop by room for want of each of the four.
#[test]
fn random_runs_stop_by_each_length() {
    let mut random = Random::new(10);
    let mut times = [0; 4];
    on_big_stack(|| {
        for _ in 0..1_000 {
            let program = generate::sound_program(Size::SMALL, &mut random);
            for call in on_program(Size::SMALL, &program, &mut random) {
                if let Some(which) = bounding_length(&call) {
                    times[which] += 1;
                }
            }
        }
    });
    println!("runs stop by room for want of numbers, column, work numbers, work column {times:?}");
    assert!(times.iter().all(|times| *times > 100));
}

/// Which of its four lengths a run stops by, if it stops by one of them.
fn bounding_length(call: &Call) -> Option<usize> {
    let Call::Run {
        table,
        count,
        work,
        most,
    } = call
    else {
        return None;
    };
    let (stop, _) = evaluator::run(Size::SMALL, table.lent(), *count, *work, *most)?.ok()?;
    let nodes = [
        table.numbers.len() / 2,
        table.column.len(),
        work.numbers / 2,
        work.column,
    ];
    let least = *nodes.iter().min()?;
    let bounded = stop.reason == Reason::Room && least < Size::SMALL.nodes;
    nodes.iter().position(|n| *n == least).filter(|_| bounded)
}

#[test]
fn columns_of_the_document() {
    let cases: [(&str, &[u16]); 8] = [
        ("()", &[1]),
        ("((n (g (u b0 c1) b0)))", &[8, 6, 5, 3, 1, 1, 1, 1]),
        ("((a (l (b0 c2)) c1))", &[10, 8, 6, 5, 1, 3, 1, 1, 1, 1]),
        ("((L 0 (c1)) x0)", &[8, 4, 3, 1, 1, 3, 1, 1]),
        ("((u c1 c2) c7)", &[7, 3, 1, 1, 3, 1, 1]),
        ("(c1 (g c1 c2))", &[7, 1, 5, 3, 1, 1, 1]),
        ("(c1 c2)", &[5, 1, 3, 1, 1]),
        (
            GROWS,
            &[17, 15, 13, 4, 3, 1, 1, 8, 6, 5, 1, 3, 1, 1, 1, 1, 1],
        ),
    ];
    for (program, column) in cases {
        let table = OwnTable::of(&short::program(program));
        assert_eq!(table.column, column, "{program}");
        // the library takes no other
        for size in Size::BOTH {
            let told = compare::standing(size, table.lent(), column.len(), usize::MAX);
            let none = Outcome::Refused(Refusal::NoThread);
            assert_eq!(told, Ok(Some(none)), "{program}");
        }
    }
}

/// What the evaluator answers, once the library has answered the same.
fn step_in(
    program: &str,
    column: &[u16],
    out: Lengths,
) -> Result<(Rule, usize, Vec<u16>), Refusal> {
    let mut table = OwnTable::of(&short::program(program));
    let count = table.column.len();
    table.column = column.to_vec();
    for size in Size::BOTH {
        compare::step(size, table.lent(), count, out).unwrap();
    }
    let told = evaluator::step(Size::SMALL, table.lent(), count, out).unwrap();
    told.map(|(made, result)| (made.rule, made.thread, result.column))
}

#[test]
fn steps_of_the_document() {
    let any = Lengths::for_nodes(Size::SMALL.nodes);
    let first = "((n (g (u b0 c1) b0)))";
    assert_eq!(
        step_in(first, &[8, 6, 5, 3, 1, 1, 1, 1], any),
        Ok((Rule::Fresh, 0, vec![7, 5, 3, 1, 1, 1, 1]))
    );
    assert_eq!(
        step_in("((u c1 c2) c7)", &[7, 3, 1, 1, 3, 1, 1], any),
        Ok((Rule::Fail, 0, vec![3, 1, 1]))
    );
    let (guard, right) = ("(c1 (g c1 c2))", [7, 1, 5, 3, 1, 1, 1]);
    let made = Ok((Rule::Guard, 1, vec![5, 1, 3, 1, 1]));
    assert_eq!(step_in(guard, &right, any), made);
    assert_eq!(step_in(guard, &right, Lengths::for_nodes(5)), made);
    let short_column = Lengths { column: 4, ..any };
    assert_eq!(step_in(guard, &right, short_column), Err(Refusal::NoRoom));
    for wrong in [&[7, 1, 5, 3, 1, 1][..], &[7, 1, 5, 3, 1, 1, 2]] {
        assert_eq!(step_in(guard, wrong, any), Err(Refusal::WrongColumn));
    }
    let none = Lengths::for_nodes(0);
    assert_eq!(step_in("(c1)", &[3, 1, 1], none), Err(Refusal::Finished));
}

#[test]
fn standings_of_the_document() {
    let none = Vec::new();
    let loose = vec![Term::Bound(0)];
    let incoherent = short::program("((L 0 (c1)) (a c1 (a (L 0 (c1)) (L 0 (c2)))))");
    let right = [18, 4, 3, 1, 1, 13, 11, 1, 9, 4, 3, 1, 1, 4, 3, 1, 1, 1];
    let cases: [(&Program, &[u16], Refusal); 7] = [
        (&none, &[1], Refusal::NoThread),
        (&none, &[0], Refusal::WrongColumn),
        (&none, &[], Refusal::WrongColumn),
        (&none, &[1, 77], Refusal::NoThread),
        (&loose, &[3, 1, 1], Refusal::NoBinder),
        (&loose, &[3, 2, 1], Refusal::WrongColumn),
        (&incoherent, &right, Refusal::Incoherent),
    ];
    for (program, column, refusal) in cases {
        assert_eq!(first_standing(program, column), refusal, "{program:?}");
    }
    for place in 0..right.len() {
        let mut column = right;
        column[place] += 1;
        let told = first_standing(&incoherent, &column);
        assert_eq!(told, Refusal::WrongColumn, "entry {place}");
    }
    // where no program stands there is no subtree, and any column will do
    for size in Size::BOTH {
        let told = compare::standing(size, Table::new(&[1, 0], &[1]), 1, 0);
        assert_eq!(told, Ok(Some(Outcome::Refused(Refusal::NoProgram))));
    }
}

/// How both refuse the standing of a program's first thread.
fn first_standing(program: &Program, column: &[u16]) -> Refusal {
    let numbers = write_table(program);
    let table = Table::new(&numbers, column);
    let [small, large] =
        Size::BOTH.map(|size| compare::standing(size, table, numbers.len() / 2, 0));
    assert_eq!(small, large);
    match small.unwrap() {
        Some(Outcome::Refused(refusal)) => refusal,
        other => panic!("{other:?}"),
    }
}

#[test]
fn reads_of_the_document() {
    let lengths = |numbers, column| Lengths { numbers, column };
    let cases: [(&[u8], Lengths, Outcome); 5] = [
        (b"()", lengths(2, 1), Outcome::Accepted),
        (b"()", lengths(2, 0), Outcome::Refused(Refusal::NoRoom)),
        (b"()", lengths(1, 1), Outcome::Refused(Refusal::NoRoom)),
        (
            b"((1:n(1:L1:0((1:v1:1)))))",
            lengths(0, 0),
            Outcome::Refused(Refusal::Incoherent),
        ),
        (
            b"((1:L1:0((1:v1:1))))",
            lengths(0, 0),
            Outcome::Refused(Refusal::NoBinder),
        ),
    ];
    for (text, out, outcome) in cases {
        for size in Size::BOTH {
            let told = compare::read(size, text, out);
            assert_eq!(told, Ok(Some(outcome)), "{}", text.escape_ascii());
        }
    }
}

/// A run of `GROWS` in tables of 37 nodes: the reason, the nodes and the steps.
fn grown(column: usize, work: usize) -> Result<(Reason, usize, u32), Refusal> {
    let mut table = OwnTable::of(&short::program(GROWS));
    table.numbers.resize(74, 9);
    table.column.resize(column, 9);
    let work = Lengths {
        numbers: 74,
        column: work,
    };
    for size in Size::BOTH {
        compare::run(size, table.lent(), 17, work, 1000).unwrap();
    }
    let told = evaluator::run(Size::SMALL, table.lent(), 17, work, 1000).unwrap();
    told.map(|(stop, _)| (stop.reason, stop.nodes, stop.steps))
}

#[test]
fn runs_of_the_document() {
    assert_eq!(grown(16, 40), Err(Refusal::WrongColumn));
    for column in [17, 18] {
        assert_eq!(grown(column, 40), Ok((Reason::Room, 17, 0)));
    }
    assert_eq!(grown(19, 40), Ok((Reason::Ended, 5, 5)));
    assert_eq!(grown(26, 16), Err(Refusal::NoRoom));
    assert_eq!(grown(26, 19), Ok((Reason::Ended, 5, 5)));
    let table = OwnTable::of(&short::program("((a (l (b0 c2)) c1))"));
    let work = Lengths::for_nodes(10);
    for size in Size::BOTH {
        compare::run(size, table.lent(), 10, work, 1000).unwrap();
    }
    let (stop, end) = evaluator::run(Size::SMALL, table.lent(), 10, work, 1000)
        .unwrap()
        .unwrap();
    assert_eq!((stop.reason, stop.steps), (Reason::Ended, 2));
    assert_eq!(end.column, [5, 1, 3, 1, 1]);
}

/// The random programs have something to do: every rule is taken and every reason given, many times.
#[test]
fn random_programs_take_every_rule() {
    let mut random = Random::new(8);
    let mut rules: BTreeMap<Rule, usize> = BTreeMap::new();
    let mut reasons = [0; 3];
    on_big_stack(|| {
        for _ in 0..5_000 {
            let mut program = generate::sound_program(Size::SMALL, &mut random);
            for _ in 0..60 {
                let Step::To(rule, _, next) = step(&program) else {
                    break;
                };
                *rules.entry(rule).or_default() += 1;
                if program_size(&next) > Size::SMALL.nodes {
                    reasons[2] += 1;
                    break;
                }
                program = next;
            }
            match step(&program) {
                Step::Finished => reasons[0] += 1,
                _ => reasons[1] += 1,
            }
        }
    });
    println!("5000 random programs take {rules:?}; ended, steps, room {reasons:?}");
    assert!(rules.len() == 6 && rules.values().all(|times| *times > 500));
}
