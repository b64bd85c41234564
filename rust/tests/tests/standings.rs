//! How threads stand: request 3's cases; and wherever in a long structure something unknown stands, it is found.

use mespindro::{Refusal, Standing};
use mespindro_tests::compare;
use mespindro_tests::evaluator::table::OwnTable;
use mespindro_tests::evaluator::tree::{application, Program, Term};
use mespindro_tests::evaluator::{self, Size};
use mespindro_tests::generate;
use mespindro_tests::library::at_both;
use mespindro_tests::on_big_stack;
use mespindro_tests::random::Random;
use mespindro_tests::short;

use Standing::{Answer, Open, Partial, Stuck};

/// What the library says of a thread, and the evaluator too.
fn standing(program: &Program, k: usize) -> Result<Standing, Refusal> {
    let table = OwnTable::of(program);
    let (table, count) = (table.lent(), table.nodes());
    for size in Size::BOTH {
        let told = compare::standing(size, table, count, k);
        told.unwrap_or_else(|difference| panic!("{difference}"));
    }
    at_both(|library| (library.standing)(table, count, k))
}

/// Request 3's cases: the first thread's standing.
#[test]
fn first_threads() {
    let cases = [
        ("(c1)", Answer),
        ("(x1)", Partial),
        ("((L 0 (c1)))", Partial),
        ("((L 0 ()))", Partial),
        ("((a c1 x0))", Partial),
        ("((a (a c3 c1) c2))", Answer),
        ("((a (a c3 (a c1 x7)) c2))", Partial),
        ("((a c1 (L 0 (c1))))", Partial),
        ("((a c0 c0))", Answer),
        ("((a x0 c1))", Stuck),
        ("((a c1 (a x0 c2)))", Stuck),
        ("((u (a x0 c1) c2))", Stuck),
        ("((g (a x0 c1) c2))", Stuck),
        ("((a (L 0 (c1)) (a x0 c1)))", Stuck),
        ("((n c1))", Open),
        ("((l ()))", Open),
        ("((a (L 0 (b0)) c1))", Open),
        ("((u x0 c1))", Open),
    ];
    for (program, expected) in cases {
        assert_eq!(
            standing(&short::program(program), 0),
            Ok(expected),
            "{program}"
        );
    }
    println!("{} programs", cases.len());
}

/// Threads further on, and refusals.
#[test]
fn further_threads() {
    let mixed = short::program("(c1 x0 (L 0 (b0)) (a x0 c1) (n b0))");
    for (k, expected) in [Answer, Partial, Partial, Stuck, Open]
        .into_iter()
        .enumerate()
    {
        assert_eq!(standing(&mixed, k), Ok(expected), "thread {k}");
    }
    assert_eq!(standing(&mixed, 5), Err(Refusal::NoThread));
    // a partial thread before an answer, and one after: each is told by itself
    let order = short::program("(x0 c1 (a c1 x0))");
    for (k, expected) in [Partial, Answer, Partial].into_iter().enumerate() {
        assert_eq!(standing(&order, k), Ok(expected), "thread {k}");
    }
    let incoherent = short::program("((a c1 c2) (a (L 0 (c1)) (L 0 (c2))))");
    assert_eq!(standing(&incoherent, 0), Err(Refusal::Incoherent));
    let loose = OwnTable::of_numbers(&[1, 0, 4, 1, 1, 0, 2, 0, 0, 0], 5);
    let told = at_both(|library| (library.standing)(loose.lent(), 5, 0));
    assert_eq!(told, Err(Refusal::NoBinder));
}

/// A constructor applied to the parts one after another; or a list of the parts, whose tail is the last one.
fn chain(parts: &[Term], right: bool) -> Term {
    let (first, last) = (Term::Constructor(1), parts.last().expect("a part").clone());
    let pair = |head: &Term| application(first.clone(), head.clone());
    match right {
        false => parts.iter().cloned().fold(first, application),
        true => {
            let heads = parts[..parts.len() - 1].iter().rev();
            heads.fold(last, |tail, head| application(pair(head), tail))
        }
    }
}

/// A structure of about 2,000 nodes is an answer; with one variable or closure in it, whichever argument that is, it is partial.
#[test]
fn one_unknown_anywhere() {
    let closure = Term::Allocated(0, vec![Term::Constructor(1)]);
    let mut tried = 0;
    for (right, length) in [(false, 999), (true, 500)] {
        let mut parts = vec![Term::Constructor(2); length];
        assert_eq!(standing(&vec![chain(&parts, right)], 0), Ok(Answer));
        for place in 0..length {
            for unknown in [Term::Free(0), closure.clone()] {
                parts[place] = unknown;
                let table = OwnTable::of(&[chain(&parts, right)]);
                let told = at_both(|library| (library.standing)(table.lent(), table.nodes(), 0));
                assert_eq!(told, Ok(Partial), "argument {place}");
                tried += 1;
            }
            parts[place] = Term::Constructor(2);
        }
    }
    println!("{tried} structures with one unknown");
}

/// By the kinds alone: a thread that is not open is an answer exactly if none of its nodes has kind 3 or 6. Asked of random programs as they
/// are and after some steps, so that every standing occurs.
#[test]
fn by_kinds() {
    let mut told = [0; 4];
    on_big_stack(|| {
        let mut random = Random::new(3);
        for _ in 0..5_000 {
            let program = generate::sound_program(Size::SMALL, &mut random);
            count_standings(&program, &mut told);
            if let Some(run) = evaluator::run_program(program, Size::SMALL.nodes, 30) {
                count_standings(&run.end, &mut told);
            }
        }
    });
    assert!(told.iter().all(|times| *times >= 500), "{told:?}");
    println!("answer, stuck, open, partial: {told:?}");
}

fn count_standings(program: &Program, told: &mut [usize; 4]) {
    let table = OwnTable::of(program);
    let (table, count) = (table.lent(), table.nodes());
    for (k, thread) in program.iter().enumerate() {
        let standing = at_both(|library| (library.standing)(table, count, k));
        let standing = standing.expect("a thread of a sound program");
        assert_eq!(standing, evaluator::step::standing(thread));
        let kinds = at_both(|library| (library.thread)(table, count, k).to_vec());
        let kinds = kinds.iter().step_by(2);
        let unknown = kinds.filter(|kind| [3, 6].contains(*kind)).count();
        assert_eq!(standing == Answer, standing != Open && unknown == 0);
        told[usize::from(standing.code()) - 1] += 1;
    }
}
