//! What each call leaves in lent memory, the same at both sizes.

use mespindro::{Move, Reason, Refusal, Rule, Standing, Stop};
use mespindro_tests::evaluator::counts;
use mespindro_tests::evaluator::table::OwnTable;
use mespindro_tests::library::at_both;

/// The table of `((g c1 c2))`, 5 nodes, and its column.
const G: [u16; 10] = [1, 0, 9, 0, 4, 1, 4, 2, 0, 0];
const G_COLUMN: [u16; 5] = [5, 3, 1, 1, 1];

/// Memory that holds these numbers, and a column.
fn memory(numbers: &[u16], column: &[u16]) -> OwnTable {
    OwnTable {
        numbers: numbers.to_vec(),
        column: column.to_vec(),
    }
}

/// That program with more numbers behind it and behind its column.
fn with(numbers: &[u16], column: &[u16]) -> OwnTable {
    memory(&[&G, numbers].concat(), &[&G_COLUMN, column].concat())
}

/// Runs and compares the answer and both tables with their columns.
fn run(
    (table, count): (&OwnTable, usize),
    work: &OwnTable,
    most: u32,
    expected: Result<Stop, Refusal>,
    (table_after, work_after): (&OwnTable, &OwnTable),
) {
    let (got, table, work) = at_both(|library| {
        let (mut table, mut work) = (table.clone(), work.clone());
        let got = (library.run)(table.lent_mut(), count, work.lent_mut(), most);
        (got, table, work)
    });
    assert_eq!(got, expected);
    assert_eq!(table, *table_after);
    assert_eq!(work, *work_after);
}

fn stop(reason: Reason, nodes: usize, rules: &[Rule]) -> Result<Stop, Refusal> {
    Ok(Stop {
        reason,
        nodes,
        steps: rules.len() as u32,
        counts: counts(rules),
    })
}

#[test]
fn accepted_runs_leave_zeros() {
    let b1 = with(&[77], &[66]);
    let b1_work = memory(&[5; 11], &[5; 7]);
    let zeros = memory(&[0; 11], &[0; 7]);
    let end = memory(&[1, 0, 4, 2, 0, 0, 0, 0, 0, 0, 0], &[3, 1, 1, 0, 0, 0]);
    let ended = stop(Reason::Ended, 3, &[Rule::Guard]);
    run((&b1, 5), &b1_work, 10, ended, (&end, &zeros));
    let steps = stop(Reason::Steps, 5, &[]);
    run((&b1, 5), &b1_work, 0, steps, (&with(&[0], &[0]), &zeros));
    // columns that are shorter and longer than their tables hold
    let b5 = with(&[7, 7], &[]);
    let b5_work = memory(&[5; 10], &[5; 20]);
    let zeros = memory(&[0; 10], &[0; 20]);
    let end = memory(&[1, 0, 4, 2, 0, 0, 0, 0, 0, 0, 0, 0], &[3, 1, 1, 0, 0]);
    run((&b5, 5), &b5_work, 10, ended, (&end, &zeros));
    let b6 = memory(&[0, 0, 7], &[1, 7, 7, 7]);
    let b6_work = memory(&[5; 3], &[5; 1]);
    let none = stop(Reason::Ended, 1, &[]);
    let after = (
        &memory(&[0, 0, 0], &[1, 0, 0, 0]),
        &memory(&[0; 3], &[0; 1]),
    );
    run((&b6, 1), &b6_work, 0, none, after);
    println!("B1, B2, B5, B6: 4 cases");
}

#[test]
fn refused_runs_change_nothing() {
    let kept = |table: &OwnTable, count, work: OwnTable, refusal| {
        run((table, count), &work, 10, Err(refusal), (table, &work));
    };
    let b3 = with(&[77], &[66]);
    kept(&b3, 5, memory(&[5; 9], &[5; 20]), Refusal::NoRoom);
    kept(&b3, 5, memory(&[5; 20], &[5; 4]), Refusal::NoRoom);
    let b4 = memory(&G[..9], &G_COLUMN);
    kept(&b4, 5, memory(&[5; 20], &[5; 20]), Refusal::NoProgram);
    let b7 = memory(&[0, 0, 7], &[1]);
    kept(&b7, 1, memory(&[5], &[5]), Refusal::NoRoom);
    let b8 = memory(&[1, 0, 2, 0, 0, 0], &[3, 1, 1]);
    kept(&b8, 3, memory(&[], &[]), Refusal::NoBinder);
    let short = memory(&G, &G_COLUMN[..4]);
    kept(&short, 5, memory(&[5; 20], &[5; 20]), Refusal::WrongColumn);
    println!("B3, B4, B7, B8, and two of columns: 6 cases");
}

/// A step of `((g c1 c2))` into memory of 5s that then holds this.
fn step(expected: Result<Move, Refusal>, numbers: &[u16], column: &[u16]) {
    let table = with(&[], &[]);
    let left = at_both(|library| {
        let mut out = memory(&vec![5; numbers.len()], &vec![5; column.len()]);
        let got = (library.step)(table.lent(), 5, out.lent_mut());
        (got, out)
    });
    assert_eq!(left, (expected, memory(numbers, column)));
}

#[test]
fn a_step_fills_the_front_of_its_output() {
    let made = Ok(Move {
        nodes: 3,
        rule: Rule::Guard,
        thread: 0,
    });
    let front = [1, 0, 4, 2, 0, 0, 5, 5];
    step(made, &front, &[3, 1, 1]);
    step(made, &front[..7], &[3, 1, 1, 5, 5, 5]);
    step(made, &front[..6], &[3, 1, 1, 5]);
    let no_room = Err(Refusal::NoRoom);
    step(no_room, &[5; 5], &[5; 3]);
    step(no_room, &[5; 8], &[5; 2]);
    println!("B9, B10, B11, and two of columns: 5 cases");
}

#[test]
fn threads() {
    let own = with(&[], &[]);
    let table = own.lent();
    let standing = |k| at_both(|library| (library.standing)(table, 5, k));
    let thread = |k| at_both(|library| (library.thread)(table, 5, k));
    assert_eq!(standing(0), Ok(Standing::Open));
    assert_eq!(thread(0), [9, 0, 4, 1, 4, 2]);
    let own_part = own.numbers[2..].as_ptr();
    let part = at_both(|library| (library.thread)(table, 5, 0).as_ptr());
    assert_eq!(part, own_part, "the caller's own numbers");
    for k in [1, usize::MAX] {
        assert_eq!(standing(k), Err(Refusal::NoThread));
        assert!(thread(k).is_empty());
    }
    // thread 0 is coherent, thread 1 is not
    let b14 = [1, 0, 6, 0, 0, 0, 1, 0, 8, 0, 6, 0, 1, 0, 2, 1, 0, 0, 0, 0];
    let b14 = memory(&b14, &[10, 2, 1, 7, 5, 4, 3, 1, 1, 1]);
    let standing = at_both(|library| (library.standing)(b14.lent(), 10, 0));
    assert_eq!(standing, Err(Refusal::Incoherent));
    println!("B12, B13, B14: 4 cases");
}
