//! Columns: request 5's cases, the statements about them that look true and are not, room by each length, what refused calls leave, that what is
//! left is taken again, and every argument at its place in C.

mod in_c;

use mespindro::{Move, Reason, Refusal, Rule, Standing, Stop, Table};
use mespindro_tests::evaluator::table::{read_table, OwnTable};
use mespindro_tests::evaluator::text::{read_text, write_text};
use mespindro_tests::evaluator::tree::{Program, Term};
use mespindro_tests::evaluator::{run_program, Lengths, Size};
use mespindro_tests::lending::BEFORE;
use mespindro_tests::library::{at_both, Library};
use mespindro_tests::on_big_stack;
use mespindro_tests::short;
use std::path::PathBuf;

/// A program of the short notation, and the one that it refuses: a variable without a binder.
fn program(short: &str) -> Program {
    match short {
        "(b0)" => vec![Term::Bound(0)],
        other => short::program(other),
    }
}

/// A program with a column that need not be its own.
fn with_column(short: &str, column: &[u16]) -> OwnTable {
    let mut table = OwnTable::of(&program(short));
    table.column = column.to_vec();
    table
}

/// The nodes of a table that is exactly a program's.
fn count(table: &OwnTable) -> usize {
    table.numbers.len() / 2
}

/// Reads into memory of these lengths.
fn read(text: &str, numbers: usize, column: usize) -> (Result<usize, Refusal>, OwnTable) {
    at_both(|library| {
        let mut out = OwnTable::empty(Lengths::new(numbers, column));
        let got = (library.read)(text.as_bytes(), out.lent_mut());
        (got, out)
    })
}

/// Steps into memory of these lengths.
fn step(table: &OwnTable, out: Lengths) -> (Result<Move, Refusal>, OwnTable) {
    at_both(|library| {
        let mut out = OwnTable::empty(out);
        let got = (library.step)(table.lent(), count(table), out.lent_mut());
        (got, out)
    })
}

/// How the first thread stands.
fn standing(table: &OwnTable) -> Result<Standing, Refusal> {
    at_both(|library| (library.standing)(table.lent(), count(table), 0))
}

/// The nodes of a thread.
fn thread(table: &OwnTable, k: usize) -> Vec<u16> {
    at_both(|library| (library.thread)(table.lent(), count(table), k).to_vec())
}

/// A program's column, as a read gives it.
fn column_read(short: &str) -> Vec<u16> {
    let text = write_text(&program(short));
    let (nodes, out) = at_both(|library| {
        let mut out = OwnTable::empty(Lengths::FULL);
        let nodes = (library.read)(&text, out.lent_mut()).expect("a program");
        (nodes, out)
    });
    let (front, rest) = out.column.split_at(nodes);
    assert!(rest.iter().all(|entry| *entry == BEFORE));
    front.to_vec()
}

fn made(nodes: usize, rule: Rule, thread: usize) -> Result<Move, Refusal> {
    Ok(Move {
        nodes,
        rule,
        thread,
    })
}

// ---- The request's cases.

/// 17 nodes, of which one step makes 19.
const GROWN: &str = "((u (a (L 2 (b0)) (a (L 0 (b0 c1)) x1)) x2))";
const GROWN_COLUMN: [u16; 17] = [17, 15, 13, 4, 3, 1, 1, 8, 6, 5, 1, 3, 1, 1, 1, 1, 1];

/// 7 nodes, and 5 after its step.
const GUARDED: &str = "(c1 (g c1 c2))";
const GUARDED_COLUMN: [u16; 7] = [7, 1, 5, 3, 1, 1, 1];

#[test]
fn reads() {
    let one = OwnTable {
        numbers: vec![0, 0],
        column: vec![1],
    };
    assert_eq!(read("()", 2, 1), (Ok(1), one));
    assert_eq!(read("()", 2, 0).0, Err(Refusal::NoRoom));
    let cases: [(&str, &[u16]); 6] = [
        ("((n (g (u b0 c1) b0)))", &[8, 6, 5, 3, 1, 1, 1, 1]),
        ("((a (l (b0 c2)) c1))", &[10, 8, 6, 5, 1, 3, 1, 1, 1, 1]),
        ("((L 0 (c1)) x0)", &[8, 4, 3, 1, 1, 3, 1, 1]),
        ("((u c1 c2) c7)", &[7, 3, 1, 1, 3, 1, 1]),
        (GUARDED, &GUARDED_COLUMN),
        (GROWN, &GROWN_COLUMN),
    ];
    for (short, column) in cases {
        assert_eq!(column_read(short), column, "{short}");
        // the evaluator's, which the other tests lend
        assert_eq!(OwnTable::of(&program(short)).column, column, "{short}");
    }
    // what a program lacks is told before the room that it would need
    let reaching = "((1:n(1:L1:0((1:v1:1)))))";
    assert_eq!(read(reaching, 0, 0).0, Err(Refusal::Incoherent));
    let loose = "((1:L1:0((1:v1:1))))";
    assert_eq!(read(loose, 0, 0).0, Err(Refusal::NoBinder));
}

/// The program steps to one of this column, and what stands behind that is kept.
fn steps_to(short: &str, expected: Result<Move, Refusal>, column: &[u16]) {
    let (got, out) = step(&OwnTable::of(&program(short)), Lengths::new(100, 100));
    assert_eq!(got, expected, "{short}");
    let (front, rest) = out.column.split_at(column.len());
    assert_eq!(front, column, "{short}");
    assert!(rest.iter().all(|entry| *entry == BEFORE), "{short}");
}

#[test]
fn steps() {
    steps_to(
        "((n (g (u b0 c1) b0)))",
        made(7, Rule::Fresh, 0),
        &[7, 5, 3, 1, 1, 1, 1],
    );
    steps_to("((u c1 c2) c7)", made(3, Rule::Fail, 0), &[3, 1, 1]);
    steps_to(GUARDED, made(5, Rule::Guard, 1), &[5, 1, 3, 1, 1]);
}

#[test]
fn steps_at_each_length() {
    let table = with_column(GUARDED, &GUARDED_COLUMN);
    let (got, out) = step(&table, Lengths::new(10, 5));
    assert_eq!(got, made(5, Rule::Guard, 1));
    assert_eq!(out, OwnTable::of(&program("(c1 c2)")));
    for lengths in [Lengths::new(100, 4), Lengths::new(9, 100)] {
        assert_eq!(step(&table, lengths).0, Err(Refusal::NoRoom));
    }
    for wrong in [&[7, 1, 5, 3, 1, 1][..], &[7, 1, 5, 3, 1, 1, 2]] {
        let (got, _) = step(&with_column(GUARDED, wrong), Lengths::FULL);
        assert_eq!(got, Err(Refusal::WrongColumn), "{wrong:?}");
    }
    let finished = with_column("(c1)", &[3, 1, 1]);
    let (got, _) = step(&finished, Lengths::NONE);
    assert_eq!(got, Err(Refusal::Finished));
}

#[test]
fn standings() {
    let cases: [(&str, &[u16], Refusal); 6] = [
        ("()", &[1], Refusal::NoThread),
        ("()", &[0], Refusal::WrongColumn),
        ("()", &[], Refusal::WrongColumn),
        ("()", &[1, 77], Refusal::NoThread),
        ("(b0)", &[3, 1, 1], Refusal::NoBinder),
        ("(b0)", &[3, 2, 1], Refusal::WrongColumn),
    ];
    for (short, column, refusal) in cases {
        let table = with_column(short, column);
        assert_eq!(standing(&table), Err(refusal), "{short} {column:?}");
        assert!(thread(&table, 0).is_empty());
    }
    let no_program = Table::new(&[1, 0], &[1]);
    let told = at_both(|library| (library.standing)(no_program, 1, 0));
    assert_eq!(told, Err(Refusal::NoProgram));
}

#[test]
fn the_column_before_coherence() {
    let incoherent = "((L 0 (c1)) (a c1 (a (L 0 (c1)) (L 0 (c2)))))";
    let incoherent = OwnTable::of(&program(incoherent));
    assert_eq!(standing(&incoherent), Err(Refusal::Incoherent));
    for place in 0..incoherent.column.len() {
        for entry in [0, incoherent.column[place] + 1, u16::MAX] {
            let mut wrong = incoherent.clone();
            wrong.column[place] = entry;
            assert_eq!(standing(&wrong), Err(Refusal::WrongColumn), "{place}");
        }
    }
}

/// Runs GROWN in tables of 37 nodes with columns of these lengths, and answers its column too. The work table and its column are then zeros.
fn run_grown(column: usize, work_column: usize) -> (Result<Stop, Refusal>, Vec<u16>) {
    let (got, table, work) = at_both(|library| {
        let mut table = OwnTable::within(&program(GROWN), Lengths::new(74, column));
        let mut work = OwnTable::empty(Lengths::new(74, work_column));
        let got = (library.run)(table.lent_mut(), 17, work.lent_mut(), 10_000);
        (got, table, work)
    });
    if got.is_ok() {
        let zeros = [&work.numbers[..], &work.column].concat();
        assert!(zeros.iter().all(|number| *number == 0));
    }
    (got, table.column)
}

/// The numbers and then zeros.
fn and_zeros(numbers: &[u16], length: usize) -> Vec<u16> {
    let mut numbers = numbers.to_vec();
    numbers.resize(length, 0);
    numbers
}

#[test]
fn runs() {
    assert_eq!(run_grown(16, 40).0, Err(Refusal::WrongColumn));
    for column in [17, 18] {
        let (got, after) = run_grown(column, 40);
        let stop = got.expect("a run");
        assert_eq!((stop.reason, stop.nodes, stop.steps), (Reason::Room, 17, 0));
        assert_eq!(after, and_zeros(&GROWN_COLUMN, column));
    }
    for (column, work_column) in [(19, 40), (26, 19)] {
        let (got, after) = run_grown(column, work_column);
        let stop = got.expect("a run");
        assert_eq!((stop.reason, stop.nodes, stop.steps), (Reason::Ended, 5, 5));
        assert_eq!((stop.counts.beta, stop.counts.unif), (3, 2));
        assert_eq!(after, and_zeros(&[5, 1, 3, 1, 1], column));
    }
    assert_eq!(run_grown(26, 16).0, Err(Refusal::NoRoom));
}

#[test]
fn a_run_of_an_abstraction() {
    let before = program("((a (l (b0 c2)) c1))");
    let (stop, table, work) = at_both(|library| {
        let mut table = OwnTable::within(&before, Lengths::new(30, 12));
        let mut work = OwnTable::empty(Lengths::new(31, 13));
        let stop = (library.run)(table.lent_mut(), 10, work.lent_mut(), 10).expect("a run");
        (stop, table, work)
    });
    assert_eq!((stop.reason, stop.nodes, stop.steps), (Reason::Ended, 5, 2));
    assert_eq!(table.column, and_zeros(&[5, 1, 3, 1, 1], 12));
    assert_eq!((work.numbers, work.column), (vec![0; 31], vec![0; 13]));
}

// ---- Statements that look true and are not.

/// Not true: a step leaves every entry of the threads that it does not work on. An alternative before the thread counts it.
#[test]
fn an_entry_before_the_thread_changes() {
    let (_, out) = step(&with_column(GUARDED, &GUARDED_COLUMN), Lengths::FULL);
    assert_eq!((GUARDED_COLUMN[0], out.column[0]), (7, 5));
}

/// Not true: the lowest number that applies is given. 14 goes before all but 1, in every call.
#[test]
fn a_wrong_column_goes_first() {
    // what else is wrong, beside the right column: loose, incoherent, finished, no thread, a result of over 16,384 nodes
    let nine = "b0 ".repeat(9);
    let large = format!("((a (L 0 ({nine})) (a c1{})))", " c1".repeat(1000));
    for short in ["(b0)", "((n (L 0 (b1))))", "(c1)", "()", &large] {
        let right = OwnTable::of(&program(short));
        let mut wrong = right.clone();
        *wrong.column.last_mut().expect("an entry") += 1;
        assert!(!refusals(&right).contains(&Some(Refusal::WrongColumn)));
        assert_eq!(refusals(&wrong), [Some(Refusal::WrongColumn); 4]);
    }
    // no program: nothing is asked of the column
    let mut none = OwnTable::of(&program("(c1)"));
    none.numbers[1] = 1;
    none.column[0] = 9;
    assert_eq!(refusals(&none), [Some(Refusal::NoProgram); 4]);
}

/// What write, step, run and standing refuse where nothing is lent for a result.
fn refusals(table: &OwnTable) -> [Option<Refusal>; 4] {
    let nodes = count(table);
    at_both(|library| {
        let (mut run_table, mut none) = (table.clone(), OwnTable::empty(Lengths::NONE));
        [
            (library.write)(table.lent(), nodes, &mut []).err(),
            (library.step)(table.lent(), nodes, none.lent_mut()).err(),
            (library.run)(run_table.lent_mut(), nodes, none.lent_mut(), 9).err(),
            (library.standing)(table.lent(), nodes, usize::MAX).err(),
        ]
    })
}

/// Not true: a column that is right at every term's node is right. The other nodes are asked too: alternatives, and ends of lists.
#[test]
fn alternatives_have_entries() {
    let right = with_column("((L 0 (c1)) x0)", &[8, 4, 3, 1, 1, 3, 1, 1]);
    assert_eq!(standing(&right), Ok(Standing::Partial));
    assert_eq!(thread(&right, 1), [3, 0]);
    for place in [0, 2, 5, 4, 7] {
        for off in [1, u16::MAX] {
            let mut wrong = right.clone();
            wrong.column[place] = wrong.column[place].wrapping_add(off);
            assert_eq!(standing(&wrong), Err(Refusal::WrongColumn), "{place}");
            assert!(thread(&wrong, 1).is_empty(), "{place}");
        }
    }
}

/// Not true: 14 is given exactly where the column is not what a read gives. It may be longer, with anything behind.
#[test]
fn what_stands_behind_the_count_is_not_looked_at() {
    for behind in [&[0][..], &[1], &[9, 9, 9], &[u16::MAX; 3000]] {
        let column = [&[3, 1, 1], behind].concat();
        assert_eq!(
            standing(&with_column("(c1)", &column)),
            Ok(Standing::Answer)
        );
    }
}

/// Not true: a run is refused with 9 where some result will not fit a column. It ends by room.
#[test]
fn a_later_result_that_does_not_fit() {
    for (column, work_column) in [(18, 40), (40, 18), (17, 17)] {
        let (got, _) = run_grown(column, work_column);
        assert_eq!(got.map(|stop| stop.reason), Ok(Reason::Room));
    }
}

/// Not true: the entries of a finished head stay when alternatives are added behind. Those of its terms do, those of its alternatives do not.
#[test]
fn entries_of_a_head() {
    assert_eq!(column_read("(c1)"), [3, 1, 1]);
    assert_eq!(column_read("(c1 c2)"), [5, 1, 3, 1, 1]);
}

/// Not true: equal entries decide coherence. Bodies of one size may have other numbers.
#[test]
fn equal_entries_of_other_bodies() {
    let table = OwnTable::of(&program("((a (L 0 (c1)) (L 0 (c2))))"));
    assert_eq!(table.column[2..6], table.column[6..10]);
    assert_eq!(standing(&table), Err(Refusal::Incoherent));
}

// ---- Room.

/// So many nodes by one of the four lengths, and enough by the three others.
fn rooms(nodes: usize) -> [(Lengths, Lengths); 5] {
    let wide = Lengths::new(5001, 2600);
    let (by_numbers, by_column) = (Lengths::new(2 * nodes + 1, 2600), Lengths::new(5001, nodes));
    [
        (by_numbers, wide),
        (by_column, wide),
        (wide, by_numbers),
        (wide, by_column),
        (by_column, by_numbers),
    ]
}

/// Each of the four lengths ends a run, at the same program.
#[test]
fn room_by_each_length() {
    let mut ended_by_room = 0;
    on_big_stack(|| {
        for (name, program) in rule_sets() {
            let least = OwnTable::of(&program).nodes();
            for room in [least, least + 1, least + 7, 400, 1000, Size::SMALL.nodes] {
                if room < least {
                    continue;
                }
                let expected = run_program(program.clone(), room, 10_000).expect("a run");
                for (lengths, work_lengths) in rooms(room) {
                    let (got, table, work) = at_both(|library| {
                        let mut table = OwnTable::within(&program, lengths);
                        let mut work = OwnTable::empty(work_lengths);
                        let got = (library.run)(table.lent_mut(), least, work.lent_mut(), 10_000);
                        (got, table, work)
                    });
                    assert_eq!(got, Ok(expected.stop()), "{name} in {room}");
                    let mut end = OwnTable::of(&expected.end);
                    end.numbers.resize(lengths.numbers, 0);
                    end.column.resize(lengths.column, 0);
                    assert_eq!(table, end, "{name} in {room}");
                    let zeros = [&work.numbers[..], &work.column].concat();
                    assert!(zeros.iter().all(|number| *number == 0), "{name}");
                    ended_by_room += usize::from(expected.reason == Reason::Room);
                }
            }
        }
    });
    assert!(ended_by_room >= 50, "only {ended_by_room} ended by room");
    println!("{ended_by_room} runs ended by room");
}

// ---- Refused calls.

/// A refused call leaves every buffer as it was: the table, the output or the work table, and both columns.
#[test]
fn refused_calls_change_nothing() {
    let mut refused = 0;
    for (table, lengths) in tables_to_refuse() {
        let nodes = count(&table);
        for library in Size::BOTH.map(Library::at) {
            let (mut kept, before) = (table.clone(), OwnTable::empty(lengths));
            let mut other = before.clone();
            let mut text = vec![BEFORE as u8; lengths.column];
            let answers = [
                (library.write)(kept.lent(), nodes, &mut text).err(),
                (library.step)(kept.lent(), nodes, other.lent_mut()).err(),
                (library.run)(kept.lent_mut(), nodes, other.lent_mut(), 9).err(),
            ];
            // a call that is accepted is not asked here: the next one would find what it has left
            assert!(
                answers.iter().all(Option::is_some),
                "{table:?}: {answers:?}"
            );
            assert_eq!((&kept, other), (&table, before));
            assert!(text.iter().all(|byte| *byte == BEFORE as u8));
            refused += answers.len();
        }
    }
    for text in ["()", "((1:c1:1))", "((1:v1:0))", "(", "((1:z1:1))"] {
        for (numbers, column) in [(0, 0), (1, 9), (9, 0)] {
            let (got, out) = read(text, numbers, column);
            assert!(got.is_err(), "{text}");
            assert_eq!(out, OwnTable::empty(Lengths::new(numbers, column)));
            refused += 1;
        }
    }
    println!("{refused} refused calls");
}

/// Tables that write, step and run refuse, each with the lengths of what they are to write into.
fn tables_to_refuse() -> Vec<(OwnTable, Lengths)> {
    let mut all = Vec::new();
    // too short for any result, by the one or the other
    for lengths in [Lengths::NONE, Lengths::new(100, 1), Lengths::new(1, 2)] {
        all.push((OwnTable::of(&program(GUARDED)), lengths));
    }
    let enough = Lengths::new(100, 100);
    for short in ["(b0)", "((n (L 0 (b1))))", "((a (L 0 ()) (L 0 (c1))))"] {
        all.push((OwnTable::of(&program(short)), enough));
    }
    let right = OwnTable::of(&program(GUARDED));
    for place in 0..right.column.len() {
        let mut wrong = right.clone();
        wrong.column[place] += 1;
        all.push((wrong, enough));
        let mut short = right.clone();
        short.column.truncate(place);
        all.push((short, enough));
    }
    let mut no_program = right;
    no_program.numbers[2] = 11;
    all.push((no_program, enough));
    all
}

// ---- What is left is taken again.

/// The rule sets in rules/, by their names.
fn rule_sets() -> Vec<(String, Program)> {
    let folder = PathBuf::from(env!("CARGO_MANIFEST_DIR")).join("../../rules");
    let files = std::fs::read_dir(folder).expect("rules/");
    let files = files.map(|file| file.expect("a file").path());
    let mut found: Vec<(String, Program)> = files
        .filter(|file| file.extension().is_some_and(|end| end == "csexp"))
        .map(|file| {
            let text = std::fs::read(&file).expect("a rule set");
            let program = read_text(Size::SMALL, &text).expect("a rule set");
            (file.display().to_string(), program)
        })
        .collect();
    found.sort_by(|one, other| one.0.cmp(&other.0));
    assert!(found.len() >= 5, "only {} rule sets", found.len());
    found
}

/// At each step of each rule set every call takes the table with the column that the read, the step or the run has left.
#[test]
fn what_is_left_is_taken_again() {
    let steps: usize = on_big_stack(|| {
        let sets = rule_sets();
        let steps = sets.iter().map(|(name, program)| {
            // in the same tables either size makes the same steps
            at_both(|library| follow(library, name, program))
        });
        steps.sum()
    });
    assert!(steps > 2000, "only {steps} steps");
    println!("{steps} steps");
}

/// Steps one by one, and beside that runs by one step at a time; answers how many there were.
fn follow(library: &Library, name: &str, program: &Program) -> usize {
    let lengths = Lengths::for_nodes(Size::SMALL.nodes);
    let mut now = OwnTable::empty(lengths);
    let mut nodes = (library.read)(&write_text(program), now.lent_mut()).expect("a rule set");
    let (mut run, mut work) = (now.clone(), OwnTable::empty(lengths));
    let mut next = OwnTable::empty(lengths);
    for steps in 0.. {
        taken_by_every_call(library, name, &now, nodes);
        let made = (library.step)(now.lent(), nodes, next.lent_mut());
        let Ok(made) = made else {
            return steps;
        };
        let stop = (library.run)(run.lent_mut(), nodes, work.lent_mut(), 1).expect("a run");
        assert_eq!(stop.nodes, made.nodes, "{name}");
        assert_eq!(front(&run, stop.nodes), front(&next, made.nodes), "{name}");
        nodes = made.nodes;
        std::mem::swap(&mut now, &mut next);
    }
    unreachable!("a step is refused at last")
}

/// A table's front of so many nodes, and its column's.
fn front(table: &OwnTable, nodes: usize) -> (&[u16], &[u16]) {
    (&table.numbers[..2 * nodes], &table.column[..nodes])
}

fn taken_by_every_call(library: &Library, name: &str, left: &OwnTable, nodes: usize) {
    // the evaluator's own count of the column
    let program = read_table(Size::SMALL, left.lent(), nodes).expect(name);
    let mut text = vec![0; Size::SMALL.text()];
    let length = (library.write)(left.lent(), nodes, &mut text).expect(name);
    assert_eq!(text[..length], write_text(&program), "{name}");
    let mut again = OwnTable::empty(Lengths::for_nodes(nodes));
    let read = (library.read)(&text[..length], again.lent_mut());
    assert_eq!(read, Ok(nodes), "{name}");
    assert_eq!(front(&again, nodes), front(left, nodes), "{name}");
    let past = (library.standing)(left.lent(), nodes, program.len());
    assert_eq!(past, Err(Refusal::NoThread), "{name}");
    if !program.is_empty() {
        let part = (library.thread)(left.lent(), nodes, 0);
        assert_eq!(usize::from(left.column[1]), part.len() / 2, "{name}");
    }
    let mut work = again.clone();
    let stop = (library.run)(again.lent_mut(), nodes, work.lent_mut(), 0).expect(name);
    assert_eq!((stop.nodes, stop.steps), (nodes, 0), "{name}");
    assert_eq!(front(&again, nodes), front(left, nodes), "{name}");
}

// ---- In C.

fn prints(mut program: std::process::Command) {
    let output = program.output().unwrap();
    assert!(output.status.success());
    let printed = String::from_utf8_lossy(&output.stdout);
    assert_eq!(printed, include_str!("../c/columns.txt"));
}

/// The source, for the plain calls and for the small ones.
const SOURCE: &str = "rust/tests/c/columns.c";
const SIZES: [&[&str]; 2] = [&["-std=c11"], &["-std=c11", "-DSMALL"]];

#[test]
fn in_c() {
    for flags in SIZES {
        prints(in_c::for_this_machine(SOURCE, flags)());
    }
}

#[test]
fn in_c_for_the_switch() {
    for flags in SIZES {
        if let Some(program) = in_c::for_the_switch(SOURCE, flags) {
            prints(program());
        }
    }
}
