//! The limits of both sizes: lengths, ranges, node counts, nesting of every kind, and unifiers whose values no memory holds.

use mespindro::{Move, Reason, Refusal, Rule, Stop};
use mespindro_tests::calls::{few_on_program, on_program, on_text};
use mespindro_tests::compare::{Call, Tally};
use mespindro_tests::evaluator::table::{read_table, OwnTable};
use mespindro_tests::evaluator::text::write_text;
use mespindro_tests::evaluator::tree::{
    application, fresh, guard, program_size, unification, Program, Term,
};
use mespindro_tests::evaluator::{counts, Lengths, Size};
use mespindro_tests::library::Library;
use mespindro_tests::on_big_stack;
use mespindro_tests::random::Random;
use mespindro_tests::short;

/// Every call on each of the programs, library against evaluator; fewer at the large size, where each takes its time.
fn compare_programs(size: Size, name: &str, programs: &[Program]) {
    let tally = on_big_stack(|| {
        let mut random = Random::new(6);
        let mut tally = Tally::default();
        for (place, program) in programs.iter().enumerate() {
            let name = format!("{name}, {size:?}, program {place}");
            assert!(program_size(program) <= size.nodes, "{name}");
            let calls = match size {
                Size::SMALL => on_program(size, program, &mut random),
                _ => few_on_program(size, program),
            };
            for call in calls {
                if let Err(difference) = tally.compare(size, &call) {
                    panic!("{name}: {difference}");
                }
            }
        }
        tally
    });
    println!("{name}, {size:?}: {} programs, {tally}", programs.len());
}

fn constructor(number: u16) -> Term {
    Term::Constructor(number)
}

/// A structure: the constructor applied to each part in turn.
fn structure(head: u16, parts: impl IntoIterator<Item = Term>) -> Term {
    parts.into_iter().fold(constructor(head), application)
}

/// The term inside `levels` layers.
fn nested(levels: usize, inner: Term, layer: impl Fn(usize, Term) -> Term) -> Term {
    (0..levels).fold(inner, |term, level| layer(level, term))
}

/// The text of a term inside fresh nodes, alone in its program.
fn text_of_fresh(levels: usize, inner: &str) -> Vec<u8> {
    let (open, close) = ("(1:n".repeat(levels), ")".repeat(levels));
    format!("({open}{inner}{close})").into_bytes()
}

/// Reads the text at a size into a table that holds every program, and compares that and other lengths with the evaluator.
fn reads(size: Size, text: &[u8], expected: Result<usize, u16>) {
    on_big_stack(|| {
        let mut out = OwnTable::empty(Lengths::for_nodes(size.nodes));
        let got = (Library::at(size).read)(text, out.lent_mut()).map_err(Refusal::number);
        assert_eq!(got, expected, "{size:?}");
        for call in on_text(size, text) {
            Tally::default().compare(size, &call).unwrap();
        }
    });
}

/// The text of a term with a number.
fn numbered(tag: &str, number: usize) -> String {
    let digits = number.to_string();
    format!("(1:{tag}{}:{digits})", digits.len())
}

#[test]
fn long_and_deep_texts() {
    Size::BOTH.into_iter().for_each(long_and_deep_texts_at);
}

fn long_and_deep_texts_at(size: Size) {
    let nodes = size.nodes;
    let index = |number| numbered("v", number);
    let reaching = "(1:L1:0((1:v1:1)))";
    // a fresh node takes five bytes
    let deepest = (size.text() - 10) / 5;
    let cases = [
        (text_of_fresh(nodes - 3, "(1:c1:0)"), Ok(nodes)),
        (text_of_fresh(nodes - 2, "(1:c1:0)"), Err(7)),
        (text_of_fresh(nodes - 2, "(1:z1:0)"), Err(4)),
        (text_of_fresh(nodes - 2, "(1:c2:00)"), Err(5)),
        (text_of_fresh(nodes - 2, &index(nodes - 2)), Err(6)),
        (text_of_fresh(nodes - 2, &index(nodes - 3)), Err(7)),
        (text_of_fresh(nodes - 3, &index(nodes - 4)), Ok(nodes)),
        (text_of_fresh(nodes + 2, &index(nodes - 1)), Err(7)),
        (text_of_fresh(nodes + 2, &index(nodes)), Err(5)),
        (text_of_fresh(nodes - 2, reaching), Err(7)),
        (text_of_fresh(nodes - 48, reaching), Err(8)),
        (text_of_fresh(deepest, "(1:c1:0)"), Err(7)),
        (text_of_fresh(deepest + 1, "(1:c1:0)"), Err(2)),
    ];
    for (text, expected) in &cases {
        reads(size, text, *expected);
    }
    println!("long and deep texts, {size:?}: {} texts", cases.len());
}

#[test]
fn texts_at_the_byte_limit() {
    Size::BOTH.into_iter().for_each(texts_at_the_byte_limit_of);
}

fn texts_at_the_byte_limit_of(size: Size) {
    let (bytes, nodes) = (size.text(), size.nodes);
    let brackets = |n| [vec![b'('; n], vec![b')'; n]].concat();
    let atom = |n: usize| format!("{n}:{}", "x".repeat(n)).into_bytes();
    let alternatives = |n| [b"(".to_vec(), b"(1:c1:0)".repeat(n), b")".to_vec()].concat();
    let bodies = |n| ["((1:l".repeat(n), "()".into(), "))".repeat(n)].concat();
    // an atom's length has five or six digits
    let longest = if size == Size::SMALL {
        bytes - 6
    } else {
        bytes - 7
    };
    let cases = [
        (brackets(bytes / 2), Err(4)),
        (brackets(bytes / 2 + 1), Err(2)),
        (vec![b'('; bytes], Err(3)),
        (vec![b'('; bytes + 1], Err(2)),
        (vec![b'x'; bytes], Err(3)),
        (vec![b'x'; bytes + 1], Err(2)),
        (vec![b'1'; bytes], Err(3)),
        (atom(longest), Err(4)),
        (atom(longest + 1), Err(2)),
        (alternatives(nodes / 2 - 1), Ok(nodes - 1)),
        (alternatives(nodes / 2), Err(7)),
        // three nodes a body, and one
        (
            bodies((nodes - 1) / 3).into_bytes(),
            Ok((nodes - 1) / 3 * 3 + 1),
        ),
        (bodies((nodes - 1) / 3 + 1).into_bytes(), Err(7)),
        (bodies((bytes - 2) / 7).into_bytes(), Err(7)),
    ];
    for (text, expected) in &cases {
        reads(size, text, *expected);
    }
    println!("texts at the byte limit, {size:?}: {} texts", cases.len());
}

#[test]
fn numbers_at_their_limits() {
    for size in Size::BOTH {
        let largest = usize::from(size.largest());
        let cases = [
            ("c", 65_535, Ok(3)),
            ("c", 65_536, Err(5)),
            ("x", largest, Ok(3)),
            ("x", largest + 1, Err(5)),
            ("v", largest, Err(6)),
            ("v", largest + 1, Err(5)),
        ];
        for (tag, number, expected) in cases {
            let text = format!("({})", numbered(tag, number));
            reads(size, text.as_bytes(), expected);
        }
        for (number, expected) in [(largest, Ok(4)), (largest + 1, Err(5))] {
            let closure = numbered("L", number).replace(')', "())");
            reads(size, format!("({closure})").as_bytes(), expected);
        }
    }
    println!("numbers at their limits: 8 texts at each size");
}

#[test]
fn nesting() {
    Size::BOTH.into_iter().for_each(nesting_at);
}

fn nesting_at(size: Size) {
    let [a, b] = [constructor(1), Term::Free(0)];
    // how many layers of two nodes and of three make a program of all its nodes, or of nearly all
    let (pairs, bodies) = ((size.nodes - 3) / 2, (size.nodes - 3) / 3);
    let programs = [
        nested(pairs, a.clone(), |_, t| application(t, b.clone())),
        nested(pairs, a.clone(), |_, t| application(a.clone(), t)),
        nested(pairs, b.clone(), |_, t| application(t, a.clone())),
        nested(pairs, a.clone(), |_, t| guard(t, b.clone())),
        nested(pairs, a.clone(), |_, t| guard(b.clone(), t)),
        nested(pairs, a.clone(), |_, t| unification(t, b.clone())),
        nested(pairs, a.clone(), |_, t| unification(b.clone(), t)),
        nested(size.nodes - 3, a.clone(), |_, t| fresh(t)),
        nested(bodies, a.clone(), |_, t| Term::Abstraction(vec![t])),
        nested(bodies, Term::Bound(0), |_, t| Term::Abstraction(vec![t])),
        nested(bodies, a.clone(), |l, t| Term::Allocated(l as u16, vec![t])),
        nested(bodies - 1, Term::Free(3), |l, t| {
            Term::Allocated(size.largest() - l as u16, vec![t])
        }),
    ];
    compare_programs(size, "nesting", &programs.map(|thread| vec![thread]));
}

#[test]
fn nesting_that_is_unified() {
    Size::BOTH.into_iter().for_each(nesting_that_is_unified_at);
}

fn nesting_that_is_unified_at(size: Size) {
    // the levels of two values that stand beside each other, of one alone, of one that is put in, and of bodies
    let twice = size.nodes / 4 - 3;
    let (alone, copied, bodies) = (2 * twice - 18, size.nodes / 6 - 41, size.nodes / 3 - 82);
    let deep = |left: bool, levels: usize, inner: Term| {
        nested(levels, inner, |_, t| match left {
            true => application(t, constructor(2)),
            false => application(constructor(2), t),
        })
    };
    let mut programs = Vec::new();
    for left in [true, false] {
        for (inner, other) in [(1, 1), (1, 3)] {
            let goal = unification(
                deep(left, twice, constructor(inner)),
                deep(left, twice, constructor(other)),
            );
            programs.push(vec![goal]);
        }
        let clash = unification(Term::Free(0), deep(false, alone, Term::Free(0)));
        let bound = unification(Term::Free(1), deep(left, copied, constructor(1)));
        programs.push(vec![clash]);
        programs.push(vec![guard(
            bound,
            application(constructor(5), Term::Free(1)),
        )]);
    }
    let body = nested(bodies, Term::Free(0), |l, t| {
        Term::Allocated(l as u16, vec![t])
    });
    programs.push(vec![unification(Term::Free(0), body.clone())]);
    programs.push(vec![unification(body, Term::Free(1))]);
    compare_programs(size, "nesting that is unified", &programs);
}

#[test]
fn long_runs() {
    let programs = [
        vec![nested(2045, Term::Bound(7), |_, t| fresh(t))],
        vec![nested(408, constructor(1), |_, t| {
            application(Term::Abstraction(vec![t]), constructor(2))
        })],
        vec![nested(400, constructor(1), |level, t| {
            guard(unification(Term::Free(level as u16), constructor(3)), t)
        })],
        (0..680).map(|_| fresh(Term::Bound(0))).collect(),
    ];
    on_big_stack(|| {
        for program in &programs {
            let count = program_size(program);
            assert!(count <= Size::SMALL.nodes);
            let call = Call::Run {
                table: OwnTable::within(program, Lengths::new(4097, 2049)),
                count,
                work: Lengths::for_nodes(Size::SMALL.nodes),
                most: u32::MAX,
            };
            for size in Size::BOTH {
                Tally::default().compare(size, &call).unwrap();
            }
        }
    });
    println!("long runs: {} programs", programs.len());
}

#[test]
fn least_names_among_many() {
    let variables = |n: u16| structure(9, (0..n).map(Term::Free));
    let closures = |n: u16| structure(9, (0..n).map(|l| Term::Allocated(l, vec![])));
    let programs = [
        vec![application(variables(1000), fresh(Term::Bound(0)))],
        vec![application(closures(600), Term::Abstraction(vec![]))],
        vec![application(
            structure(9, (500..1500).map(Term::Free)),
            fresh(Term::Bound(0)),
        )],
        vec![unification(
            structure(9, (1..400).map(Term::Free)),
            structure(9, (0..399).map(Term::Free)),
        )],
        vec![guard(
            unification(
                structure(9, (0..300).map(Term::Free)),
                structure(9, (1..301).map(Term::Free)),
            ),
            structure(8, (0..300).map(Term::Free)),
        )],
    ];
    for size in Size::BOTH {
        compare_programs(size, "least names among many", &programs);
    }
}

#[test]
fn results_at_the_node_limit() {
    // one value of `nodes` nodes put in twice
    let twice = |nodes: usize, body: &str| {
        let mut parts: Vec<Term> = vec![constructor(3); (nodes - 1) / 2];
        if nodes % 2 == 0 {
            parts.pop();
            parts.push(Term::Allocated(1, vec![]));
        }
        let Some(Term::Abstraction(body)) = short::program(body).pop() else {
            panic!("a body");
        };
        vec![application(Term::Allocated(0, body), structure(2, parts))]
    };
    let plain = "((l ((a (a c1 b0) b0))))";
    let more = "((l ((n (a (a c1 b1) b1)))))";
    for size in Size::BOTH {
        let half = size.nodes / 2 - 3;
        let cases = [
            (twice(half, plain), made(size.nodes - 1, Rule::Beta)),
            (twice(half, more), made(size.nodes, Rule::Beta)),
            (twice(half + 1, plain), Err(Refusal::TooManyNodes)),
            (twice(half + 1, more), Err(Refusal::TooManyNodes)),
        ];
        for (program, expected) in &cases {
            assert_eq!(step(size, program, Lengths::FULL), *expected);
        }
        compare_programs(size, "results at the node limit", &cases.map(|(p, _)| p));
    }
}

#[test]
fn context_copied_for_each_alternative() {
    Size::BOTH.into_iter().for_each(context_copied_at);
}

/// Three copies fit, and four do not.
fn context_copied_at(size: Size) {
    let parts = (size.nodes - 13) / 6;
    let with = |alternatives: u16| {
        let context = structure(1, vec![constructor(1); parts]);
        let body = (1..=alternatives).map(constructor).collect();
        let choice = application(Term::Allocated(0, body), constructor(0));
        vec![application(context, choice)]
    };
    let (four, three) = (with(4), with(3));
    let nodes = program_size(&four);
    if size == Size::SMALL {
        assert_eq!((nodes, program_size(&three)), (694, 692));
    }
    assert_eq!(step(size, &four, Lengths::NONE), Err(Refusal::TooManyNodes));
    let copied = made(6 * parts + 13, Rule::Beta);
    assert_eq!(step(size, &three, Lengths::FULL), copied);
    assert_eq!(run(size, &four), (stop(Reason::Room, nodes, &[]), with(4)));
    compare_programs(size, "context copied (D106)", &[with(4), with(3)]);
}

#[test]
fn many_threads() {
    for size in Size::BOTH {
        let (nodes, most) = (size.nodes - 1, size.nodes / 2 - 1);
        let threads: Program = (0..most as u16).map(constructor).collect();
        let table = OwnTable::of(&threads);
        let thread = |k| (Library::at(size).thread)(table.lent(), nodes, k);
        for k in [0, 1, most / 2, most - 1] {
            assert_eq!(thread(k), [4, k as u16]);
        }
        assert!(thread(most).is_empty());
        let mut last = threads.clone();
        last.splice(most - 2.., [fresh(Term::Bound(0))]);
        compare_programs(size, "many threads", &[threads, last]);
    }
}

/// The tower D(n): the value of `xi` has 2^(i+2) - 3 nodes.
fn doubling(first: u16, n: u16) -> (Vec<Term>, Vec<Term>) {
    let pair = |i| structure(8, [Term::Free(i), Term::Free(i)]);
    let left = (1..=n).map(|i| Term::Free(first + i)).collect();
    let right = (0..n).map(|i| pair(first + i)).collect();
    (left, right)
}

fn goal(left: Vec<Term>, right: Vec<Term>) -> Term {
    unification(structure(9, left), structure(9, right))
}

fn one_tower(n: u16) -> Term {
    let (left, right) = doubling(0, n);
    goal(left, right)
}

/// Two equal towers whose tops meet last.
fn two_towers(n: u16) -> Term {
    let (mut left, mut right) = doubling(0, n);
    let (other_left, other_right) = doubling(n + 1, n);
    left.extend(other_left);
    right.extend(other_right);
    left.push(Term::Free(n));
    right.push(Term::Free(2 * n + 1));
    goal(left, right)
}

/// Runs 10,000 steps in as many nodes as there may be, by the library alone.
fn run(size: Size, program: &Program) -> (Stop, Program) {
    let mut table = OwnTable::within(program, Lengths::FULL);
    let mut work = OwnTable::empty(Lengths::FULL);
    let (count, run) = (program_size(program), Library::at(size).run);
    let stop = run(table.lent_mut(), count, work.lent_mut(), 10_000).expect("a run");
    let end = read_table(size, table.lent(), stop.nodes);
    (stop, end.expect("the end is a program"))
}

/// One step into an output of these lengths, by the library alone.
fn step(size: Size, program: &Program, out: Lengths) -> Result<Move, Refusal> {
    let table = OwnTable::of(program);
    let mut out = OwnTable::empty(out);
    (Library::at(size).step)(table.lent(), table.nodes(), out.lent_mut())
}

fn stop(reason: Reason, nodes: usize, rules: &[Rule]) -> Stop {
    Stop {
        reason,
        nodes,
        steps: rules.len() as u32,
        counts: counts(rules),
    }
}

/// A step in the first thread.
fn made(nodes: usize, rule: Rule) -> Result<Move, Refusal> {
    Ok(Move {
        nodes,
        rule,
        thread: 0,
    })
}

#[test]
fn values_that_no_memory_holds() {
    on_big_stack(|| {
        let small = [(255, 2045, 127, 2041), (50, 405, 25, 409)];
        small
            .into_iter()
            .for_each(|towers| values_at(Size::SMALL, towers));
        values_at(Size::LARGE, (2047, 16_381, 1023, 16_377));
    });
    println!("D97, D97b, D98: 3 programs, and 6 more");
}

/// One tower and two, of so many levels and nodes: their goals are solved, but no table holds their values.
fn values_at(size: Size, (one, one_nodes, two, two_nodes): (u16, usize, u16, usize)) {
    for (program, nodes) in [(one_tower(one), one_nodes), (two_towers(two), two_nodes)] {
        let program = vec![program];
        assert_eq!(program_size(&program), nodes);
        let ended = stop(Reason::Ended, 3, &[Rule::Unif]);
        assert_eq!(run(size, &program), (ended, vec![constructor(0)]));
    }
    let kept = vec![application(one_tower(one), Term::Free(one))];
    let nodes = one_nodes + 2;
    assert_eq!(program_size(&kept), nodes);
    let step = step(size, &kept, Lengths::FULL);
    assert_eq!(step, Err(Refusal::TooManyNodes));
    assert_eq!(run(size, &kept), (stop(Reason::Room, nodes, &[]), kept));
}

#[test]
fn doubling_values_of_exact_size() {
    // the step of level 8 has 1,025 nodes, and each level more doubles them
    doubling_values_at(Size::SMALL, 8, 1025);
    doubling_values_at(Size::LARGE, 11, 8193);
}

/// Up to level `last` the result fits, of so many nodes.
fn doubling_values_at(size: Size, last: u16, nodes: usize) {
    let kept = |n| vec![application(one_tower(n), Term::Free(n))];
    let (fits, larger) = (kept(last), kept(last + 1));
    let sizes = (program_size(&larger), program_size(&fits));
    let levels = usize::from(last);
    assert_eq!(sizes, (8 * levels + 15, 8 * levels + 7));
    let full = size.nodes;
    for (numbers, column) in [
        (0, 0),
        (1, full),
        (2 * nodes, nodes),
        (2 * full, 0),
        (2 * full + 2, full + 1),
    ] {
        let got = step(size, &larger, Lengths::new(numbers, column));
        assert_eq!(got, Err(Refusal::TooManyNodes));
    }
    let room = stop(Reason::Room, sizes.0, &[]);
    assert_eq!(run(size, &larger), (room, larger.clone()));
    let no_room = Err(Refusal::NoRoom);
    let unif = made(nodes, Rule::Unif);
    for (numbers, column, expected) in [
        (2 * nodes - 2, full, no_room),
        (2 * nodes - 1, nodes, no_room),
        (2 * nodes, nodes - 1, no_room),
        (2 * full, nodes - 1, no_room),
        (2 * nodes, nodes, unif),
    ] {
        let got = step(size, &fits, Lengths::new(numbers, column));
        assert_eq!(got, expected);
    }
    // 7 is asked of coherent threads only
    let mut incoherent = larger;
    incoherent.extend(short::program("((n (L 0 (b1))))"));
    let got = step(size, &incoherent, Lengths::NONE);
    assert_eq!(got, Err(Refusal::Incoherent));
    reads(size, &write_text(&incoherent), Err(8));
    for finished in ["(c1)", "()"] {
        let got = step(size, &short::program(finished), Lengths::NONE);
        assert_eq!(got, Err(Refusal::Finished));
    }
    let levels = match size {
        Size::SMALL => 1..=last + 3,
        _ => last - 1..=last + 1,
    };
    let mut programs: Vec<Program> = levels.clone().map(kept).collect();
    programs.extend(levels.clone().map(|n| vec![one_tower(n)]));
    programs.extend(
        levels
            .take_while(|n| *n <= last)
            .map(|n| vec![two_towers(n)]),
    );
    compare_programs(size, "D99, D99b, D100, D100b and smaller towers", &programs);
}

#[test]
fn tables_and_columns_longer_than_a_program() {
    let program = short::program("((n (g (u b0 c1) b0)))");
    let mut tally = Tally::default();
    for numbers in [16, 17, 4096, 4097, 4098, 9000, 32_768, 32_770, 70_001] {
        for work in [0, 15, 16, 17, 4096, 4097, 32_768, 32_769, 70_001] {
            // each column as long as its table asks for, and one of them longer or shorter than that
            for (column, work_column) in [
                (numbers / 2, work / 2),
                (70_001, work / 2),
                (7, work / 2),
                (8, 70_001),
                (numbers / 2, 7),
            ] {
                for most in [0, 1, 2, 3, 4, u32::MAX] {
                    let call = Call::Run {
                        table: OwnTable::within(&program, Lengths::new(numbers, column)),
                        count: 8,
                        work: Lengths::new(work, work_column),
                        most,
                    };
                    for size in Size::BOTH {
                        tally.compare(size, &call).unwrap();
                    }
                }
            }
        }
    }
    println!("tables and columns longer than a program: {tally}");
}

#[test]
fn written_texts_are_read_again() {
    let mut random = Random::new(7);
    let programs = 5000;
    for _ in 0..programs {
        let size = random.pick(&Size::BOTH);
        let library = Library::at(size);
        let program = mespindro_tests::generate::sound_program(size, &mut random);
        let table = OwnTable::of(&program);
        let mut text = vec![7; size.text()];
        let length = (library.write)(table.lent(), table.nodes(), &mut text).expect("a text");
        assert_eq!(text[..length], write_text(&program));
        let mut again = OwnTable::empty(Lengths::for_nodes(table.nodes()));
        let count = (library.read)(&text[..length], again.lent_mut());
        assert_eq!(count, Ok(table.nodes()));
        assert_eq!(again, table);
    }
    println!("written texts are read again: {programs} programs");
}
