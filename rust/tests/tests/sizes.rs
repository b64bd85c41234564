//! The two sizes beside each other (request 6): its cases; that a text or a table within the small limits means the same to both; that a text beyond
//! them is refused at the small size with 2, 5 or 7; and the statements about two sizes that look true and are not.

use mespindro::{kind, Move, Reason, Refusal, Rule, Standing, Stop};
use mespindro_tests::calls::{on_text, random_calls};
use mespindro_tests::compare::{Call, Tally};
use mespindro_tests::evaluator::table::OwnTable;
use mespindro_tests::evaluator::text::write_text;
use mespindro_tests::evaluator::tree::{application, fresh, program_size, Program, Term};
use mespindro_tests::evaluator::{Lengths, Size};
use mespindro_tests::library::{at_both, Library};
use mespindro_tests::one_a_line::{at_size, lines, written_out};
use mespindro_tests::random::Random;
use mespindro_tests::{generate, on_big_stack, short};
use std::collections::BTreeMap;
use std::path::Path;

/// What a read answers, and what it leaves in memory of these lengths.
fn read(size: Size, text: &[u8], out: Lengths) -> (Result<usize, Refusal>, OwnTable) {
    let mut out = OwnTable::empty(out);
    let got = (Library::at(size).read)(text, out.lent_mut());
    (got, out)
}

/// What a read at each size answers into memory that holds every program: the nodes, or the refusal's number.
fn reads(text: &[u8]) -> [Result<usize, u16>; 2] {
    Size::BOTH.map(|size| read(size, text, Lengths::FULL).0.map_err(Refusal::number))
}

// ---- The request's cases.

#[test]
fn cases() {
    let mut number = 0;
    for line in lines(include_str!("cases/sizes.txt")) {
        let mut words = line.splitn(3, ' ');
        let mut word = || words.next().expect("a word");
        let (name, outcome, text) = (word(), word(), written_out(word()));
        for size in Size::BOTH {
            let out = Lengths::for_nodes(size.nodes);
            let got = match read(size, &text, out).0 {
                Ok(nodes) => format!("read:{nodes}"),
                Err(refusal) => refusal.number().to_string(),
            };
            assert_eq!(got, at_size(outcome, size), "{name}, {size:?}");
            on_big_stack(|| {
                for call in on_text(size, &text) {
                    Tally::default().compare(size, &call).expect(name);
                }
            });
        }
        number += 1;
    }
    assert_eq!(number, 31);
    println!("sizes.txt: {number} cases");
}

// ---- Texts.

/// What is true of a text at both sizes. Answers how both took it.
fn check_text(text: &[u8]) -> [Result<usize, u16>; 2] {
    let [small, large] = Size::BOTH.map(|size| read(size, text, Lengths::FULL));
    match (&small.0, &large.0) {
        (Ok(nodes), _) => {
            assert_eq!(small, large);
            assert!(*nodes <= Size::SMALL.nodes && text.len() <= Size::SMALL.text());
            assert!(!has_far_number(&small.1.numbers[..2 * nodes]));
            written_back(text, *nodes, &small.1);
        }
        (Err(refusal), Ok(nodes)) => beyond(text, *refusal, *nodes, &large.1),
        (Err(refusal), other) if kept_by_both(*refusal) => assert_eq!(other, &Err(*refusal)),
        _ => {}
    }
    in_other_lengths(text, &small.0, &large.0);
    [small.0, large.0].map(|got| got.map_err(Refusal::number))
}

/// A text that a read has accepted is written back by both sizes.
fn written_back(text: &[u8], count: usize, table: &OwnTable) {
    let bytes = at_both(|library| {
        let mut bytes = vec![7; text.len()];
        let length = (library.write)(table.lent(), count, &mut bytes);
        (length, bytes)
    });
    assert_eq!(bytes, (Ok(text.len()), text.to_vec()));
}

/// The small size refuses what only the large one takes, for its nodes or for a number.
fn beyond(text: &[u8], refusal: Refusal, nodes: usize, table: &OwnTable) {
    let many = nodes > Size::SMALL.nodes;
    let far = has_far_number(&table.numbers[..2 * nodes]);
    let long = text.len() > Size::SMALL.text();
    let reason = match refusal {
        Refusal::TooLong => many && long,
        Refusal::BadNumber => far && !long,
        Refusal::TooManyNodes => many && !far && !long,
        _ => false,
    };
    assert!(reason, "{refusal}: {nodes} nodes, {}", text.escape_ascii());
}

/// Has a table a number of kinds 2, 3, 6 that the small size does not have?
fn has_far_number(numbers: &[u16]) -> bool {
    let mut nodes = numbers.chunks_exact(2);
    nodes.any(|node| match node[0] {
        kind::BOUND | kind::FREE | kind::ALLOCATED => node[1] > Size::SMALL.largest(),
        _ => false,
    })
}

/// The refusals of a read that have nothing to do with its size.
fn kept_by_both(refusal: Refusal) -> bool {
    matches!(
        refusal,
        Refusal::NotCanonical | Refusal::OutOfPlace | Refusal::NoBinder | Refusal::Incoherent
    )
}

/// In every memory: where the small size refuses for its limits, or either for the text, it does so before it looks at the memory; else both
/// answer the same and leave the same.
fn in_other_lengths(text: &[u8], small: &Result<usize, Refusal>, large: &Result<usize, Refusal>) {
    let nodes = large.unwrap_or(1);
    for lengths in [
        Lengths::NONE,
        Lengths::for_nodes(nodes - 1),
        Lengths::for_nodes(nodes),
        Lengths::new(2 * nodes, nodes - 1),
        Lengths::new(2 * nodes + 1, nodes + 1),
    ] {
        let [few, many] = Size::BOTH.map(|size| read(size, text, lengths));
        match (small, large) {
            (Ok(_), _) => assert_eq!(few, many),
            (Err(_), Ok(_)) => assert_eq!(few.0, *small),
            (Err(_), Err(_)) => assert_eq!((few.0, many.0), (*small, *large)),
        }
    }
}

/// Texts near the edges of either size: of nodes, of numbers, of bytes.
fn edge_text(random: &mut Random) -> Vec<u8> {
    let size = random.pick(&Size::BOTH);
    match random.below(4) {
        0 => write_text(&nested_to(
            random.between(size.nodes - 2, size.nodes + 2),
            random,
        )),
        1 => write_text(&list_of(
            random.between(size.nodes / 2 - 3, size.nodes / 2 + 2),
            random,
        )),
        2 => bytes_near(size.text(), random),
        _ => write_text(&generate::large_program(Size::LARGE, random)),
    }
}

/// A leaf whose number is at an edge, or not.
fn edge_leaf(random: &mut Random) -> Term {
    let number = random.pick(&[0, 1, 1, 2, 2047, 2048, 16_383, 16_384]);
    match random.below(4) {
        0 => Term::Free(number),
        1 => Term::Bound(number),
        2 => Term::Allocated(number, vec![Term::Bound(random.below(2) as u16)]),
        _ => Term::Constructor(random.pick(&[0, 65_535])),
    }
}

/// A program of so many nodes: fresh nodes over a leaf, and a second alternative now and then.
fn nested_to(nodes: usize, random: &mut Random) -> Program {
    let mut program = match random.one_in(3) {
        true => vec![edge_leaf(random)],
        false => Vec::new(),
    };
    let leaf = edge_leaf(random);
    program.push(leaf.clone());
    let missing = nodes.saturating_sub(program_size(&program));
    program.pop();
    program.push((0..missing).fold(leaf, |term, _| fresh(term)));
    program
}

/// A list of so many leaves, all but one of them constructors.
fn list_of(leaves: usize, random: &mut Random) -> Program {
    let mut program: Program = (0..leaves).map(|n| Term::Constructor(n as u16)).collect();
    let place = random.below(leaves);
    program[place] = edge_leaf(random);
    program
}

/// A text of about so many bytes: constructors of one digit to five, and sometimes some bytes behind it.
fn bytes_near(bytes: usize, random: &mut Random) -> Vec<u8> {
    let end = bytes - random.below(12) + random.below(12);
    let mut text = b"(".to_vec();
    while text.len() + 12 < end {
        let number = random.pick(&[7, 17, 217, 2047, 2048, 16_384, 65_535]);
        text.extend(format!("(1:c{}:{number})", number.to_string().len()).bytes());
    }
    text.push(b')');
    if random.one_in(3) {
        text.resize(end, b'x');
    }
    text
}

#[test]
fn texts() {
    let mut told: BTreeMap<[String; 2], usize> = BTreeMap::new();
    on_big_stack(|| {
        let mut random = Random::new(6);
        let mut look = |text: &[u8]| {
            let pair = check_text(text).map(|got| match got {
                Ok(_) => "read".to_string(),
                Err(number) => number.to_string(),
            });
            *told.entry(pair).or_default() += 1;
        };
        for _ in 0..4_000 {
            let size = random.pick(&Size::BOTH);
            look(&generate::text(size, &mut random));
        }
        for _ in 0..400 {
            look(&edge_text(&mut random));
        }
    });
    println!("at 2,048 nodes and at 16,384: {told:?}");
    let met = |small: &str, large: &str| {
        let pair = [small.to_string(), large.to_string()];
        told.get(&pair).copied().unwrap_or(0)
    };
    for large in ["read", "3", "4", "5", "6", "8"] {
        assert!(met(large, large) >= 5, "both {large}");
    }
    for (small, large) in [
        ("2", "read"),
        ("5", "read"),
        ("7", "read"),
        ("2", "7"),
        ("5", "6"),
    ] {
        assert!(met(small, large) >= 5, "{small}, then {large}");
    }
}

/// Every rule set of the repository is read as before and written back.
#[test]
fn stored_texts() {
    let folder = Path::new(env!("CARGO_MANIFEST_DIR")).join("../../rules");
    let files = std::fs::read_dir(folder).expect("rules/");
    let files = files.map(|file| file.expect("a file").path());
    let mut number = 0;
    for file in files.filter(|file| file.extension().is_some_and(|end| end == "csexp")) {
        let text = std::fs::read(&file).expect("a rule set");
        let [small, large] = check_text(&text);
        assert!(small.is_ok() && small == large, "{}", file.display());
        number += 1;
    }
    assert!(number >= 5, "only {number} rule sets");
}

// ---- The same lent tables.

/// What a call answers.
#[derive(Clone, Copy, Debug, PartialEq)]
enum Answer {
    Count(usize),
    Made(Move),
    Stopped(Stop),
    Stands(Standing),
    /// How long the part is, and where it starts.
    Part(usize, usize),
}

/// What a call answers, and all that it leaves: its table, its output or work table, its text.
type Done = (Result<Answer, Refusal>, OwnTable, OwnTable, Vec<u8>);

/// Makes a call on a table.
fn done(size: Size, call: &Call) -> Done {
    let library = Library::at(size);
    let none = || OwnTable::empty(Lengths::NONE);
    match call {
        Call::Read { text, out } => {
            let (got, out) = read(size, text, *out);
            (got.map(Answer::Count), none(), out, text.clone())
        }
        Call::Write { table, count, out } => {
            let mut text = vec![7; *out];
            let got = (library.write)(table.lent(), *count, &mut text);
            (got.map(Answer::Count), table.clone(), none(), text)
        }
        Call::Step { table, count, out } => {
            let mut out = OwnTable::empty(*out);
            let got = (library.step)(table.lent(), *count, out.lent_mut());
            (got.map(Answer::Made), table.clone(), out, Vec::new())
        }
        Call::Run {
            table,
            count,
            work,
            most,
        } => {
            let (mut table, mut work) = (table.clone(), OwnTable::empty(*work));
            let got = (library.run)(table.lent_mut(), *count, work.lent_mut(), *most);
            (got.map(Answer::Stopped), table, work, Vec::new())
        }
        Call::Standing { table, count, k } => {
            let got = (library.standing)(table.lent(), *count, *k);
            (got.map(Answer::Stands), table.clone(), none(), Vec::new())
        }
        Call::Thread { table, count, k } => {
            let part = (library.thread)(table.lent(), *count, *k);
            // an empty part may be anywhere
            let start = part.as_ptr() as usize - table.numbers.as_ptr() as usize;
            let start = if part.is_empty() { 0 } else { start / 2 };
            let part = Ok(Answer::Part(part.len(), start));
            (part, table.clone(), none(), Vec::new())
        }
    }
}

/// Whether there is no program for the small size in a call's table.
fn no_small_program(call: &Call) -> bool {
    let (table, count) = match call {
        Call::Read { .. } => return false,
        Call::Write { table, count, .. }
        | Call::Step { table, count, .. }
        | Call::Run { table, count, .. }
        | Call::Standing { table, count, .. }
        | Call::Thread { table, count, .. } => (table, *count),
    };
    let told = (Library::at(Size::SMALL).standing)(table.lent(), count, 0);
    told == Err(Refusal::NoProgram)
}

/// Whether one of a run's tables or columns holds no more nodes than the small size has.
fn bounds_the_room(table: &OwnTable, work: Lengths) -> bool {
    let lent = Lengths::of(table.lent()).nodes().min(work.nodes());
    lent <= Size::SMALL.nodes
}

/// What is true of a call on the same lent tables at both sizes.
#[derive(Clone, Copy, Debug, PartialEq, Eq, PartialOrd, Ord)]
enum Met {
    Same,
    /// The small size finds no program.
    NoProgram,
    /// A step's result is larger than the small size has it.
    Larger,
    /// A run has more room.
    Roomier,
}

fn stopped_by_room(answer: &Result<Answer, Refusal>) -> bool {
    matches!(answer, Ok(Answer::Stopped(stop)) if stop.reason == Reason::Room)
}

fn check_call(call: &Call) -> Met {
    if no_small_program(call) {
        return Met::NoProgram;
    }
    let [small, large] = Size::BOTH.map(|size| done(size, call));
    match call {
        Call::Run { table, work, .. } if !bounds_the_room(table, *work) => {
            // only a run that has stopped by room goes on
            if !stopped_by_room(&small.0) {
                assert_eq!(small, large);
            }
            Met::Roomier
        }
        Call::Step { .. } if small.0 == Err(Refusal::TooManyNodes) => {
            let larger = match large.0 {
                Ok(Answer::Made(made)) => made.nodes > Size::SMALL.nodes,
                Err(refusal) => matches!(refusal, Refusal::TooManyNodes | Refusal::NoRoom),
                Ok(other) => panic!("{other:?}"),
            };
            assert!(larger, "{:?}", large.0);
            Met::Larger
        }
        _ => {
            assert_eq!(small, large);
            Met::Same
        }
    }
}

#[test]
fn same_lent_tables() {
    let mut met: BTreeMap<Met, usize> = BTreeMap::new();
    on_big_stack(|| {
        let mut random = Random::new(60);
        for _ in 0..5_000 {
            let size = random.pick(&Size::BOTH);
            let calls = random_calls(size, &mut random);
            let on_tables = calls.iter().filter(|c| !matches!(c, Call::Read { .. }));
            for call in on_tables {
                *met.entry(check_call(call)).or_default() += 1;
            }
        }
    });
    println!("{met:?}");
    assert!(met[&Met::Same] > 10_000 && met[&Met::Larger] >= 3 && met[&Met::NoProgram] > 1_000);
}

/// A value of an odd number of nodes that is to be put in twice: the result has five nodes beside the two.
fn put_in_twice(nodes: usize) -> Program {
    let parts = vec![Term::Constructor(3); (nodes - 1) / 2];
    let value = parts.into_iter().fold(Term::Constructor(2), application);
    let twice = short::program("((L 0 ((a (a c1 b0) b0))))").remove(0);
    vec![application(twice, value)]
}

/// Steps whose results are about as large as the small size has them, in memory of every length around.
#[test]
fn steps_at_the_edge() {
    let mut met: BTreeMap<Met, usize> = BTreeMap::new();
    for value in [1017, 1019, 1021, 1023, 1025, 1027] {
        let table = OwnTable::of(&put_in_twice(value));
        let count = table.nodes();
        let result = 2 * value + 5;
        for nodes in [0, result - 1, result, result + 1, 2047, 2048, 2049, 16_384] {
            for out in [Lengths::for_nodes(nodes), Lengths::new(2 * nodes, result)] {
                let table = table.clone();
                let call = Call::Step { table, count, out };
                *met.entry(check_call(&call)).or_default() += 1;
            }
        }
    }
    assert_eq!(met, BTreeMap::from([(Met::Same, 48), (Met::Larger, 48)]));
}

/// A rule that makes more of itself at every step.
fn growing() -> Program {
    short::program("((a (l ((a (a b0 b0) b0))) (l ((a (a b0 b0) b0)))))")
}

/// A run in these tables at each size: the reason, the nodes and the steps.
fn grown(table: Lengths, work: Lengths) -> [(Reason, usize, u32); 2] {
    let before = OwnTable::within(&growing(), table);
    let count = program_size(&growing());
    let call = Call::Run {
        table: before,
        count,
        work,
        most: 10_000,
    };
    let bounded = table.nodes().min(work.nodes()) <= Size::SMALL.nodes;
    let expected = if bounded { Met::Same } else { Met::Roomier };
    assert_eq!(check_call(&call), expected);
    Size::BOTH.map(|size| match done(size, &call).0 {
        Ok(Answer::Stopped(stop)) => (stop.reason, stop.nodes, stop.steps),
        other => panic!("{other:?}"),
    })
}

/// Each of a run's four lengths gives the same room at both sizes, up to what the small size has.
#[test]
fn rooms_at_the_edge() {
    for nodes in [2043, 2044, 2047, 2048] {
        let tight = [
            Lengths::for_nodes(nodes),
            Lengths::new(2 * nodes + 1, 16_384),
            Lengths::new(32_768, nodes),
        ];
        for lengths in tight {
            for (table, work) in [(lengths, Lengths::FULL), (Lengths::FULL, lengths)] {
                let [small, large] = grown(table, work);
                assert_eq!(small, large, "{nodes}");
            }
        }
    }
}

// ---- Statements that look true and are not.

/// Not true: a text that both refuse is refused with the same number.
#[test]
fn both_refuse_with_other_numbers() {
    assert_eq!(reads(b"((1:v4:2048))"), [Err(5), Err(6)]);
    assert_eq!(reads(&[b'x'; 24_577]), [Err(2), Err(3)]);
    let mut incoherent: Program = vec![Term::Constructor(1); 1096];
    incoherent.extend(short::program("((n (L 0 (b1))))"));
    assert_eq!(program_size(&incoherent), 2199);
    assert_eq!(reads(&write_text(&incoherent)), [Err(7), Err(8)]);
}

/// Not true: what is beyond the small limits is refused with 7. A number is refused with 5, whatever the nodes.
#[test]
fn beyond_by_a_number() {
    assert_eq!(reads(b"((1:x4:2048))"), [Err(5), Ok(3)]);
    assert_eq!(reads(b"((1:L4:2048()))"), [Err(5), Ok(4)]);
}

/// Not true: a text of over 24,576 bytes has over 2,048 nodes. It need not be a text at all; one that is read has.
#[test]
fn many_bytes_and_no_nodes() {
    assert_eq!(reads(&[b'x'; 24_577]), [Err(2), Err(3)]);
    let atom = format!("((1:c30000:{}))", "1".repeat(30_000));
    assert_eq!(reads(atom.as_bytes()), [Err(2), Err(5)]);
}

/// Not true: a step at both sizes gives the same, or 7 at the small one and a result at the large one. There may be no room for that result.
#[test]
fn too_many_nodes_or_no_room() {
    let table = OwnTable::of(&put_in_twice(1023));
    let (count, result) = (table.nodes(), 2051);
    let step = |nodes| {
        let table = table.clone();
        let out = Lengths::for_nodes(nodes);
        let call = Call::Step { table, count, out };
        Size::BOTH.map(|size| done(size, &call).0)
    };
    let made = Answer::Made(Move {
        nodes: result,
        rule: Rule::Beta,
        thread: 0,
    });
    let too_many = Err(Refusal::TooManyNodes);
    assert_eq!(step(result), [too_many, Ok(made)]);
    assert_eq!(step(result - 1), [too_many, Err(Refusal::NoRoom)]);
}

/// Not true: a run ends in the same program at both sizes. In larger tables the large one goes on where the other one stopped by room.
#[test]
fn a_run_goes_on() {
    let [small, large] = grown(Lengths::FULL, Lengths::FULL);
    assert_eq!(small, (Reason::Room, 2044, 227));
    assert_eq!(large.0, Reason::Room);
    assert!(large.1 > 2 * small.1 && large.2 > small.2, "{large:?}");
}

/// Not true: an index below the limit has its binder within as many nodes. 5 is asked before 6 and 7.
#[test]
fn an_index_in_range() {
    let below = |levels: usize| {
        let (open, close) = ("(1:n".repeat(levels), ")".repeat(levels));
        format!("({open}(1:v4:2047){close})").into_bytes()
    };
    assert_eq!(reads(&below(2048)), [Err(7), Ok(2051)]);
    assert_eq!(reads(&below(2047)), [Err(6), Err(6)]);
}
