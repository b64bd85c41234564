//! The cases with known ends of tests/cases, through the library at both sizes and through the evaluator. Those that name no room have that of
//! document 01, 2,048 nodes.

use mespindro::{Counts, Move, Reason, Refusal, Rule, Standing, Stop};
use mespindro_tests::calls::on_program;
use mespindro_tests::compare::{Call, Tally};
use mespindro_tests::evaluator::table::OwnTable;
use mespindro_tests::evaluator::text::write_text;
use mespindro_tests::evaluator::tree::Program;
use mespindro_tests::evaluator::{self, Lengths, Size};
use mespindro_tests::library::{at_both, Library};
use mespindro_tests::on_big_stack;
use mespindro_tests::one_a_line::{at_size, lines, written_out};
use mespindro_tests::random::Random;
use mespindro_tests::short;

/// A program with what is known of its run.
struct Case {
    name: String,
    program: Program,
    limit: u32,
    room: usize,
    end: Option<Program>,
    nodes: Option<usize>,
    reason: Reason,
    steps: u32,
    standings: Option<Vec<Standing>>,
    rules: Option<Vec<Rule>>,
    counts: Option<Counts>,
    single: Option<Result<Move, Refusal>>,
}

/// The cases of a file: paragraphs of a name and lines of a word and its content.
fn cases(file: &str) -> Vec<Case> {
    let lines = file.lines().filter(|line| !line.starts_with(';'));
    let plain = lines.collect::<Vec<_>>().join("\n");
    let paragraphs = plain.split("\n\n").map(str::trim);
    paragraphs.filter(|p| !p.is_empty()).map(case).collect()
}

fn case(paragraph: &str) -> Case {
    let (name, lines) = paragraph.split_once('\n').expect("a name");
    let line = |word: &str| {
        let mut lines = lines.lines().filter_map(|line| line.split_once(' '));
        lines.find(|(w, _)| *w == word).map(|(_, content)| content)
    };
    let number = |word: &str| line(word).map(|n| n.parse::<usize>().expect("a number"));
    let program = short::program(line("program").expect("a program"));
    let end = line("end").map(|end| match end {
        "itself" => program.clone(),
        other => short::program(other),
    });
    let (reason, steps) = stop(line("stop").expect("a stop"));
    Case {
        name: name.to_string(),
        program,
        limit: number("limit").unwrap_or(10_000) as u32,
        room: number("room").unwrap_or(Size::SMALL.nodes),
        end,
        nodes: number("nodes"),
        reason,
        steps,
        standings: line("stands").map(|s| words(s, standing)),
        rules: line("rules").map(|r| words(r, rule)),
        counts: line("counts").map(counts),
        single: line("single").map(single),
    }
}

fn stop(content: &str) -> (Reason, u32) {
    let (reason, steps) = content.split_once(' ').expect("a reason and steps");
    let reason = match reason {
        "ended" => Reason::Ended,
        "steps" => Reason::Steps,
        "room" => Reason::Room,
        other => panic!("no reason is {other}"),
    };
    (reason, steps.parse().expect("steps"))
}

/// The words of a line; `-` is none.
fn words<T>(content: &str, word: fn(&str) -> T) -> Vec<T> {
    let words = content.split(' ').filter(|w| *w != "-");
    words.map(word).collect()
}

fn standing(word: &str) -> Standing {
    match word {
        "answer" => Standing::Answer,
        "stuck" => Standing::Stuck,
        "open" => Standing::Open,
        "partial" => Standing::Partial,
        other => panic!("no standing is {other}"),
    }
}

fn rule(word: &str) -> Rule {
    let mut all = Rule::ALL.into_iter();
    let found = all.find(|rule| rule.name() == word);
    found.unwrap_or_else(|| panic!("no rule is {word}"))
}

/// Six numbers in document 01's order.
fn counts(content: &str) -> Counts {
    let numbers = words(content, |n| n.parse().expect("a count"));
    let [alloc, beta, fresh, guard, unif, fail] = numbers[..] else {
        panic!("six counts are not {content}");
    };
    Counts {
        alloc,
        beta,
        fresh,
        guard,
        unif,
        fail,
    }
}

/// What a single step answers: nodes, rule and thread, or `refused` and its number.
fn single(content: &str) -> Result<Move, Refusal> {
    let number = |word: &str| word.parse().expect("a number");
    match *content.split(' ').collect::<Vec<_>>() {
        ["refused", word] => Err(refusal(word)),
        [nodes, word, thread] => Ok(Move {
            nodes: number(nodes),
            rule: rule(word),
            thread: number(thread),
        }),
        _ => panic!("no answer of a step is {content}"),
    }
}

/// Lengths of a table and a work table whose room is so many nodes: by all four, and by one alone.
fn lengths(room: usize) -> [(Lengths, Lengths); 5] {
    let (exact, wide) = (Lengths::for_nodes(room), Lengths::new(5000, 2500));
    let (by_table, by_column) = (
        Lengths::new(exact.numbers + 1, wide.column),
        Lengths::new(wide.numbers, exact.column),
    );
    [
        (exact, exact),
        (by_table, wide),
        (by_column, wide),
        (wide, by_table),
        (wide, by_column),
    ]
}

/// Reads the program's text and runs it by the library's calls of one size, in the case's room.
fn by_library(library: &Library, case: &Case) {
    let name = &case.name;
    let exact = OwnTable::of(&case.program);
    for (lengths, work_lengths) in lengths(case.room) {
        let mut table = OwnTable::empty(lengths);
        let count = (library.read)(&write_text(&case.program), table.lent_mut());
        assert_eq!(count, Ok(exact.nodes()), "{name}");
        begins_with(name, &table, &exact);
        let mut work = OwnTable::empty(work_lengths);
        let got = (library.run)(table.lent_mut(), exact.nodes(), work.lent_mut(), case.limit);
        let stop = got.unwrap_or_else(|refusal| panic!("{name}: {refusal:?}"));
        check_stop(library, case, &stop, &table);
        check_counts(case, &stop);
    }
    if let Some(rules) = &case.rules {
        assert_eq!(
            &rules_told(library, &case.program, case.steps),
            rules,
            "{name}"
        );
    }
    if let Some(single) = case.single {
        let mut out = OwnTable::empty(Lengths::FULL);
        let step = (library.step)(exact.lent(), exact.nodes(), out.lent_mut());
        assert_eq!(step, single, "{name}");
    }
}

/// The front of the memory is the table and its column.
fn begins_with(name: &str, memory: &OwnTable, table: &OwnTable) {
    assert!(memory.numbers.starts_with(&table.numbers), "{name}");
    assert!(memory.column.starts_with(&table.column), "{name}");
}

fn check_stop(library: &Library, case: &Case, stop: &Stop, table: &OwnTable) {
    let name = &case.name;
    assert_eq!(
        (stop.reason, stop.steps),
        (case.reason, case.steps),
        "{name}"
    );
    if let Some(end) = &case.end {
        begins_with(name, table, &OwnTable::of(end));
    }
    if let Some(nodes) = case.nodes {
        assert_eq!(stop.nodes, nodes, "{name}");
    }
    if let Some(standings) = &case.standings {
        for (k, standing) in standings.iter().enumerate() {
            let got = (library.standing)(table.lent(), stop.nodes, k);
            assert_eq!(got, Ok(*standing), "{name}");
        }
        let past = (library.standing)(table.lent(), stop.nodes, standings.len());
        assert_eq!(past, Err(Refusal::NoThread), "{name}");
    }
    if let (1, Some(end)) = (case.steps, &case.end) {
        single_step(library, name, &case.program, end);
    }
    // a single step of an ended program is refused, whatever the output
    if stop.reason == Reason::Ended {
        let mut none = OwnTable::empty(Lengths::NONE);
        let step = (library.step)(table.lent(), stop.nodes, none.lent_mut());
        assert_eq!(step, Err(Refusal::Finished), "{name}");
    }
}

fn check_counts(case: &Case, stop: &Stop) {
    let name = &case.name;
    assert_eq!(stop.counts.sum(), u64::from(case.steps), "{name}");
    if let Some(rules) = &case.rules {
        assert_eq!(stop.counts, evaluator::counts(rules), "{name}");
    }
    if let Some(counts) = case.counts {
        assert_eq!(stop.counts, counts, "{name}");
    }
}

/// The rules that the library tells of so many single steps, one after another.
fn rules_told(library: &Library, program: &Program, steps: u32) -> Vec<Rule> {
    let (mut table, mut out) = (OwnTable::of(program), OwnTable::empty(Lengths::FULL));
    let mut count = table.nodes();
    let mut rules = Vec::new();
    for _ in 0..steps {
        let made = (library.step)(table.lent(), count, out.lent_mut());
        let made = made.expect("the run has made this step");
        rules.push(made.rule);
        count = made.nodes;
        table = out.clone();
    }
    rules
}

/// That the call of one step gives what a run of one step gives.
fn single_step(library: &Library, name: &str, program: &Program, end: &Program) {
    let (table, end) = (OwnTable::of(program), OwnTable::of(end));
    let (numbers, column) = (end.numbers.len(), end.column.len());
    for lengths in [
        Lengths::new(numbers, column),
        Lengths::new(numbers + 1, column + 1),
        Lengths::new(4200, column),
        Lengths::new(numbers, 4200),
    ] {
        let mut out = OwnTable::empty(lengths);
        let step = (library.step)(table.lent(), table.nodes(), out.lent_mut());
        assert_eq!(step.map(|made| made.nodes), Ok(end.nodes()), "{name}");
        begins_with(name, &out, &end);
    }
}

/// Runs the program by the evaluator and looks at each step's rule.
fn by_evaluator(case: &Case) {
    let name = &case.name;
    let run = evaluator::run_program(case.program.clone(), case.room, case.limit);
    let run = run.expect("the evaluator can tell");
    let stop = run.stop();
    assert_eq!(
        (stop.reason, stop.steps),
        (case.reason, case.steps),
        "{name}"
    );
    if let Some(expected) = &case.end {
        assert_eq!(&run.end, expected, "{name}");
    }
    if let Some(nodes) = case.nodes {
        assert_eq!(stop.nodes, nodes, "{name}");
    }
    if let Some(standings) = &case.standings {
        let got: Vec<Standing> = run.end.iter().map(evaluator::step::standing).collect();
        assert_eq!(&got, standings, "{name}");
    }
    if let Some(rules) = &case.rules {
        assert_eq!(&run.rules, rules, "{name}");
    }
    check_counts(case, &stop);
}

fn check_file(name: &str, file: &str, number: usize) {
    let cases = cases(file);
    assert_eq!(cases.len(), number, "cases in {name}");
    let mut tally = Tally::default();
    let mut random = Random::new(5);
    on_big_stack(|| {
        for case in &cases {
            by_evaluator(case);
            for size in Size::BOTH {
                by_library(Library::at(size), case);
                for call in on_program(size, &case.program, &mut random) {
                    tally.compare(size, &call).unwrap_or_else(|difference| {
                        panic!("{}, {size:?}: {difference}\n{call:?}", case.name)
                    });
                }
            }
        }
    });
    println!("{name}: {number} cases, {tally}");
}

#[test]
fn of_document_01() {
    check_file("document-01.txt", include_str!("cases/document-01.txt"), 16);
}

#[test]
fn of_request_2() {
    check_file("which-rule.txt", include_str!("cases/which-rule.txt"), 21);
}

#[test]
fn of_request_4() {
    check_file("new-names.txt", include_str!("cases/new-names.txt"), 18);
}

#[test]
fn runs() {
    check_file("runs.txt", include_str!("cases/runs.txt"), 59);
}

#[test]
fn scale() {
    check_file("scale.txt", include_str!("cases/scale.txt"), 18);
}

#[test]
fn of_document_003() {
    check_file(
        "document-003.txt",
        include_str!("cases/document-003.txt"),
        15,
    );
}

fn refusal(number: &str) -> Refusal {
    let number = number.parse().expect("a refusal's number");
    Refusal::of_number(number).expect("a refusal")
}

/// Numbers with a comma between them.
fn listed(numbers: &str) -> Vec<u16> {
    let numbers = numbers.split(',');
    numbers.map(|n| n.parse().expect("a number")).collect()
}

/// The numbers of a table's words: each a number, or `K*n,n` for what stands behind the star, K times.
fn numbers<'a>(words: impl Iterator<Item = &'a str>) -> Vec<u16> {
    let of_word = |word: &str| match word.split_once('*') {
        Some((times, piece)) => listed(piece).repeat(times.parse().expect("a number")),
        None => listed(word),
    };
    words.flat_map(of_word).collect()
}

/// That reading the text at a size answers what the word says.
fn reads(size: Size, name: &str, text: &[u8], out: Lengths, outcome: &str) {
    let mut table = OwnTable::empty(out);
    let got = (Library::at(size).read)(text, table.lent_mut());
    match outcome.strip_prefix("read:") {
        Some(nodes) => {
            let (nodes, numbers) = nodes.split_once('=').unwrap_or((nodes, ""));
            assert_eq!(got, Ok(nodes.parse().expect("nodes")), "{name}");
            if !numbers.is_empty() {
                assert_eq!(table.numbers[..2 * got.unwrap()], listed(numbers), "{name}");
            }
        }
        None if outcome == "one" => {
            let refused = [Err(Refusal::TooLong), Err(Refusal::NotCanonical)];
            assert!(!refused.contains(&got), "{name}: {got:?}");
        }
        None => assert_eq!(got, Err(refusal(outcome)), "{name}"),
    }
}

#[test]
fn texts() {
    let mut number = 0;
    for line in lines(include_str!("cases/texts.txt")) {
        let mut words = line.splitn(4, ' ');
        let mut word = || words.next().unwrap_or("");
        let (name, out, outcome) = (word(), word(), word());
        let (text, out) = (written_out(word()), out.parse::<usize>().expect("a length"));
        on_big_stack(|| {
            // a column as long as the table asks for; one that is long enough for anything; the two the other way round
            for out in [
                Lengths::new(out, out / 2),
                Lengths::new(out, Size::LARGE.nodes),
                Lengths::new(2 * Size::LARGE.nodes + 1, out / 2),
            ] {
                for size in Size::BOTH {
                    reads(size, name, &text, out, at_size(outcome, size));
                    let text = text.clone();
                    let call = Call::Read { text, out };
                    Tally::default().compare(size, &call).expect(name);
                }
            }
        });
        number += 1;
    }
    println!("texts.txt: {number} cases");
}

#[test]
fn tables() {
    let mut number = 0;
    for line in lines(include_str!("cases/tables.txt")) {
        let mut words = line.split(' ');
        let name = words.next().expect("a name");
        let count = words.next().expect("a count").parse().expect("a count");
        let outcome = words.next().expect("an outcome");
        let numbers = numbers(words);
        on_big_stack(|| {
            for size in Size::BOTH {
                every_call_answers(size, name, &numbers, count, at_size(outcome, size));
            }
        });
        number += 1;
    }
    println!("tables.txt: {number} cases");
}

#[test]
fn writes() {
    let mut number = 0;
    for line in lines(include_str!("cases/writes.txt")) {
        let mut words = line.split(' ');
        let name = words.next().expect("a name");
        let out = words.next().expect("a length").parse().expect("a length");
        let count = words.next().expect("a count").parse().expect("a count");
        let outcome = words.next().expect("an outcome");
        let table = OwnTable::of_numbers(&numbers(words), count);
        for size in Size::BOTH {
            let mut bytes = vec![7; out];
            let got = (Library::at(size).write)(table.lent(), count, &mut bytes);
            let got = got.map(|length| String::from_utf8_lossy(&bytes[..length]));
            let outcome = at_size(outcome, size);
            let expected = match outcome.starts_with('(') {
                true => Ok(outcome.into()),
                false => Err(refusal(outcome)),
            };
            assert_eq!(got, expected, "{name}");
            let table = table.clone();
            let call = Call::Write { table, count, out };
            Tally::default().compare(size, &call).expect(name);
        }
        number += 1;
    }
    println!("writes.txt: {number} cases");
}

#[test]
fn threads() {
    let mut number = 0;
    for line in lines(include_str!("cases/threads.txt")) {
        let mut words = line.split(' ');
        let name = words.next().expect("a name");
        let count = words.next().expect("a count").parse().expect("a count");
        let parts = words.next().expect("the parts").split('|');
        let parts: Vec<Vec<u16>> = parts.filter(|p| *p != "-").map(listed).collect();
        let table = OwnTable::of_numbers(&numbers(words), count);
        for (k, part) in parts.iter().enumerate() {
            let told = at_both(|library| (library.thread)(table.lent(), count, k));
            assert_eq!(told, part, "{name}");
        }
        for k in [parts.len(), usize::MAX] {
            let told = at_both(|library| (library.thread)(table.lent(), count, k));
            assert!(told.is_empty(), "{name}");
        }
        number += 1;
    }
    println!("threads.txt: {number} cases");
}

/// Every call on the table refuses with the number, or none refuses it where the outcome is `-`.
fn every_call_answers(size: Size, name: &str, numbers: &[u16], count: usize, outcome: &str) {
    let own = OwnTable::of_numbers(numbers, count);
    let (mut run_table, mut other) = (own.clone(), OwnTable::empty(Lengths::FULL));
    let (library, table) = (Library::at(size), own.lent());
    let answers = [
        (library.write)(table, count, &mut vec![7; size.text()]).err(),
        (library.step)(table, count, other.lent_mut()).err(),
        (library.run)(run_table.lent_mut(), count, other.lent_mut(), 9).err(),
        (library.standing)(table, count, 0).err(),
    ];
    let part = (library.thread)(table, count, 0);
    assert!(outcome == "-" || part.is_empty(), "{name}: a part");
    for answer in answers {
        let number = answer.map_or(0, Refusal::number);
        match outcome {
            "-" => assert!(![1, 6, 8, 14].contains(&number), "{name}: refused {number}"),
            _ => assert_eq!(answer, Some(refusal(outcome)), "{name}"),
        }
    }
}
