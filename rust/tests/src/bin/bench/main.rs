//! The benchmark: the library against the independent evaluator and against the floor of copying the table once a step, with the small calls;
//! against a baseline that copies values as it unifies; and the large calls against the small ones.
//!
//! `bench FOLDER` writes FOLDER/SPEED.md's tables between its two marks, FOLDER/speed.svg and FOLDER/copying.svg; without a folder it prints the
//! tables. Both sides are release builds in one process on the same inputs; before each call the table is filled anew and the work table cleared,
//! both with their columns, outside the time. Each time is the least of several rounds; of a call of 2 ms and more this thread's own share of the
//! time counts. tools/bench builds and runs it.
//!
//! `bench copying` prints the baseline's table alone, `bench copying PART` its rows with PART in their names. `bench repeat NAME N` makes the
//! library's call of such a row N times, for a profiler.

mod copying;
mod copying_chart;
mod copying_inputs;
mod inputs;
mod places;
mod sizes;
mod times;

use inputs::{cases, long_structure, placements, plain_structure, with_column, Case};
use mespindro::{small, Standing};
use mespindro_tests::evaluator::table::{read_table, OwnTable};
use mespindro_tests::evaluator::{self, Lengths, Size};
use mespindro_tests::on_big_stack;
use mespindro_tests::progress::Progress;
use std::cell::RefCell;
use std::fmt::Write;
use std::hint::black_box;
use std::path::Path;
use std::process::Command;
use std::time::Duration;
use times::{least, ratio, thousands, time};

/// The size of the rows against the evaluator: that of before there were two, so that they can be compared with older ones.
const SIZE: Size = Size::SMALL;

/// What is lent for them.
fn lengths() -> Lengths {
    Lengths::for_nodes(SIZE.nodes)
}

/// What is found of one case: times of the whole call.
struct Row {
    name: String,
    nodes: usize,
    steps: u32,
    library: Duration,
    evaluator: Option<Duration>,
    floor: Duration,
}

impl Row {
    /// How many times the library is faster than the evaluator.
    fn faster(&self) -> Option<f64> {
        self.evaluator.map(|e| ratio(e, self.library))
    }
}

fn main() {
    let arguments: Vec<String> = std::env::args().skip(1).collect();
    let words: Vec<&str> = arguments.iter().map(String::as_str).collect();
    match words[..] {
        [] => print!("{}", on_big_stack(measure_all).text()),
        ["copying"] => print!("{}", on_big_stack(|| copying_alone(""))),
        ["copying", part] => print!("{}", on_big_stack(|| copying_alone(part))),
        ["repeat", name, times] => on_big_stack(|| repeat(name, times)),
        [folder] => on_big_stack(measure_all).store(Path::new(folder)),
        _ => panic!("bench [FOLDER | copying [PART] | repeat NAME N]"),
    }
}

/// All that is found.
struct Found {
    rows: Vec<Row>,
    prolog: Option<(f64, f64)>,
    copying: Vec<copying::Row>,
    sizes: sizes::Sizes,
}

impl Found {
    fn text(&self) -> String {
        let mut text = report(&self.rows, &self.prolog);
        copying::report(&self.copying, &mut text);
        sizes::report(&self.sizes, &mut text);
        text
    }

    fn store(&self, folder: &Path) {
        store_text(&folder.join("SPEED.md"), &self.text());
        let charts = [
            ("speed.svg", chart(&self.rows)),
            ("copying.svg", copying_chart::chart(&self.copying)),
        ];
        for (name, chart) in charts {
            std::fs::write(folder.join(name), chart).expect("a chart is written");
        }
    }
}

fn copying_alone(part: &str) -> String {
    let mut progress = Progress::on_terminal();
    let rows = copying::measure(part, |name| progress.show(name));
    let mut text = String::new();
    copying::report(&rows, &mut text);
    text
}

fn repeat(name: &str, times: &str) {
    let times = times.parse().expect("how often");
    if !copying::repeat(name, times) {
        panic!("no such row; there are:\n{}", copying::names().join("\n"));
    }
}

/// A row that is no run: what is measured, and how.
type Other = (&'static str, fn() -> Row);

const OTHERS: [Other; 4] = [
    ("reading a text", reading),
    ("writing a text", writing),
    ("the standing of a structure", standing),
    ("placements by standing and thread", reading_out),
];

fn measure_all() -> Found {
    let cases = cases();
    let all = cases.len() + OTHERS.len();
    let mut progress = Progress::on_terminal();
    let mut rows = Vec::new();
    let mut next = |name: &str, measure: &dyn Fn() -> Row| {
        progress.show(&format!("row {} of {all}: {name}", rows.len() + 1));
        rows.push(measure());
    };
    for case in &cases {
        next(case.name, &|| measure(case));
    }
    for (name, measure) in OTHERS {
        next(name, &measure);
    }
    let copying = copying::measure("", |name| {
        progress.show(&format!("against copying: {name}"))
    });
    let sizes = sizes::measure(&cases, |name| progress.show(&format!("both sizes: {name}")));
    Found {
        rows,
        prolog: prolog_times(),
        copying,
        sizes,
    }
}

// ---- The times.

fn measure(case: &Case) -> Row {
    let nodes = case.table.nodes();
    let (library, steps) = library_run(case);
    let evaluator = (!case.alone).then(|| evaluator_run(case));
    Row {
        name: case.name.to_string(),
        nodes,
        steps,
        library,
        evaluator,
        floor: copy_floor(nodes) * steps.max(1),
    }
}

fn library_run(case: &Case) -> (Duration, u32) {
    let lent = || RefCell::new(OwnTable::empty(lengths()));
    let (table, work) = (lent(), lent());
    let mut steps = 0;
    let count = case.table.nodes();
    let time = least(
        || {
            fill(&mut table.borrow_mut(), Some(&case.table));
            fill(&mut work.borrow_mut(), None);
        },
        |done| {
            let (mut table, mut work) = (table.borrow_mut(), work.borrow_mut());
            let stop = small::run(table.lent_mut(), count, work.lent_mut(), case.most);
            done();
            steps = stop.expect("the case runs").steps;
        },
    );
    (time, steps)
}

/// Fills lent memory anew: a program at the front, zeros behind it.
fn fill(memory: &mut OwnTable, program: Option<&OwnTable>) {
    memory.numbers.fill(0);
    memory.column.fill(0);
    if let Some(program) = program {
        memory.numbers[..program.numbers.len()].copy_from_slice(&program.numbers);
        memory.column[..program.nodes()].copy_from_slice(&program.column);
    }
}

/// The evaluator's whole call: it reads the table into a tree, runs it and writes the end's table and column.
fn evaluator_run(case: &Case) -> Duration {
    let mut table = OwnTable::empty(lengths());
    fill(&mut table, Some(&case.table));
    let count = case.table.nodes();
    least(
        || {},
        |done| {
            let end = evaluator::run(SIZE, table.lent(), count, lengths(), case.most);
            done();
            black_box(end.expect("small enough to copy").expect("the case runs"));
        },
    )
}

/// Copying so many nodes once: the least of many rounds of 1,000 copies.
fn copy_floor(nodes: usize) -> Duration {
    let from = vec![1u16; 2 * nodes];
    let mut to = vec![0u16; 2 * nodes];
    let thousand = least(
        || {},
        |done| {
            for _ in 0..1000 {
                to.copy_from_slice(black_box(&from));
                black_box(&mut to);
            }
            done();
        },
    );
    thousand / 1000
}

fn long_program() -> (Vec<u8>, OwnTable) {
    let table = with_column(long_structure(1022));
    let program = read_table(SIZE, table.lent(), table.nodes()).expect("a program");
    (evaluator::text::write_text(&program), table)
}

fn reading() -> Row {
    let (text, table) = long_program();
    let mut out = OwnTable::empty(lengths());
    let library = least(
        || {},
        |done| {
            let read = small::read(&text, out.lent_mut());
            done();
            read.expect("the text is read");
        },
    );
    let evaluator = least(
        || {},
        |done| {
            let read = evaluator::read(SIZE, &text, lengths());
            done();
            black_box(read.expect("the text is read"));
        },
    );
    row("reading a text", &text, &table, library, evaluator)
}

fn writing() -> Row {
    let (text, table) = long_program();
    let mut out = vec![0u8; SIZE.text()];
    let library = least(
        || {},
        |done| {
            let written = small::write(table.lent(), table.nodes(), &mut out);
            done();
            written.expect("the table is written");
        },
    );
    let evaluator = least(
        || {},
        |done| {
            let written = evaluator::write(SIZE, table.lent(), table.nodes(), SIZE.text());
            done();
            black_box(written.expect("the table is written"));
        },
    );
    row("writing a text", &text, &table, library, evaluator)
}

/// How one long thread stands.
fn standing() -> Row {
    let table = with_column(plain_structure());
    let count = table.nodes();
    let library = least(
        || {},
        |done| {
            let told = small::standing(table.lent(), count, 0);
            done();
            assert_eq!(told, Ok(Standing::Answer));
        },
    );
    let evaluator = least(
        || {},
        |done| {
            let told = evaluator::standing(SIZE, table.lent(), count, 0);
            done();
            assert_eq!(told, Ok(Standing::Answer));
        },
    );
    Row {
        name: "the standing of a structure of 1,999 nodes".to_string(),
        nodes: count,
        steps: 0,
        library,
        evaluator: Some(evaluator),
        floor: copy_floor(count),
    }
}

/// Every thread's standing and part, each by its own call; against copying the table once.
fn reading_out() -> Row {
    let table = with_column(placements(255));
    let count = table.nodes();
    let library = least(
        || {},
        |done| {
            for k in 0..255 {
                black_box(small::standing(table.lent(), count, k).expect("a thread"));
                black_box(small::thread(table.lent(), count, k));
            }
            done();
        },
    );
    let evaluator = least(
        || {},
        |done| {
            for k in 0..255 {
                black_box(evaluator::standing(SIZE, table.lent(), count, k).expect("a thread"));
                black_box(evaluator::thread(SIZE, table.lent(), count, k).expect("a thread"));
            }
            done();
        },
    );
    Row {
        name: "255 placements, each by standing and thread".to_string(),
        nodes: count,
        steps: 0,
        library,
        evaluator: Some(evaluator),
        floor: copy_floor(count),
    }
}

fn row(what: &str, text: &[u8], table: &OwnTable, library: Duration, evaluator: Duration) -> Row {
    Row {
        name: format!("{what} of {} bytes", thousands(text.len())),
        nodes: table.nodes(),
        steps: 0,
        library,
        evaluator: Some(evaluator),
        floor: copy_floor(table.nodes()),
    }
}

/// SWI-Prolog's time for the two structures, in microseconds; none where it is not installed.
fn prolog_times() -> Option<(f64, f64)> {
    let file = Path::new(env!("CARGO_MANIFEST_DIR")).join("bench/unify.pl");
    let output = Command::new("swipl")
        .args(["-q", "-g", "main", "-t", "halt"])
        .arg(file)
        .output()
        .ok()?;
    let text = String::from_utf8(output.stdout).ok()?;
    let mut numbers = text.split_whitespace().map(|n| n.parse::<f64>());
    Some((numbers.next()?.ok()?, numbers.next()?.ok()?))
}

// ---- The report.

fn report(rows: &[Row], prolog: &Option<(f64, f64)>) -> String {
    let mut out = String::new();
    let machine = std::env::consts::ARCH;
    writeln!(out, "Measured on {machine}, one run of `tools/bench`, with the small calls (2,048 nodes); both sizes below.\n").unwrap();
    writeln!(
        out,
        "| input | nodes | steps | library | evaluator | times faster | against copying |"
    )
    .unwrap();
    writeln!(out, "|---|---|---|---|---|---|---|").unwrap();
    for row in rows {
        writeln!(
            out,
            "| {} | {} | {} | {} | {} | {} | {:.0} |",
            row.name,
            thousands(row.nodes),
            thousands(row.steps as usize),
            time(row.library),
            row.evaluator.map_or("-".to_string(), time),
            row.faster()
                .map_or("-".to_string(), |faster| format!("{faster:.1}")),
            ratio(row.library, row.floor),
        )
        .unwrap();
    }
    let own = |row: &Row, idle: &Row| time(row.library.saturating_sub(idle.library));
    writeln!(
        out,
        "\nA unification's own time, beyond a call on as many nodes of the same kinds that has nothing to do: equal structures {}, against variables {}.",
        own(&rows[2], &rows[0]),
        own(&rows[3], &rows[1])
    )
    .unwrap();
    if let Some((equal, variables)) = prolog {
        writeln!(
            out,
            "SWI-Prolog's `unify_with_occurs_check` on the same: {equal:.1} µs, {variables:.1} µs."
        )
        .unwrap();
    }
    out
}

/// Bars of how many times faster the library is, on a scale of powers of ten.
fn chart(rows: &[Row]) -> String {
    let (line, left, width) = (24, 380, 420.0);
    let bars: Vec<(&str, f64)> = rows
        .iter()
        .filter_map(|row| Some((row.name.as_str(), row.faster()?)))
        .collect();
    let height = line * bars.len() + 50;
    let most = bars
        .iter()
        .map(|bar| bar.1)
        .fold(10.0, f64::max)
        .log10()
        .ceil();
    let mut out = format!(
        "<svg xmlns=\"http://www.w3.org/2000/svg\" width=\"880\" height=\"{height}\" font-family=\"sans-serif\" font-size=\"12\">\n<rect width=\"880\" height=\"{height}\" fill=\"white\"/>\n<text x=\"10\" y=\"18\" font-weight=\"bold\">Times faster than the independent Rust evaluator (scale of powers of ten)</text>\n"
    );
    for power in 0..=most as u32 {
        let x = left as f64 + width * power as f64 / most;
        writeln!(out, "<line x1=\"{x:.0}\" y1=\"28\" x2=\"{x:.0}\" y2=\"{}\" stroke=\"#ccc\"/>\n<text x=\"{x:.0}\" y=\"{}\" text-anchor=\"middle\" fill=\"#666\">{}</text>", height - 20, height - 6, 10u64.pow(power)).unwrap();
    }
    for (i, (name, faster)) in bars.iter().enumerate() {
        let bar = (width * faster.log10() / most).max(1.0);
        let y = 34 + line * i;
        writeln!(out, "<text x=\"{}\" y=\"{}\" text-anchor=\"end\">{}</text>\n<rect x=\"{left}\" y=\"{y}\" width=\"{bar:.0}\" height=\"16\" fill=\"#3a6ea5\"/>\n<text x=\"{:.0}\" y=\"{}\">{faster:.1}</text>", left - 8, y + 13, name, left as f64 + bar + 5.0, y + 13).unwrap();
    }
    out.push_str("</svg>\n");
    out
}

const BEGIN: &str = "<!-- the table of tools/bench begins -->\n";
const END: &str = "<!-- the table of tools/bench ends -->\n";

/// Puts the text between the file's marks.
fn store_text(file: &Path, text: &str) {
    let old = std::fs::read_to_string(file).expect("docs/SPEED.md is there");
    let begin = old.find(BEGIN).expect("the first mark") + BEGIN.len();
    let end = old.find(END).expect("the second mark");
    std::fs::write(file, format!("{}{}{}", &old[..begin], text, &old[end..]))
        .expect("SPEED.md is written");
}
