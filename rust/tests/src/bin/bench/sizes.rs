//! Both sizes in one run: the large calls against the small ones in the same lent memory, what the larger arrays cost a tiny program, and how the
//! time grows with the nodes.

use crate::inputs::{self, Case, Growing};
use crate::times::{least, least_of_each, ratio, thousands, time};
use crate::{fill, long_program};
use mespindro::{Refusal, Standing};
use mespindro_tests::evaluator::table::OwnTable;
use mespindro_tests::evaluator::{Lengths, Size};
use mespindro_tests::library::Library;
use std::cell::RefCell;
use std::fmt::Write;
use std::hint::black_box;
use std::time::Duration;

/// What is found of both sizes.
pub struct Sizes {
    alike: Vec<Pair>,
    tiny: Vec<Pair>,
    growth: Vec<Growth>,
}

/// The same call at both sizes, in the same lent memory.
struct Pair {
    name: String,
    nodes: usize,
    small: Duration,
    large: Duration,
}

impl Pair {
    fn new(name: &str, nodes: usize, [small, large]: [Duration; 2]) -> Pair {
        Pair {
            name: name.to_string(),
            nodes,
            small,
            large,
        }
    }

    fn ratio(&self) -> f64 {
        ratio(self.large, self.small)
    }
}

/// The small call on a program, and the large one on a larger program of the same kind.
struct Growth {
    name: String,
    nodes: [usize; 2],
    times: [Duration; 2],
}

/// The programs on which the sizes are compared have at least so many nodes.
const LARGE_ENOUGH: usize = 1000;

pub fn measure(cases: &[Case], mut progress: impl FnMut(&str)) -> Sizes {
    let mut sizes = Sizes {
        alike: Vec::new(),
        tiny: Vec::new(),
        growth: Vec::new(),
    };
    for case in cases {
        if case.table.nodes() >= LARGE_ENOUGH {
            progress(case.name);
            let times = run_times(
                &case.table,
                case.most,
                Lengths::for_nodes(Size::SMALL.nodes),
            );
            let nodes = case.table.nodes();
            sizes.alike.push(Pair::new(case.name, nodes, times));
        }
    }
    progress("the other calls");
    sizes.alike.extend(others());
    progress("a tiny program");
    sizes.tiny.extend(tiny());
    for growing in inputs::growing() {
        progress(growing.name);
        sizes.growth.push(growth(&growing));
    }
    progress("texts of both sizes");
    sizes.growth.extend(text_growth());
    sizes
}

// ---- The times.

fn libraries() -> [&'static Library; 2] {
    Size::BOTH.map(Library::at)
}

/// Runs a program at both sizes, by turns in the same memory of these lengths.
fn run_times(program: &OwnTable, most: u32, lengths: Lengths) -> [Duration; 2] {
    run_with(libraries(), program, most, lengths)
}

fn run_with<const N: usize>(
    libraries: [&'static Library; N],
    program: &OwnTable,
    most: u32,
    lengths: Lengths,
) -> [Duration; N] {
    let lent = || RefCell::new(OwnTable::empty(lengths));
    let (table, work) = (lent(), lent());
    least_of_each(
        libraries,
        || {
            fill(&mut table.borrow_mut(), Some(program));
            fill(&mut work.borrow_mut(), None);
        },
        |library, done| {
            let (mut table, mut work) = (table.borrow_mut(), work.borrow_mut());
            let stop = (library.run)(table.lent_mut(), program.nodes(), work.lent_mut(), most);
            done();
            stop.expect("the case runs");
        },
    )
}

/// A call at both sizes that needs nothing to be prepared.
fn both<T>(mut call: impl FnMut(&'static Library) -> Result<T, Refusal>) -> [Duration; 2] {
    least_of_each(
        libraries(),
        || {},
        |library, done| {
            let answer = call(library);
            done();
            black_box(answer.expect("it is accepted"));
        },
    )
}

/// The calls that are no run, on the programs of their rows.
fn others() -> [Pair; 4] {
    let (text, long) = long_program();
    let name = |what: &str| format!("{what} of {} bytes", thousands(text.len()));
    let mut out = OwnTable::empty(Lengths::for_nodes(Size::SMALL.nodes));
    let read = both(|library| (library.read)(&text, out.lent_mut()));
    let mut bytes = vec![0; Size::SMALL.text()];
    let nodes = long.nodes();
    let write = both(|library| (library.write)(long.lent(), nodes, &mut bytes));

    let plain = inputs::with_column(inputs::plain_structure());
    let standing = both(|library| (library.standing)(plain.lent(), plain.nodes(), 0));
    let placements = inputs::with_column(inputs::placements(255));
    let count = placements.nodes();
    let reading_out = both(|library| {
        for k in 0..255 {
            let told = (library.standing)(placements.lent(), count, k)?;
            assert_eq!(told, Standing::Answer);
            black_box((library.thread)(placements.lent(), count, k));
        }
        Ok(())
    });
    [
        Pair::new(&name("reading a text"), nodes, read),
        Pair::new(&name("writing a text"), nodes, write),
        Pair::new(
            "the standing of a structure of 1,999 nodes",
            plain.nodes(),
            standing,
        ),
        Pair::new(
            "255 placements, each by standing and thread",
            count,
            reading_out,
        ),
    ]
}

/// What is lent to the calls on a tiny program, in nodes.
const TINY_MEMORY: usize = 32;

/// A program of 8 nodes: nearly all of the time is the arrays'.
fn tiny() -> [Pair; 3] {
    let lengths = Lengths::for_nodes(TINY_MEMORY);
    let program = inputs::with_column(inputs::tiny());
    let nodes = program.nodes();
    let mut text = vec![0; 12 * nodes];
    let write = Library::at(Size::SMALL).write;
    let length = write(program.lent(), nodes, &mut text).expect("a program");
    let mut out = OwnTable::empty(lengths);
    let read = both(|library| (library.read)(&text[..length], out.lent_mut()));
    let step = both(|library| (library.step)(program.lent(), nodes, out.lent_mut()));
    let run = run_times(&program, 10_000, lengths);
    [
        Pair::new("a read", nodes, read),
        Pair::new("a step", nodes, step),
        Pair::new("a run", nodes, run),
    ]
}

/// Each size on its own program, in memory for as many nodes as its limit.
fn growth(growing: &Growing) -> Growth {
    let time = |size: Size, program: &OwnTable| {
        let lengths = Lengths::for_nodes(size.nodes);
        let [time] = run_with([Library::at(size)], program, growing.most, lengths);
        time
    };
    Growth {
        name: growing.name.to_string(),
        nodes: [growing.small.nodes(), growing.large.nodes()],
        times: [
            time(Size::SMALL, &growing.small),
            time(Size::LARGE, &growing.large),
        ],
    }
}

/// Texts of structures of 1,022 and 8,190 applications, written and read.
fn text_growth() -> [Growth; 2] {
    let programs = [1022, 8190].map(|k| inputs::with_column(inputs::long_structure(k)));
    let nodes = [programs[0].nodes(), programs[1].nodes()];
    let mut lengths = [0; 2];
    let (mut written, mut read) = ([Duration::ZERO; 2], [Duration::ZERO; 2]);
    for (i, size) in Size::BOTH.into_iter().enumerate() {
        let (library, program) = (Library::at(size), &programs[i]);
        let mut text = vec![0; size.text()];
        let mut out = OwnTable::empty(Lengths::for_nodes(size.nodes));
        written[i] = least(
            || {},
            |done| {
                let length = (library.write)(program.lent(), nodes[i], &mut text);
                done();
                lengths[i] = length.expect("the table is written");
            },
        );
        read[i] = least(
            || {},
            |done| {
                let count = (library.read)(&text[..lengths[i]], out.lent_mut());
                done();
                assert_eq!(count, Ok(nodes[i]));
            },
        );
    }
    let [small, large] = lengths.map(thousands);
    [("reading", read), ("writing", written)].map(|(what, times)| Growth {
        name: format!("{what} a text of {small} and {large} bytes"),
        nodes,
        times,
    })
}

// ---- The report.

pub fn report(sizes: &Sizes, out: &mut String) {
    alike(&sizes.alike, out);
    tiny_report(&sizes.tiny, out);
    growth_report(&sizes.growth, out);
}

fn alike(pairs: &[Pair], out: &mut String) {
    let most = pairs.iter().map(Pair::ratio).fold(0.0, f64::max);
    writeln!(out, "\nThe large calls (16,384 nodes) against the small ones, by turns in the same lent memory of 2,048 nodes, on the rows of 1,000 nodes and more: at most {most:.2}.\n").unwrap();
    out.push_str("| input | nodes | small | large | large / small |\n|---|---|---|---|---|\n");
    for pair in pairs {
        writeln!(
            out,
            "| {} | {} | {} | {} | {:.2} |",
            pair.name,
            thousands(pair.nodes),
            time(pair.small),
            time(pair.large),
            pair.ratio(),
        )
        .unwrap();
    }
}

fn tiny_report(pairs: &[Pair], out: &mut String) {
    writeln!(out, "\nA program of 8 nodes in lent memory of {TINY_MEMORY}: a call's own arrays are filled when it begins, and the large call's are eight times as long.\n").unwrap();
    out.push_str("| call | small | large | more |\n|---|---|---|---|\n");
    for pair in pairs {
        let us = |d: Duration| format!("{:.2} µs", d.as_secs_f64() * 1e6);
        writeln!(
            out,
            "| {} | {} | {} | {} |",
            pair.name,
            us(pair.small),
            us(pair.large),
            us(pair.large.saturating_sub(pair.small)),
        )
        .unwrap();
    }
}

fn growth_report(rows: &[Growth], out: &mut String) {
    writeln!(out, "\nHow the time grows: the small call on a program, and the large one on one of the same kind with about eight times the nodes, each in lent memory of its limit.\n").unwrap();
    out.push_str("| input | nodes | small | nodes | large | times |\n|---|---|---|---|---|---|\n");
    for row in rows {
        writeln!(
            out,
            "| {} | {} | {} | {} | {} | {:.1} |",
            row.name,
            thousands(row.nodes[0]),
            time(row.times[0]),
            thousands(row.nodes[1]),
            time(row.times[1]),
            ratio(row.times[1], row.times[0]),
        )
        .unwrap();
    }
}
