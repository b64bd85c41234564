//! The library against the baseline, a plain program that copies each value as a variable takes it: long structures, runs of many unifications,
//! and towers whose unifier doubles at each variable.
//!
//! Two measures: the whole call, with the check of its table on both sides; and the steps alone, which are the whole call less one on the same
//! nodes that has nothing to do.

use crate::copying_inputs::{inputs, Family, Input};
use crate::places::{Memory, PLACES};
use crate::times::{fine_time, ratio, steady_least, taken, thousands};
use mespindro::{Reason, Stop, TableMut};
use mespindro_tests::baseline::Baseline;
use mespindro_tests::evaluator::table::OwnTable;
use mespindro_tests::library::Library;
use std::fmt::Write;
use std::time::Duration;

/// What is found of one input.
pub struct Row {
    pub name: String,
    pub family: Family,
    nodes: usize,
    steps: u32,
    /// Of the whole call.
    pub whole: Times,
    /// Of its steps alone.
    pub step: Times,
}

/// The times of both sides; of the library alone where the other has none.
pub struct Times {
    pub library: Duration,
    pub baseline: Option<Duration>,
}

impl Times {
    /// How many times the library is faster; none where one of them is lost in the clock.
    pub fn faster(&self) -> Option<f64> {
        let baseline = self.baseline?;
        let told = !self.library.is_zero() && !baseline.is_zero();
        told.then(|| ratio(baseline, self.library))
    }
}

/// The rows that have this in their names.
pub fn measure(part: &str, mut progress: impl FnMut(&str)) -> Vec<Row> {
    let inputs = inputs();
    let wanted = inputs.iter().filter(|input| input.name.contains(part));
    let measured = wanted.map(|input| {
        progress(&input.name);
        row(input)
    });
    measured.collect()
}

/// Calls the library so often on the input of that name and does nothing else; says whether there is one.
pub fn repeat(name: &str, times: usize) -> bool {
    let inputs = inputs();
    let input = inputs.iter().find(|input| input.name == name);
    if let Some(input) = input {
        let mut stand = Stand::new(input);
        for _ in 0..times {
            stand.fill(Task::CALL, 1);
            stand.calls(Task::CALL, 1);
        }
    }
    input.is_some()
}

pub fn names() -> Vec<String> {
    inputs().into_iter().map(|input| input.name).collect()
}

// ---- The times.

#[derive(Clone, Copy, PartialEq, Eq)]
enum Side {
    Library,
    Baseline,
}

/// One of the calls that are timed by turns: on the input, or on the same nodes with nothing to do.
#[derive(Clone, Copy, PartialEq, Eq)]
struct Task {
    side: Side,
    idle: bool,
}

impl Task {
    const CALL: Task = Task {
        side: Side::Library,
        idle: false,
    };
}

/// Shorter calls are timed so many at once, each on memory of its own: the clock's own time would show.
const SHORT: Duration = Duration::from_micros(5);
const AT_ONCE: usize = PLACES;

/// An input with all that its calls need.
struct Stand<'i> {
    input: &'i Input,
    idle: OwnTable,
    baseline: Baseline,
    memory: Memory,
    /// Where the next round's first call is made.
    place: usize,
}

impl Stand<'_> {
    fn new(input: &Input) -> Stand<'_> {
        Stand {
            input,
            idle: input.idle(),
            baseline: Baseline::new(input.size),
            memory: Memory::new(input.size),
            place: 0,
        }
    }

    /// The places of so many calls.
    fn places(&self, calls: usize) -> impl Iterator<Item = usize> {
        (self.place..self.place + calls).map(|place| place % PLACES)
    }

    fn fill(&mut self, task: Task, calls: usize) {
        for place in self.places(calls) {
            let program = match task.idle {
                true => &self.idle,
                false => &self.input.program,
            };
            self.memory.fill(place, program);
        }
    }

    /// So many calls, each in its own place; what the last one tells.
    fn calls(&mut self, task: Task, calls: usize) -> Stop {
        let (count, most) = (self.input.program.nodes(), self.input.most(task.idle));
        let library = Library::at(self.input.size);
        let mut stop = None;
        for place in self.places(calls) {
            let [numbers, column, work, work_column] = self.memory.at(place);
            stop = Some(match task.side {
                Side::Library => {
                    let table = TableMut::new(numbers, column);
                    (library.run)(table, count, TableMut::new(work, work_column), most)
                }
                Side::Baseline => {
                    let stop = self.baseline.run(numbers, count, work, most);
                    stop.expect("small enough to copy")
                }
            });
        }
        stop.expect("at least one call").expect("the input runs")
    }

    /// The time of one call, by so many at once.
    fn round(&mut self, task: Task, calls: usize) -> Duration {
        self.fill(task, calls);
        taken(|| {
            self.calls(task, calls);
        }) / calls as u32
    }

    /// The end of one call, with all that it leaves in its table.
    fn end(&mut self, task: Task) -> (Stop, Vec<u16>) {
        self.fill(task, 1);
        let stop = self.calls(task, 1);
        let [numbers, ..] = self.memory.at(self.place);
        (stop, numbers.to_vec())
    }

    /// How many calls of a side are timed at once.
    fn at_once(&mut self, side: Side) -> usize {
        let task = Task { side, idle: false };
        let first = (0..5).map(|_| self.round(task, 1)).min();
        match first.expect("some rounds") {
            time if time < SHORT => AT_ONCE,
            _ => 1,
        }
    }

    fn next_place(&mut self) {
        self.place = (self.place + 1) % PLACES;
    }
}

fn row(input: &Input) -> Row {
    let mut stand = Stand::new(input);
    let tasks = tasks(input);
    let steps = compared(&mut stand, &tasks);
    let times = times(&mut stand, &tasks);
    let time = |side, idle| {
        let place = tasks.iter().position(|t| *t == Task { side, idle });
        place.map(|place| times[place])
    };
    let step = |side| Some(time(side, false)?.saturating_sub(time(side, true)?));
    Row {
        name: input.name.clone(),
        family: input.family,
        nodes: input.program.nodes(),
        steps,
        whole: Times {
            library: time(Side::Library, false).expect("of each input"),
            baseline: time(Side::Baseline, false),
        },
        step: Times {
            library: step(Side::Library).expect("of each input"),
            baseline: step(Side::Baseline),
        },
    }
}

/// What is called on an input, and idle: by both sides, unless it is for one alone.
fn tasks(input: &Input) -> Vec<Task> {
    let mut tasks = Vec::new();
    for side in [Side::Library, Side::Baseline] {
        if side == Side::Library || input.family != Family::Alone {
            tasks.extend([false, true].map(|idle| Task { side, idle }));
        }
    }
    tasks
}

/// The steps of the input, after all have come to the same end, and the idle ones to none.
fn compared(stand: &mut Stand, tasks: &[Task]) -> u32 {
    let name = &stand.input.name;
    let (stop, end) = stand.end(Task::CALL);
    // a single step is made, and a run is not cut short by room
    assert!(stop.steps == 1 || stop.reason == Reason::Ended, "{name}");
    for &task in tasks {
        let (told, left) = stand.end(task);
        if task.idle {
            assert_eq!(told.steps, 0, "{name}");
        } else {
            assert!(told == stop && left == end, "{name}: {told:?}, {stop:?}");
        }
    }
    stop.steps
}

fn times(stand: &mut Stand, tasks: &[Task]) -> Vec<Duration> {
    let mut ways: Vec<(Task, usize)> = Vec::new();
    for &task in tasks {
        // both of a side alike, since their difference is taken
        let calls = match ways.last() {
            Some((before, calls)) if before.side == task.side => *calls,
            _ => stand.at_once(task.side),
        };
        ways.push((task, calls));
    }
    let mut round = 0;
    steady_least(&ways, |(task, calls)| {
        // each way meets the same places
        if round % ways.len() == 0 {
            stand.next_place();
        }
        round += 1;
        stand.round(task, calls)
    })
}

// ---- The report.

pub fn report(rows: &[Row], out: &mut String) {
    out.push_str("\nThe library against the baseline that copies, of which the section under the tables tells:\n\n");
    out.push_str("| input | nodes | steps | library | baseline | baseline / library | steps alone: library | baseline | baseline / library |\n|---|---|---|---|---|---|---|---|---|\n");
    for row in rows {
        writeln!(
            out,
            "| {} | {} | {} | {} | {} |",
            row.name,
            thousands(row.nodes),
            thousands(row.steps as usize),
            cells(&row.whole),
            cells(&row.step),
        )
        .unwrap();
    }
    if let Some(summary) = summary(rows) {
        writeln!(out, "\n{summary}").unwrap();
    }
}

/// What stands where nothing was measured.
const NONE: &str = "-";

/// Library, baseline and their ratio.
fn cells(times: &Times) -> String {
    let library = fine_time(times.library);
    let baseline = times.baseline.map_or(NONE.to_string(), fine_time);
    format!("{library} | {baseline} | {}", faster_cell(times))
}

fn faster_cell(times: &Times) -> String {
    times.faster().map_or(NONE.to_string(), times_faster)
}

pub fn times_faster(ratio: f64) -> String {
    match ratio {
        ratio if ratio < 10.0 => format!("{ratio:.2}"),
        ratio if ratio < 100.0 => format!("{ratio:.1}"),
        ratio => thousands(ratio.round() as usize),
    }
}

/// What is asked of the rows, from their numbers; nothing where some are not there.
fn summary(rows: &[Row]) -> Option<String> {
    let whole = |row: &Row| row.whole.faster();
    let step = |row: &Row| row.step.faster();
    Some(format!(
        "Baseline / library is at least {} over long structures by whole calls and {} by the step alone, and at least {} over whole runs and {} by their steps alone. {} {}",
        least_ratio(rows, Family::Long, whole)?,
        least_ratio(rows, Family::Long, step)?,
        least_ratio(rows, Family::Run, whole)?,
        least_ratio(rows, Family::Run, step)?,
        towers(rows)?,
        growth(rows)?,
    ))
}

/// The least of a family, and where it is.
fn least_ratio(rows: &[Row], family: Family, of: impl Fn(&Row) -> Option<f64>) -> Option<String> {
    let rows = rows.iter().filter(|row| row.family == family);
    let ratios = rows.filter_map(|row| Some((of(row)?, &row.name)));
    let (ratio, name) = ratios.min_by(|a, b| a.0.total_cmp(&b.0))?;
    Some(format!("{} ({name})", times_faster(ratio)))
}

fn tower(rows: &[Row], n: u16) -> Option<&Row> {
    rows.iter().find(|row| row.family == Family::Doubling(n))
}

fn towers(rows: &[Row]) -> Option<String> {
    let at = |n| {
        let row = tower(rows, n)?;
        let [whole, step] = [&row.whole, &row.step].map(faster_cell);
        Some(format!("{whole} at D({n}) ({step} by the step alone)"))
    };
    let [low, middle, high] = [at(10)?, at(14)?, at(18)?];
    Some(format!("On towers it is {low}, {middle} and {high}."))
}

/// How the times of the whole calls grow with each level.
fn growth(rows: &[Row]) -> Option<String> {
    let (low, high) = (8, 18);
    let levels = f64::from(high - low);
    let (first, last) = (&tower(rows, low)?.whole, &tower(rows, high)?.whole);
    let factor = |first, last| ratio(last, first).powf(1.0 / levels);
    let more = last.library.saturating_sub(first.library);
    Some(format!(
        "From D({low}) to D({high}) the library's time grows by {:.2} µs a level, a factor of {:.2}, and the baseline's by a factor of {:.2}.",
        more.as_secs_f64() * 1e6 / levels,
        factor(first.library, last.library),
        factor(first.baseline?, last.baseline?),
    ))
}
