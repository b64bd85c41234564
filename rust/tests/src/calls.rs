//! The calls that are compared on a text or a table: at each length, count, thread number and limit where an answer may change.

use crate::compare::Call;
use crate::damage::{any_column, Damage};
use crate::evaluator::column::column;
use crate::evaluator::step::{step, Step};
use crate::evaluator::table::{decode, read_table, write_table, OwnTable};
use crate::evaluator::tree::{program_size, Program};
use crate::evaluator::{self, Lengths, Size};
use crate::generate;
use crate::random::Random;
use mespindro::Reason;

/// The most steps of a run that is compared, but for runs known to stop.
const MOST_STEPS: u32 = 60;

/// The calls on a random input.
pub fn random_calls(size: Size, random: &mut Random) -> Vec<Call> {
    if random.one_in(200) {
        return on_program(size, &generate::large_program(size, random), random);
    }
    match random.below(11) {
        10 => on_program(size, &generate::goals_program(size, random), random),
        0..=3 => on_text(size, &generate::text(size, random)),
        4..=6 => on_program(size, &generate::sound_program(size, random), random),
        7 => on_program(size, &generate::worked_program(size, random), random),
        8 => on_program(size, &generate::faulty_program(size, random), random),
        _ => on_odd_table(size, random),
    }
}

/// Reading, at the output lengths around the result's.
pub fn on_text(size: Size, text: &[u8]) -> Vec<Call> {
    let nodes = evaluator::read(size, text, Lengths::ANY).map_or(0, |t| t.column.len());
    let read = |out| Call::Read {
        text: text.to_vec(),
        out,
    };
    outputs(size, nodes).into_iter().map(read).collect()
}

/// Every call on a program's table.
pub fn on_program(size: Size, program: &Program, random: &mut Random) -> Vec<Call> {
    let table = OwnTable::of(program);
    let count = table.column.len();
    let mut calls = on_table(size, &with_tails(&table, random), count, random);
    calls.extend(runs(size, &table, random));
    for count in wrong_counts(size, count, random) {
        calls.extend(one_of_each(&table, count, size.nodes));
    }
    for _ in 0..3 {
        let damage = random.pick(&Damage::ALL);
        calls.extend(on_damaged_column(size, &table, damage, random));
    }
    let text = evaluator::text::write_text(program);
    let out = Lengths::for_nodes(count);
    calls.push(Call::Read { text, out });
    calls
}

/// Each call on a program's table, in memory for one node less than it has, for exactly as many, and for every program.
pub fn few_on_program(size: Size, program: &Program) -> Vec<Call> {
    let table = OwnTable::of(program);
    let count = table.column.len();
    let lent = [count - 1, count, size.nodes];
    let mut calls: Vec<Call> = lent
        .into_iter()
        .flat_map(|nodes| one_of_each(&table, count, nodes))
        .collect();
    let text = evaluator::text::write_text(program);
    let out = Lengths::for_nodes(count);
    calls.push(Call::Read { text, out });
    calls
}

/// Each call on a program's table with a column damaged in this way, where it can be.
pub fn on_damaged_column(
    size: Size,
    table: &OwnTable,
    damage: Damage,
    random: &mut Random,
) -> Vec<Call> {
    let count = table.column.len();
    let Some(column) = damage.done_to(table, random) else {
        return Vec::new();
    };
    let numbers = table.numbers.clone();
    let mut table = OwnTable { numbers, column };
    // a column that is long enough may have any numbers behind it
    if table.column.len() == count {
        table = with_tails(&table, random);
    }
    // the column is asked for before any output
    one_of_each(&table, count, random.pick(&[0, size.nodes]))
}

/// Every call on a table that need not be a program.
fn on_odd_table(size: Size, random: &mut Random) -> Vec<Call> {
    let numbers = if random.one_in(2) {
        generate::any_table(random)
    } else {
        let program = generate::faulty_program(size, random);
        generate::damaged_table(&write_table(&program), random)
    };
    let nodes = numbers.len() / 2;
    let mut calls = Vec::new();
    // short tables of random numbers are programs at some count, now and then
    for count in (0..=(nodes + 1).min(9)).chain([nodes]) {
        let table = OwnTable {
            column: odd_column(size, &numbers, count, random),
            numbers: numbers.clone(),
        };
        calls.extend(one_of_each(&table, count, size.nodes));
    }
    calls
}

/// A column for a table that need not be a program: where it is one most often its own, else any.
fn odd_column(size: Size, numbers: &[u16], count: usize, random: &mut Random) -> Vec<u16> {
    match decode(size, numbers, count) {
        Some(program) if !random.one_in(4) => column(&program),
        _ => {
            let length = random.pick(&[0, 1, count, count + 1]);
            any_column(length, random)
        }
    }
}

/// Writing, stepping and the thread calls, at each length and number where the answer may change.
fn on_table(size: Size, table: &OwnTable, count: usize, random: &mut Random) -> Vec<Call> {
    let mut calls = Vec::new();
    let text = evaluator::write(size, table.lent(), count, usize::MAX).map_or(0, |t| t.len());
    for out in around(text, &[0]) {
        let table = table.clone();
        calls.push(Call::Write { table, count, out });
    }
    let result = evaluator::step(size, table.lent(), count, Lengths::ANY);
    let nodes = result
        .and_then(Result::ok)
        .map_or(0, |(made, _)| made.nodes);
    for out in outputs(size, nodes) {
        let table = table.clone();
        calls.push(Call::Step { table, count, out });
    }
    let threads = read_table(size, table.lent(), count).map_or(0, |p| p.len());
    for k in [0, threads / 2, threads, threads + 1, usize::MAX] {
        calls.extend(of_thread(table, count, k));
    }
    let k = random.below(threads + 1);
    calls.extend(of_thread(table, count, k.saturating_sub(1)));
    calls
}

fn of_thread(table: &OwnTable, count: usize, k: usize) -> [Call; 2] {
    let table = table.clone();
    let standing = Call::Standing {
        table: table.clone(),
        count,
        k,
    };
    [standing, Call::Thread { table, count, k }]
}

/// Runs at limits and in rooms where the answer may change.
fn runs(size: Size, table: &OwnTable, random: &mut Random) -> Vec<Call> {
    let count = table.column.len();
    let (sizes, stops) = sizes_of_run(size, table, count);
    let steps = sizes.len() as u32 - 1;
    let mut limits = vec![0, 1, steps.saturating_sub(1), steps, steps + 1];
    if stops {
        limits.push(u32::MAX);
    }
    let mut calls = Vec::new();
    for most in limits.into_iter().flat_map(|most| [most, most]) {
        let room = random.pick(&sizes).min(size.nodes);
        let (lengths, work) = run_lengths(size, count, room, random);
        calls.push(Call::Run {
            table: lengthened(table, lengths, random),
            count,
            work,
            most,
        });
    }
    calls
}

/// The lengths of a run's table and work table: one of the four bounds the room, or is too short for the program; the others hold more, now
/// and then every program.
fn run_lengths(size: Size, count: usize, room: usize, random: &mut Random) -> (Lengths, Lengths) {
    let tight = room.max(count);
    let wide = random.pick(&[Size::SMALL.nodes, size.nodes]).max(tight);
    let (mut table, mut work) = (wider(wide, random), wider(wide, random));
    match random.below(10) {
        0 => table.numbers = 2 * tight + random.below(2),
        1 | 2 => table.column = tight,
        3 => work.numbers = 2 * tight + random.below(2),
        4 | 5 => work.column = tight,
        6 => work.numbers = (2 * room).saturating_sub(random.below(4)),
        7 => work.column = room.saturating_sub(random.below(3)),
        8 => work.numbers = (2 * count).saturating_sub(random.between(1, 2)),
        _ => work.column = random.pick(&[0, count - 1]),
    }
    (table, work)
}

/// Lengths that hold so many nodes, and somewhat longer ones.
fn wider(nodes: usize, random: &mut Random) -> Lengths {
    Lengths {
        numbers: 2 * nodes + random.pick(&[0, 0, 1, 100]),
        column: nodes + random.pick(&[0, 0, 1, 100]),
    }
}

/// The node counts of the programs that a run goes through, and whether it stops by itself.
fn sizes_of_run(size: Size, table: &OwnTable, count: usize) -> (Vec<usize>, bool) {
    let mut sizes = vec![count];
    let Ok(mut program) = read_table(size, table.lent(), count) else {
        return (sizes, true);
    };
    for _ in 0..MOST_STEPS {
        match step(&program) {
            Step::To(_, _, next) if program_size(&next) <= size.nodes => program = next,
            Step::TooLarge => return (sizes, false),
            _ => return (sizes, true),
        }
        sizes.push(program_size(&program));
    }
    let more = evaluator::run_program(program, size.nodes, 0);
    (sizes, more.is_some_and(|run| run.reason == Reason::Ended))
}

/// Each call once, in memory that is lent for so many nodes.
fn one_of_each(table: &OwnTable, count: usize, nodes: usize) -> Vec<Call> {
    let whole = || table.clone();
    let lengths = Lengths::for_nodes(nodes);
    let mut calls = vec![
        Call::Write {
            table: whole(),
            count,
            out: 12 * nodes,
        },
        Call::Step {
            table: whole(),
            count,
            out: lengths,
        },
        Call::Run {
            table: whole(),
            count,
            work: lengths,
            most: MOST_STEPS,
        },
    ];
    calls.extend(of_thread(table, count, 0));
    calls
}

fn wrong_counts(size: Size, count: usize, random: &mut Random) -> [usize; 3] {
    let all = [
        0,
        1,
        count - 1,
        count + 1,
        Size::SMALL.nodes,
        Size::SMALL.nodes + 1,
        size.nodes,
        size.nodes + 1,
        usize::MAX,
        usize::MAX / 2 + 1 + count,
    ];
    [random.pick(&all), random.pick(&all), random.pick(&all)]
}

/// The lengths of an output and its column at which a result of so many nodes just fits either, and others; 0 where there is none.
fn outputs(size: Size, nodes: usize) -> Vec<Lengths> {
    if nodes == 0 {
        return [0, 1, size.nodes].map(Lengths::for_nodes).to_vec();
    }
    let by_numbers = around(2 * nodes, &[0, 2 * size.nodes, 2 * size.nodes + 1]);
    let by_column = around(nodes, &[0]);
    let exact = Lengths::for_nodes(nodes);
    let mut lengths = vec![exact, Lengths::for_nodes(0)];
    lengths.extend(by_numbers.into_iter().map(|numbers| Lengths {
        numbers,
        column: size.nodes,
    }));
    lengths.extend(by_column.into_iter().map(|column| Lengths {
        numbers: 2 * size.nodes,
        column,
    }));
    lengths
}

/// The lengths at which something of exactly this length just fits, and others.
fn around(exact: usize, others: &[usize]) -> Vec<usize> {
    let mut lengths = vec![exact, exact + 1];
    lengths.extend(exact.checked_sub(1));
    lengths.extend(exact.checked_sub(2));
    lengths.extend(others);
    lengths.sort_unstable();
    lengths.dedup();
    lengths
}

/// The table and its column with up to five more numbers each, which are no part of the program.
fn with_tails(table: &OwnTable, random: &mut Random) -> OwnTable {
    let tails = [0, 0, 1, 2, 5];
    let lengths = Lengths {
        numbers: table.numbers.len() + random.pick(&tails),
        column: table.column.len() + random.pick(&tails),
    };
    lengthened(table, lengths, random)
}

fn lengthened(table: &OwnTable, lengths: Lengths, random: &mut Random) -> OwnTable {
    OwnTable {
        numbers: with_tail(&table.numbers, lengths.numbers, random),
        column: with_tail(&table.column, lengths.column, random),
    }
}

/// The numbers with others behind them up to a length: a few over and over, since long tails are many.
fn with_tail(numbers: &[u16], length: usize, random: &mut Random) -> Vec<u16> {
    let few: [u16; 7] = std::array::from_fn(|_| random.below(12) as u16);
    let mut whole = numbers.to_vec();
    while whole.len() < length {
        let missing = length - whole.len();
        whole.extend_from_slice(&few[..missing.min(few.len())]);
    }
    whole
}
