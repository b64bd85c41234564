//! Each call made in the library and in the evaluator at the same size on the same input, in lent memory with margins: one function a call.
//! Steps and runs are made by the baseline too, but for those with a wrong column.
//!
//! A comparison answers `Err` with what differs; there is no outcome where the evaluator cannot tell.

use crate::beside::{self, Beside, Memory};
use crate::evaluator::table::OwnTable;
use crate::evaluator::{self, Lengths, Size};
use crate::library::Library;
use mespindro::{Refusal, Table, TableMut};

/// A call with all it depends on; outputs and work tables by their lengths.
#[derive(Clone, Debug, PartialEq, Eq)]
pub enum Call {
    Read {
        text: Vec<u8>,
        out: Lengths,
    },
    Write {
        table: OwnTable,
        count: usize,
        out: usize,
    },
    Step {
        table: OwnTable,
        count: usize,
        out: Lengths,
    },
    Run {
        table: OwnTable,
        count: usize,
        work: Lengths,
        most: u32,
    },
    Standing {
        table: OwnTable,
        count: usize,
        k: usize,
    },
    Thread {
        table: OwnTable,
        count: usize,
        k: usize,
    },
}

/// What a comparison with the evaluator came to.
pub type Comparison = Result<Option<Outcome>, String>;

/// What a comparison with both came to.
#[derive(Clone, Copy, Debug, PartialEq, Eq)]
pub struct Told {
    pub outcome: Option<Outcome>,
    pub baseline: Beside,
}

/// What both answered.
#[derive(Clone, Copy, Debug, PartialEq, Eq)]
pub enum Outcome {
    Accepted,
    Refused(Refusal),
}

/// Compares one call at a size.
pub fn compare(size: Size, call: &Call) -> Result<Told, String> {
    let outcome = match call {
        Call::Step { table, count, out } => return step(size, table.lent(), *count, *out),
        Call::Run {
            table,
            count,
            work,
            most,
        } => return run(size, table.lent(), *count, *work, *most),
        Call::Read { text, out } => read(size, text, *out),
        Call::Write { table, count, out } => write(size, table.lent(), *count, *out),
        Call::Standing { table, count, k } => standing(size, table.lent(), *count, *k),
        Call::Thread { table, count, k } => thread(size, table.lent(), *count, *k),
    };
    Ok(Told {
        outcome: outcome?,
        baseline: Beside::LeftOut,
    })
}

/// How many comparisons there were, by what both answered; and how far the baseline came.
#[derive(Clone, Debug, Default)]
pub struct Tally {
    pub accepted: usize,
    pub refused: [usize; 15],
    pub untold: usize,
    /// Single steps by unif that the baseline made too.
    pub unif: usize,
    /// Single steps by fail that it made too.
    pub fail: usize,
    /// Steps by either in its runs.
    pub in_runs: usize,
    /// Calls with values that are too large for it.
    pub too_large: usize,
}

impl Tally {
    /// Compares one call and counts it.
    pub fn compare(&mut self, size: Size, call: &Call) -> Result<(), String> {
        let told = compare(size, call)?;
        match told.outcome {
            Some(Outcome::Accepted) => self.accepted += 1,
            Some(Outcome::Refused(refusal)) => self.refused[usize::from(refusal.number())] += 1,
            None => self.untold += 1,
        }
        match (told.baseline, call) {
            (Beside::LeftOut, _) => {}
            (Beside::TooLarge, _) => self.too_large += 1,
            (Beside::Same { unif, fail }, Call::Step { .. }) => {
                self.unif += unif as usize;
                self.fail += fail as usize;
            }
            (Beside::Same { unif, fail }, _) => self.in_runs += (unif + fail) as usize,
        }
        Ok(())
    }

    pub fn compared(&self) -> usize {
        self.accepted + self.refused.iter().sum::<usize>()
    }
}

impl std::fmt::Display for Tally {
    fn fmt(&self, f: &mut std::fmt::Formatter<'_>) -> std::fmt::Result {
        let all = self.compared();
        write!(f, "{all} compared, {} accepted, refused", self.accepted)?;
        for (number, times) in self.refused.iter().enumerate() {
            if *times > 0 {
                write!(f, " {number}: {times}")?;
            }
        }
        write!(f, "; {} not told by the evaluator", self.untold)?;
        if self.unif + self.fail + self.in_runs + self.too_large == 0 {
            return Ok(());
        }
        write!(
            f,
            "; by the baseline too {} unif and {} fail alone, {} in runs; {} too large for it",
            self.unif, self.fail, self.in_runs, self.too_large
        )
    }
}

pub fn read(size: Size, text: &[u8], out: Lengths) -> Comparison {
    let text = Lent::holding(text);
    let mut output = LentTable::filled(out, text.part().len());
    let got = (Library::at(size).read)(text.part(), output.part_mut());
    let expected = evaluator::read(size, text.part(), out);
    text.kept("the text")?;
    let counted = expected.as_ref().map(|table| table.column.len());
    same("the answer", &got, &counted.map_err(|r| *r))?;
    output.has(size, "the output", expected.as_ref().ok())?;
    Ok(Some(outcome(&expected)))
}

pub fn write(size: Size, table: Table<'_>, count: usize, out: usize) -> Comparison {
    let table = LentTable::holding(table);
    let mut output = Lent::filled(FILL as u8, out);
    let got = (Library::at(size).write)(table.part(), count, output.part_mut());
    let expected = evaluator::write(size, table.part(), count, out);
    table.kept("the table")?;
    let counted = expected.as_ref().map(Vec::len);
    same("the answer", &got, &counted.map_err(|r| *r))?;
    output.has_front("the output", expected.as_deref().unwrap_or(&[]))?;
    Ok(Some(outcome(&expected)))
}

pub fn step(size: Size, table: Table<'_>, count: usize, out: Lengths) -> Result<Told, String> {
    let table = LentTable::holding(table);
    let mut output = LentTable::filled(out, count);
    let got = (Library::at(size).step)(table.part(), count, output.part_mut());
    table.kept("the table")?;
    let expected = evaluator::step(size, table.part(), count, out);
    if let Some(expected) = &expected {
        let answer = expected.as_ref().map(|(made, _)| *made).map_err(|r| *r);
        same("the answer", &got, &answer)?;
        let result = expected.as_ref().map(|(_, result)| result);
        output.has(size, "the output", result.ok())?;
    }
    let numbers = table.numbers.part();
    let baseline = match got {
        Err(Refusal::WrongColumn) => Beside::LeftOut,
        // where the evaluator cannot tell, the baseline may
        _ => beside::step(size, numbers, count, output.memory(), got)?,
    };
    Ok(Told {
        outcome: expected.as_ref().map(outcome),
        baseline,
    })
}

pub fn run(
    size: Size,
    table: Table<'_>,
    count: usize,
    work: Lengths,
    most: u32,
) -> Result<Told, String> {
    let Some(expected) = evaluator::run(size, table, count, work, most) else {
        return Ok(Told {
            outcome: None,
            baseline: Beside::LeftOut,
        });
    };
    let mut lent = LentTable::holding(table);
    let mut worked = LentTable::filled(work, count);
    let got = (Library::at(size).run)(lent.part_mut(), count, worked.part_mut(), most);
    let answer = expected.as_ref().map(|(stop, _)| *stop).map_err(|r| *r);
    same("the answer", &got, &answer)?;
    match &expected {
        Ok((stop, end)) => {
            lent.has_and_zeros("the table", &end.numbers, &end.column)?;
            worked.has_and_zeros("the work table", &[], &[])?;
            taken_again(size, "the table", lent.part(), stop.nodes)?;
        }
        Err(_) => {
            lent.kept("the table")?;
            worked.kept("the work table")?;
        }
    }
    let baseline = match got {
        Err(Refusal::WrongColumn) => Beside::LeftOut,
        _ => beside::run(size, lent.memory(), count, worked.memory(), most, got)?,
    };
    Ok(Told {
        outcome: Some(outcome(&expected)),
        baseline,
    })
}

pub fn standing(size: Size, table: Table<'_>, count: usize, k: usize) -> Comparison {
    let table = LentTable::holding(table);
    let got = (Library::at(size).standing)(table.part(), count, k);
    let expected = evaluator::standing(size, table.part(), count, k);
    table.kept("the table")?;
    same("the standing", &got, &expected)?;
    Ok(Some(outcome(&expected)))
}

pub fn thread(size: Size, table: Table<'_>, count: usize, k: usize) -> Comparison {
    let table = LentTable::holding(table);
    let numbers = table.numbers.part();
    let got = (Library::at(size).thread)(table.part(), count, k);
    let expected = evaluator::thread(size, table.part(), count, k);
    match expected {
        Ok((start, end)) => {
            same("the part", &got, &&numbers[start..end])?;
            // the caller's own numbers, not a copy
            let far = got.as_ptr() as usize - numbers.as_ptr() as usize;
            same("where the part starts", &far, &(2 * start))?;
            // what the header says of the part's own entries
            let first = table.column.part()[start / 2];
            same(
                "the part's first entry",
                &usize::from(first),
                &(got.len() / 2),
            )?;
        }
        Err(_) => same("the part's length", &got.len(), &0)?,
    }
    table.kept("the table")?;
    Ok(Some(outcome(&expected)))
}

/// That the library takes what it has left: it comes as far as the thread number, which is past every thread.
fn taken_again(size: Size, what: &str, left: Table<'_>, count: usize) -> Result<(), String> {
    let again = (Library::at(size).standing)(left, count, usize::MAX);
    same(&format!("{what} again"), &again, &Err(Refusal::NoThread))
}

fn outcome<T>(result: &Result<T, Refusal>) -> Outcome {
    match result {
        Ok(_) => Outcome::Accepted,
        Err(refusal) => Outcome::Refused(*refusal),
    }
}

fn same<T: PartialEq + std::fmt::Debug>(what: &str, got: &T, expected: &T) -> Result<(), String> {
    if got == expected {
        return Ok(());
    }
    Err(format!(
        "{what}: the library has {got:?}, the evaluator {expected:?}"
    ))
}

/// What outputs and work tables hold before most calls: no kind, no size of a subtree, and no ASCII in either byte.
const FILL: u16 = 0xd7d7;

/// The numbers on either side of lent memory.
const MARGIN: usize = 24;

trait Number: Copy + PartialEq + std::fmt::Debug {
    const MARK: Self;
}

impl Number for u8 {
    const MARK: u8 = 0xa9;
}

impl Number for u16 {
    const MARK: u16 = 0xa95c;
}

/// A table and its column, each lent between margins of its own.
struct LentTable {
    numbers: Lent<u16>,
    column: Lent<u16>,
}

impl LentTable {
    fn holding(table: Table<'_>) -> LentTable {
        LentTable {
            numbers: Lent::holding(table.numbers),
            column: Lent::holding(table.column),
        }
    }

    /// What it holds has no influence: now and then it is what ends a program or counts a leaf. By the input, so that a call stays the same.
    fn filled(lengths: Lengths, input: usize) -> LentTable {
        let fill = match input % 8 {
            0 => 0,
            1 => 1,
            _ => FILL,
        };
        LentTable {
            numbers: Lent::filled(fill, lengths.numbers),
            column: Lent::filled(fill, lengths.column),
        }
    }

    fn part(&self) -> Table<'_> {
        Table::new(self.numbers.part(), self.column.part())
    }

    fn part_mut(&mut self) -> TableMut<'_> {
        TableMut::new(self.numbers.part_mut(), self.column.part_mut())
    }

    /// Before the call and after it.
    fn memory(&self) -> Memory<'_> {
        Memory {
            before: Table::new(&self.numbers.before, &self.column.before),
            after: self.part(),
        }
    }

    fn kept(&self, what: &str) -> Result<(), String> {
        self.numbers.kept(what)?;
        self.column.kept(&format!("{what}'s column"))
    }

    /// That a result stands at the front and the library takes it again; without one, that all is as it was.
    fn has(&self, size: Size, what: &str, result: Option<&OwnTable>) -> Result<(), String> {
        let Some(result) = result else {
            return self.kept(what);
        };
        self.numbers.has_front(what, &result.numbers)?;
        self.column
            .has_front(&format!("{what}'s column"), &result.column)?;
        taken_again(size, what, self.part(), result.column.len())
    }

    /// That these numbers and entries stand at the front and zeros behind them, to the very end of each.
    fn has_and_zeros(&self, what: &str, numbers: &[u16], column: &[u16]) -> Result<(), String> {
        self.numbers.has_and_zeros(what, numbers)?;
        self.column
            .has_and_zeros(&format!("{what}'s column"), column)
    }
}

/// Lent memory between two margins.
struct Lent<T> {
    cells: Vec<T>,
    before: Vec<T>,
}

impl<T: Number> Lent<T> {
    fn holding(content: &[T]) -> Lent<T> {
        Lent::between_margins(content.to_vec())
    }

    fn filled(number: T, length: usize) -> Lent<T> {
        Lent::between_margins(vec![number; length])
    }

    fn between_margins(before: Vec<T>) -> Lent<T> {
        let mut cells = Vec::with_capacity(before.len() + 2 * MARGIN);
        cells.extend([T::MARK; MARGIN]);
        cells.extend_from_slice(&before);
        cells.extend([T::MARK; MARGIN]);
        Lent { cells, before }
    }

    fn part(&self) -> &[T] {
        &self.cells[MARGIN..self.cells.len() - MARGIN]
    }

    fn part_mut(&mut self) -> &mut [T] {
        let end = self.cells.len() - MARGIN;
        &mut self.cells[MARGIN..end]
    }

    fn kept(&self, what: &str) -> Result<(), String> {
        self.has_front(what, &[])
    }

    /// That the part begins with these numbers and its rest is as it was.
    fn has_front(&self, what: &str, front: &[T]) -> Result<(), String> {
        self.holds(what, front, &self.before[front.len()..])
    }

    /// That the part is these two after each other and the margins have their marks.
    fn holds(&self, what: &str, front: &[T], rest: &[T]) -> Result<(), String> {
        let (before, behind) = (
            &self.cells[..MARGIN],
            &self.cells[self.cells.len() - MARGIN..],
        );
        if before.iter().chain(behind).any(|cell| *cell != T::MARK) {
            return Err(format!("{what}: written outside of the lent memory"));
        }
        let (first, last) = self.part().split_at(front.len());
        if first == front && last == rest {
            return Ok(());
        }
        let expected = [front, rest].concat();
        let other = (0..expected.len()).find(|i| self.part()[*i] != expected[*i]);
        let place = other.expect("the two differ somewhere");
        Err(format!(
            "{what}: number {place} is {:?}, expected {:?}",
            self.part()[place],
            expected[place]
        ))
    }
}

impl Lent<u16> {
    /// That the part begins with these numbers and has zeros behind them.
    fn has_and_zeros(&self, what: &str, front: &[u16]) -> Result<(), String> {
        self.holds(what, front, &vec![0; self.before.len() - front.len()])
    }
}
