//! The baseline beside the library: on a call that is compared it must answer and leave the same, or say that a value is too large to copy.
//!
//! It has no columns. Where one bounds the room it is lent a table that is cut to as many nodes.

use crate::baseline::Baseline;
use crate::evaluator::{Lengths, Size};
use mespindro::{Move, Refusal, Rule, Stop, Table};
use std::cell::RefCell;

thread_local! {
    /// One at each size, as a caller has it: what a call leaves in its memory is there at the next.
    static BASELINES: RefCell<[Baseline; 2]> = RefCell::new(Size::BOTH.map(Baseline::new));
}

/// What the baseline came to.
#[derive(Clone, Copy, Debug, PartialEq, Eq)]
pub enum Beside {
    /// It was not asked.
    LeftOut,
    /// The same, with so many steps by these two rules.
    Same {
        unif: u32,
        fail: u32,
    },
    TooLarge,
}

/// The memory of a call before it, and what the library has left there.
#[derive(Clone, Copy)]
pub struct Memory<'a> {
    pub before: Table<'a>,
    pub after: Table<'a>,
}

impl Memory<'_> {
    /// How many numbers hold no more nodes than the column does.
    fn cut(&self) -> usize {
        let Lengths { numbers, column } = Lengths::of(self.before);
        numbers.min(2 * column)
    }

    fn lent(&self) -> Vec<u16> {
        self.before.numbers[..self.cut()].to_vec()
    }

    /// That the baseline has left in its memory what the library has in this.
    fn same(&self, what: &str, left: &[u16]) -> Result<(), String> {
        let by_library = &self.after.numbers[..self.cut()];
        let Some(place) = (0..left.len()).find(|i| left[*i] != by_library[*i]) else {
            return Ok(());
        };
        let (one, other) = (left[place], by_library[place]);
        Err(format!(
            "{what}: number {place} is {one} by the baseline, {other} by the library"
        ))
    }
}

/// A step, to which the library has answered so.
pub fn step(
    size: Size,
    numbers: &[u16],
    count: usize,
    out: Memory<'_>,
    answer: Result<Move, Refusal>,
) -> Result<Beside, String> {
    let mut own = out.lent();
    let Some(got) = at(size, |baseline| baseline.step(numbers, count, &mut own)) else {
        return Ok(Beside::TooLarge);
    };
    same_answer(got, answer)?;
    out.same("the output", &own)?;
    let times = |rule| u32::from(answer.is_ok_and(|made| made.rule == rule));
    Ok(Beside::Same {
        unif: times(Rule::Unif),
        fail: times(Rule::Fail),
    })
}

/// A run, to which the library has answered so.
pub fn run(
    size: Size,
    table: Memory<'_>,
    count: usize,
    work: Memory<'_>,
    most: u32,
    answer: Result<Stop, Refusal>,
) -> Result<Beside, String> {
    let (mut own, mut worked) = (table.lent(), work.lent());
    let Some(got) = at(size, |baseline| {
        baseline.run(&mut own, count, &mut worked, most)
    }) else {
        return Ok(Beside::TooLarge);
    };
    same_answer(got, answer)?;
    table.same("the table", &own)?;
    work.same("the work table", &worked)?;
    let times = |rule| answer.map_or(0, |stop| stop.counts.of(rule));
    Ok(Beside::Same {
        unif: times(Rule::Unif),
        fail: times(Rule::Fail),
    })
}

fn at<T>(size: Size, ask: impl FnOnce(&mut Baseline) -> T) -> T {
    let place = Size::BOTH.iter().position(|other| *other == size);
    let place = place.unwrap_or_else(|| panic!("no baseline for {size:?}"));
    BASELINES.with(|baselines| ask(&mut baselines.borrow_mut()[place]))
}

fn same_answer<T: PartialEq + std::fmt::Debug>(got: T, answer: T) -> Result<(), String> {
    if got == answer {
        return Ok(());
    }
    Err(format!(
        "the answer: the baseline has {got:?}, the library {answer:?}"
    ))
}
