//! The evaluator of placement rules that is proved, over slices: the six calls of `include/mespindro.h`.
//!
//! A rule set is a program of a relational lambda calculus. It is exchanged as a text; in memory it is a *table*, two 16-bit numbers a node, and
//! beside it a *column*, the size of the subtree at each node, both in memory that the caller lends ([`Table`], [`TableMut`]). Nothing is
//! allocated and nothing is kept from call to call. docs/USING.md has the words, the rules and the refusals.
//!
//! Read a rule set, run it, and take its answers:
//!
//! ```
//! use mespindro::{read, run, standing, thread, Reason, Refusal, Standing, TableMut, COLUMN, TABLE};
//!
//! # fn main() -> Result<(), Refusal> {
//! // two alternatives: one makes port 1 and port 2 equal, which cannot be; the other is port 2
//! let text = b"((1:g(1:u(1:c4:5001)(1:c4:5002))(1:c4:5001))(1:c4:5002))";
//!
//! let (mut numbers, mut column) = ([0; TABLE], [0; COLUMN]);
//! let (mut work, mut work_column) = ([0; TABLE], [0; COLUMN]);
//! let mut table = TableMut::new(&mut numbers, &mut column);
//! let work = TableMut::new(&mut work, &mut work_column);
//!
//! let count = read(text, table.reborrow())?;
//! let stop = run(table.reborrow(), count, work, 10_000)?;
//! assert_eq!((stop.reason, stop.steps, stop.counts.fail), (Reason::Ended, 1, 1));
//!
//! // one alternative is left, a thread: an answer, the constructor 5002
//! let end = table.as_table();
//! assert_eq!(standing(end, stop.nodes, 0)?, Standing::Answer);
//! assert_eq!(thread(end, stop.nodes, 0), [mespindro::kind::CONSTRUCTOR, 5002]);
//! assert_eq!(standing(end, stop.nodes, 1), Err(Refusal::NoThread));
//! # Ok(())
//! # }
//! ```
//!
//! **No call has a condition on what the buffers hold**: any bytes, any numbers, any columns, any lengths, any counts. Each ends with its result
//! or with a [`Refusal`], the first that applies in the order that is said for the call, and a refused call has changed nothing. This is proved
//! of the code in the archive. Not proved are the compiler's back end, this binding, and that there is enough stack: docs/LIMITS.md has what each
//! call takes at each size.
//!
//! **Two sizes**: the calls here take programs of up to [`NODES`] nodes, those of [`small`] up to 2,048, with less stack and in less memory. A
//! text or a table that the small ones take means the same to both.
//!
//! **Panics**: none with the archive of this version. An answer that no call of it gives, as from an archive of another version that was put
//! in its place, is not handed on.

#![no_std]
#![warn(missing_docs)]

mod answer;
mod c;
pub mod kind;
mod refusal;
pub mod small;
mod table;

pub use answer::{Counts, Move, Reason, Rule, Standing, Stop};
pub use refusal::Refusal;
pub use table::{Table, TableMut};

/// The example of the README is compiled and run too.
#[cfg(doctest)]
#[doc = include_str!("../README.md")]
struct Readme;

/// The most nodes of a program.
pub const NODES: usize = 16_384;

/// The most bytes of a program's text.
pub const TEXT: usize = 196_608;

/// The numbers of a table that holds every program.
pub const TABLE: usize = 2 * NODES;

/// The numbers of a column that stands beside every program.
pub const COLUMN: usize = NODES;

/// Reads a text into a table and its column, and answers the node count.
///
/// Accepted, the front of `out` is the program, that of its column the sizes of its subtrees, and the rest of both is as it was. [`TABLE`] and
/// [`COLUMN`] numbers hold every program. Refuses 2 to 9, the lowest that applies; 9 where the table or the column is too short.
///
/// ```
/// use mespindro::{kind, read, Refusal, TableMut};
///
/// let (mut numbers, mut column) = ([7; 8], [7; 4]);
/// let mut table = TableMut::new(&mut numbers, &mut column);
/// assert_eq!(read(b"((1:c1:1))", table.reborrow()), Ok(3));
/// assert_eq!(read(b"((1:c1:1))\n", table.reborrow()), Err(Refusal::NotCanonical));
/// assert_eq!(numbers, [kind::ALTERNATIVE, 0, kind::CONSTRUCTOR, 1, kind::EMPTY, 0, 7, 7]);
/// assert_eq!(column, [3, 1, 1, 7]);
/// ```
pub fn read(text: &[u8], out: TableMut<'_>) -> Result<usize, Refusal> {
    c::large::read(text, out).result()
}

/// Writes the text of the first `count` nodes and answers its length.
///
/// Accepted, the front of `out` is the text and the rest is as it was. [`TEXT`] bytes hold every text. Refuses 1, 14, 6, 8, 9, in this order.
///
/// ```
/// use mespindro::{kind, write, Table};
///
/// let numbers = [kind::ALTERNATIVE, 0, kind::CONSTRUCTOR, 1, kind::EMPTY, 0];
/// let mut text = [0; 10];
/// assert_eq!(write(Table::new(&numbers, &[3, 1, 1]), 3, &mut text), Ok(10));
/// assert_eq!(&text, b"((1:c1:1))");
/// ```
pub fn write(table: Table<'_>, count: usize, out: &mut [u8]) -> Result<usize, Refusal> {
    c::large::write(table, count, out).result()
}

/// Makes one step, into `out`, and answers the node count of its result, its rule and its thread.
///
/// Accepted, the front of `out` is the program after the step, with its column, and the rest of both is as it was. Refuses 1, 14, 6, 7, 8, 9, 11,
/// in this order; 9 where the output or its column is too short.
///
/// ```
/// use mespindro::{read, step, Refusal, Rule, Table, TableMut};
///
/// let (mut numbers, mut column) = ([0; 14], [0; 7]);
/// let count = read(b"((1:c1:1)(1:g(1:c1:0)(1:c1:2)))", TableMut::new(&mut numbers, &mut column))?;
/// assert_eq!(column, [7, 1, 5, 3, 1, 1, 1]);
///
/// let (mut next, mut next_column) = ([0; 10], [0; 5]);
/// let mut out = TableMut::new(&mut next, &mut next_column);
/// let made = step(Table::new(&numbers, &column), count, out.reborrow())?;
/// assert_eq!((made.rule, made.thread, made.nodes), (Rule::Guard, 1, 5));
/// // the alternative before the thread that was worked on counts it
/// assert_eq!(out.column, [5, 1, 3, 1, 1]);
///
/// let again = TableMut::new(&mut numbers, &mut column);
/// assert_eq!(step(out.as_table(), made.nodes, again), Err(Refusal::Finished));
/// # Ok::<(), Refusal>(())
/// ```
pub fn step(table: Table<'_>, count: usize, out: TableMut<'_>) -> Result<Move, Refusal> {
    c::large::step(table, count, out).result()
}

/// Runs the program in the table for at most `most` steps.
///
/// Its room is the least of what both tables hold, in whole nodes, what both columns hold, and [`NODES`]. Accepted, `table` is the end program
/// and then zeros to its very end, its column the sizes of that program's subtrees and then zeros, and `work` and its column zeros only. A run
/// that stopped by steps or by room goes on when it is called again, after room in larger tables and columns. It cannot be interrupted: choose
/// `most` so that a call is short enough. Refuses 1, 14, 6, 8, 9, in this order; 9 where the work table or its column is too short for the
/// program.
///
/// ```
/// use mespindro::{read, run, Reason, Refusal, TableMut, COLUMN, TABLE};
///
/// let (mut numbers, mut column) = ([0; TABLE], [0; COLUMN]);
/// let (mut work, mut work_column) = ([0; TABLE], [0; COLUMN]);
/// let mut table = TableMut::new(&mut numbers, &mut column);
/// let mut work = TableMut::new(&mut work, &mut work_column);
///
/// let count = read(b"((1:g(1:c1:0)(1:g(1:c1:0)(1:c1:1))))", table.reborrow())?;
/// let stop = run(table.reborrow(), count, work.reborrow(), 1)?;
/// assert_eq!((stop.reason, stop.steps), (Reason::Steps, 1));
/// let stop = run(table.reborrow(), stop.nodes, work.reborrow(), 1)?;
/// assert_eq!((stop.reason, stop.steps), (Reason::Ended, 1));
/// assert_eq!(table.column[..4], [3, 1, 1, 0]);
/// # Ok::<(), Refusal>(())
/// ```
pub fn run(
    table: TableMut<'_>,
    count: usize,
    work: TableMut<'_>,
    most: u32,
) -> Result<Stop, Refusal> {
    c::large::run(table, count, work, most).result()
}

/// How thread `k` stands, counted from 0. Refuses 1, 14, 6, 8, 10, in this order.
///
/// ```
/// use mespindro::{kind, standing, Refusal, Standing, Table};
///
/// // a variable: a port that no rule has fixed
/// let numbers = [kind::ALTERNATIVE, 0, kind::FREE, 0, kind::EMPTY, 0];
/// let table = Table::new(&numbers, &[3, 1, 1]);
/// assert_eq!(standing(table, 3, 0), Ok(Standing::Partial));
/// assert_eq!(standing(table, 3, 1), Err(Refusal::NoThread));
/// ```
pub fn standing(table: Table<'_>, count: usize, k: usize) -> Result<Standing, Refusal> {
    c::large::standing(table, count, k).result()
}

/// The nodes of thread `k` in the caller's own table; empty exactly where [`standing`] refuses.
///
/// ```
/// use mespindro::{kind, thread, Table};
///
/// let numbers = [kind::ALTERNATIVE, 0, kind::CONSTRUCTOR, 1, kind::EMPTY, 0];
/// let table = Table::new(&numbers, &[3, 1, 1]);
/// assert_eq!(thread(table, 3, 0), [kind::CONSTRUCTOR, 1]);
/// assert!(thread(table, 3, 1).is_empty());
/// ```
pub fn thread<'a>(table: Table<'a>, count: usize, k: usize) -> &'a [u16] {
    c::large::thread(table, count, k).of(table.numbers)
}
