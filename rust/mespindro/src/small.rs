//! The six calls for programs of up to 2,048 nodes, which take less stack and, on tiny programs, less time: `mespindro_small_read` and so on in C.
//!
//! They do what the calls of the [crate] do, with the limits of this module: [`NODES`] nodes, texts of [`TEXT`] bytes, free variables,
//! locations and indices to 2,047, and a run's room of at most [`NODES`]. What they accept the others accept as the same program. A text that
//! only the others accept is refused here with 2, 5 or 7.
//!
//! ```
//! use mespindro::small::{read, run, standing, thread, write, COLUMN, TABLE};
//! use mespindro::{kind, Reason, Refusal, Standing, TableMut};
//!
//! let (mut numbers, mut column) = ([0; TABLE], [0; COLUMN]);
//! let (mut work, mut work_column) = ([0; TABLE], [0; COLUMN]);
//! let mut table = TableMut::new(&mut numbers, &mut column);
//! let work = TableMut::new(&mut work, &mut work_column);
//!
//! let count = read(b"((1:g(1:c1:0)(1:x4:2047)))", table.reborrow())?;
//! let stop = run(table.reborrow(), count, work, 10_000)?;
//! assert_eq!((stop.reason, stop.steps), (Reason::Ended, 1));
//! assert_eq!(standing(table.as_table(), stop.nodes, 0), Ok(Standing::Partial));
//! assert_eq!(thread(table.as_table(), stop.nodes, 0), [kind::FREE, 2047]);
//!
//! let mut text = [0; 13];
//! assert_eq!(write(table.as_table(), stop.nodes, &mut text), Ok(13));
//! assert_eq!(&text, b"((1:x4:2047))");
//!
//! // a number that only the larger calls take
//! assert_eq!(read(b"((1:x4:2048))", table.reborrow()), Err(Refusal::BadNumber));
//! assert_eq!(mespindro::read(b"((1:x4:2048))", table.reborrow()), Ok(3));
//! # Ok::<(), Refusal>(())
//! ```

use crate::{c, Move, Refusal, Standing, Stop, Table, TableMut};

/// The most nodes of a program.
pub const NODES: usize = 2048;

/// The most bytes of a program's text.
pub const TEXT: usize = 24_576;

/// The numbers of a table that holds every program.
pub const TABLE: usize = 2 * NODES;

/// The numbers of a column that stands beside every program.
pub const COLUMN: usize = NODES;

/// Reads a text into a table and its column, and answers the node count: [`read`](crate::read) at this size.
pub fn read(text: &[u8], out: TableMut<'_>) -> Result<usize, Refusal> {
    c::small::read(text, out).result()
}

/// Writes the text of the first `count` nodes and answers its length: [`write`](crate::write) at this size.
pub fn write(table: Table<'_>, count: usize, out: &mut [u8]) -> Result<usize, Refusal> {
    c::small::write(table, count, out).result()
}

/// Makes one step, into `out`, and answers the node count of its result, its rule and its thread: [`step`](crate::step) at this size.
pub fn step(table: Table<'_>, count: usize, out: TableMut<'_>) -> Result<Move, Refusal> {
    c::small::step(table, count, out).result()
}

/// Runs the program in the table for at most `most` steps, in a room of at most [`NODES`]: [`run`](crate::run) at this size.
pub fn run(
    table: TableMut<'_>,
    count: usize,
    work: TableMut<'_>,
    most: u32,
) -> Result<Stop, Refusal> {
    c::small::run(table, count, work, most).result()
}

/// How thread `k` stands, counted from 0: [`standing`](crate::standing) at this size.
pub fn standing(table: Table<'_>, count: usize, k: usize) -> Result<Standing, Refusal> {
    c::small::standing(table, count, k).result()
}

/// The nodes of thread `k` in the caller's own table, empty exactly where [`standing`] refuses: [`thread`](crate::thread) at this size.
pub fn thread<'a>(table: Table<'a>, count: usize, k: usize) -> &'a [u16] {
    c::small::thread(table, count, k).of(table.numbers)
}
