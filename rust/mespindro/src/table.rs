//! A table together with its column, as it is lent.

/// A program that is only read: the numbers of its table, and its column beside them.
///
/// The column has one number a node, the nodes of the subtree that begins there, itself included; an alternative's counts its term and all that
/// stands behind it, so that the first one is the node count. [`read`](crate::read), [`step`](crate::step) and [`run`](crate::run) write it;
/// whoever keeps the table keeps it too.
///
/// Nothing is checked here: the call that is handed the two looks at both.
///
/// ```
/// use mespindro::{kind, standing, Refusal, Standing, Table};
///
/// // (c1 c2)
/// let numbers = [
///     kind::ALTERNATIVE, 0, kind::CONSTRUCTOR, 1,
///     kind::ALTERNATIVE, 0, kind::CONSTRUCTOR, 2,
///     kind::EMPTY, 0,
/// ];
/// let table = Table::new(&numbers, &[5, 1, 3, 1, 1]);
/// assert_eq!(standing(table, 5, 1), Ok(Standing::Answer));
///
/// // the first alternative, as if nothing stood behind its term
/// let table = Table::new(&numbers, &[2, 1, 3, 1, 1]);
/// assert_eq!(standing(table, 5, 1), Err(Refusal::WrongColumn));
/// ```
#[derive(Clone, Copy, Debug)]
pub struct Table<'a> {
    /// Two a node: kind and number.
    pub numbers: &'a [u16],
    /// One a node. It may be longer than the program.
    pub column: &'a [u16],
}

impl<'a> Table<'a> {
    /// Both together.
    pub fn new(numbers: &'a [u16], column: &'a [u16]) -> Table<'a> {
        Table { numbers, column }
    }
}

/// A table and its column that a call may write: an output, a work table, or the program of a run.
///
/// ```
/// use mespindro::{read, run, write, Refusal, TableMut, COLUMN, TABLE};
///
/// let (mut numbers, mut column) = ([0; TABLE], [0; COLUMN]);
/// let (mut work, mut work_column) = ([0; TABLE], [0; COLUMN]);
/// let mut table = TableMut::new(&mut numbers, &mut column);
/// let work = TableMut::new(&mut work, &mut work_column);
///
/// // lent to each call anew
/// let count = read(b"((1:g(1:c1:0)(1:c1:1)))", table.reborrow())?;
/// let stop = run(table.reborrow(), count, work, 10)?;
/// let mut text = [0; 10];
/// assert_eq!(write(table.as_table(), stop.nodes, &mut text), Ok(10));
/// assert_eq!(&text, b"((1:c1:1))");
/// # Ok::<(), Refusal>(())
/// ```
#[derive(Debug)]
pub struct TableMut<'a> {
    /// Two a node: kind and number.
    pub numbers: &'a mut [u16],
    /// One a node, as for [`Table`].
    pub column: &'a mut [u16],
}

impl<'a> TableMut<'a> {
    /// Both together.
    pub fn new(numbers: &'a mut [u16], column: &'a mut [u16]) -> TableMut<'a> {
        TableMut { numbers, column }
    }

    /// The same memory, for one call: this one is there again after it.
    pub fn reborrow(&mut self) -> TableMut<'_> {
        TableMut::new(self.numbers, self.column)
    }

    /// The same memory, to be read.
    pub fn as_table(&self) -> Table<'_> {
        Table::new(self.numbers, self.column)
    }
}
