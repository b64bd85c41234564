//! Memory that is lent to the library.

use mespindro::{Table, TableMut};

/// A table with its column.
pub struct Memory {
    /// Two a node.
    pub numbers: Vec<u16>,
    /// One a node.
    pub column: Vec<u16>,
}

impl Memory {
    /// A new one for so many nodes, of zeros only.
    pub fn zeros(nodes: usize) -> Memory {
        Memory {
            numbers: vec![0; 2 * nodes],
            column: vec![0; nodes],
        }
    }

    /// To be read.
    pub fn table(&self) -> Table<'_> {
        Table::new(&self.numbers, &self.column)
    }

    /// To be written.
    pub fn table_mut(&mut self) -> TableMut<'_> {
        TableMut::new(&mut self.numbers, &mut self.column)
    }
}
