//! Tables and columns of the tests' own, to be lent to the calls that write them.

use crate::evaluator::column::column;
use crate::evaluator::table::{decode, OwnTable};
use crate::evaluator::tree::Term;
use crate::evaluator::{Lengths, Size};
use mespindro::TableMut;

/// What stands in lent memory before a call, and behind a program that is lent.
pub const BEFORE: u16 = 7;

impl Lengths {
    /// That hold every program.
    pub const FULL: Lengths = Lengths {
        numbers: 2 * Size::LARGE.nodes,
        column: Size::LARGE.nodes,
    };

    /// That hold nothing.
    pub const NONE: Lengths = Lengths {
        numbers: 0,
        column: 0,
    };

    pub fn new(numbers: usize, column: usize) -> Lengths {
        Lengths { numbers, column }
    }
}

impl OwnTable {
    /// No program, in memory of these lengths.
    pub fn empty(lengths: Lengths) -> OwnTable {
        OwnTable {
            numbers: vec![BEFORE; lengths.numbers],
            column: vec![BEFORE; lengths.column],
        }
    }

    /// A program in memory of these lengths; what does not fit is cut.
    pub fn within(program: &[Term], lengths: Lengths) -> OwnTable {
        let mut table = OwnTable::of(program);
        table.numbers.resize(lengths.numbers, BEFORE);
        table.column.resize(lengths.column, BEFORE);
        table
    }

    /// These numbers with the column of the program that they are; with none where they are no program of so many nodes.
    pub fn of_numbers(numbers: &[u16], count: usize) -> OwnTable {
        let program = decode(Size::LARGE, numbers, count);
        OwnTable {
            numbers: numbers.to_vec(),
            column: program.map_or_else(Vec::new, |program| column(&program)),
        }
    }

    /// The nodes that an exact column has.
    pub fn nodes(&self) -> usize {
        self.column.len()
    }

    pub fn lent_mut(&mut self) -> TableMut<'_> {
        TableMut::new(&mut self.numbers, &mut self.column)
    }
}
