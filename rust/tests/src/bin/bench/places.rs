//! Lent memory in several places. Where two tables lie nearly a multiple of 4,096 bytes apart, as the heap likes to put them, some machines copy
//! from one to the other several times slower; so they are kept apart, each time by another distance, and the least time is of a good one.

use mespindro_tests::evaluator::table::OwnTable;
use mespindro_tests::evaluator::Size;

/// How many places there are.
pub const PLACES: usize = 16;

/// A page, in numbers.
const PAGE: usize = 4096 / 2;

/// One block for all places.
pub struct Memory {
    block: Vec<u16>,
    /// Of a table, its column, a work table and its column.
    lengths: [usize; 4],
    /// Where the four parts begin in it, by place.
    starts: [[usize; 4]; PLACES],
}

impl Memory {
    /// For programs of a size.
    pub fn new(size: Size) -> Memory {
        let lengths = [2 * size.nodes, size.nodes, 2 * size.nodes, size.nodes];
        // the gaps are less than a page each
        let all = PLACES * (lengths.iter().sum::<usize>() + 4 * PAGE);
        let block = vec![0u16; all + PAGE];
        let mut next = block.as_ptr().align_offset(2 * PAGE);
        let starts = std::array::from_fn(|place| {
            lengths.map(|length| {
                let start = next;
                next += length + gap(place);
                start
            })
        });
        Memory {
            block,
            lengths,
            starts,
        }
    }

    /// A program at the front of the table, zeros behind it and in the work table.
    pub fn fill(&mut self, place: usize, program: &OwnTable) {
        let [numbers, column, work, work_column] = self.at(place);
        for part in [&mut *numbers, &mut *column, work, work_column] {
            part.fill(0);
        }
        numbers[..program.numbers.len()].copy_from_slice(&program.numbers);
        column[..program.nodes()].copy_from_slice(&program.column);
    }

    /// The table, its column, the work table and its column.
    pub fn at(&mut self, place: usize) -> [&mut [u16]; 4] {
        let mut rest = &mut self.block[..];
        let mut passed = 0;
        let (starts, lengths) = (self.starts[place], self.lengths);
        std::array::from_fn(|part| {
            let (_, from) = std::mem::take(&mut rest).split_at_mut(starts[part] - passed);
            let (this, behind) = from.split_at_mut(lengths[part]);
            rest = behind;
            passed = starts[part] + lengths[part];
            this
        })
    }
}

/// Behind each part of a place: a table and its work table are two gaps and whole pages apart, half a page to all but 128 bytes of one.
fn gap(place: usize) -> usize {
    PAGE / 4 + PAGE / 64 * place
}
