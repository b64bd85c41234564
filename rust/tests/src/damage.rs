//! Wrong columns, of every kind.

use crate::evaluator::column::column;
use crate::evaluator::table::OwnTable;
use crate::evaluator::tree::{application, fresh, Program, Term};
use crate::random::Random;

/// What is wrong with a column.
#[derive(Clone, Copy, Debug, PartialEq, Eq)]
pub enum Damage {
    /// The last entry is missing.
    Short,
    /// Every entry is missing.
    Empty,
    /// An entry is one more or one less.
    OneOff,
    /// The last entry alone is wrong.
    Last,
    /// An entry jumps to the program's end, past it, or as far as a number goes.
    Far,
    /// An entry is 0: a jump by it leads nowhere.
    Zero,
    /// All entries are 0.
    Zeros,
    /// Two entries have changed places.
    Swapped,
    /// An entry is one more and another one less.
    Balanced,
    /// An entry and those of all nodes around it are off by the same number, so that each of those is still the sum of its parts.
    Carried,
    /// The entries of another program of the same size.
    Another,
    /// Every term's entry is right, an alternative's is not.
    Alternative,
    /// Each alternative counts its own term and nothing behind it.
    TermOnly,
    /// Each entry stands one place too early.
    Shifted,
    /// Any numbers.
    Any,
}

impl Damage {
    pub const ALL: [Damage; 15] = [
        Damage::Short,
        Damage::Empty,
        Damage::OneOff,
        Damage::Last,
        Damage::Far,
        Damage::Zero,
        Damage::Zeros,
        Damage::Swapped,
        Damage::Balanced,
        Damage::Carried,
        Damage::Another,
        Damage::Alternative,
        Damage::TermOnly,
        Damage::Shifted,
        Damage::Any,
    ];

    /// The column of a table that is exactly a program's, so damaged; `None` where that leaves it right.
    pub fn done_to(self, table: &OwnTable, random: &mut Random) -> Option<Vec<u16>> {
        let right = &table.column;
        let mut column = right.clone();
        let (count, place) = (right.len(), random.below(right.len()));
        match self {
            Damage::Short => drop(column.pop()),
            Damage::Empty => column.clear(),
            Damage::OneOff => column[place] = one_off(right[place], random),
            Damage::Last => column[count - 1] = random.pick(&[0, 2, 3, 65535]),
            Damage::Far => column[place] = far(place, count, random),
            Damage::Zero => column[place] = 0,
            Damage::Zeros => column.fill(0),
            Damage::Swapped => column.swap(place, unlike(right, place, random)),
            Damage::Balanced => {
                column[place] += 1;
                column[random.below(count)] -= 1;
            }
            Damage::Carried => carry(&mut column, right, place, random),
            Damage::Another => column = another(count, random),
            Damage::Alternative => {
                let place = alternative(table, place)?;
                column[place] = random.pick(&[0, 1, right[place] - 1, right[place] + 1, 65535]);
            }
            Damage::TermOnly => terms_only(&mut column, &table.numbers),
            Damage::Shifted => column.rotate_left(1),
            Damage::Any => column = any_column(count, random),
        }
        (column != *right).then_some(column)
    }
}

fn one_off(entry: u16, random: &mut Random) -> u16 {
    match random.one_in(2) {
        true => entry + 1,
        false => entry - 1,
    }
}

/// From the place to the program's end and further.
fn far(place: usize, count: usize, random: &mut Random) -> u16 {
    let left = count - place;
    let any = [left, left + 1, count, count + 1, 2 * count];
    let limits = [2047, 2048, 16_383, 16_384];
    match random.below(5) {
        0 => 65535,
        // where 16 bits are not enough for the sum, this comes to a place of the program again
        1 => (65536 - random.between(1, place + 1)) as u16,
        2 => random.pick(&limits),
        _ => random.pick(&any) as u16,
    }
}

/// A place with another entry, if there is one.
fn unlike(column: &[u16], place: usize, random: &mut Random) -> usize {
    let others = (0..column.len()).filter(|i| column[*i] != column[place]);
    let others: Vec<usize> = others.collect();
    match others.len() {
        0 => place,
        all => others[random.below(all)],
    }
}

fn carry(column: &mut [u16], right: &[u16], place: usize, random: &mut Random) {
    let by = random.pick(&[1, 1, 2, 65535, 65535, 32768]);
    for i in 0..=place {
        if i + usize::from(right[i]) > place {
            column[i] = column[i].wrapping_add(by);
        }
    }
}

/// The last alternative node up to a place.
fn alternative(table: &OwnTable, place: usize) -> Option<usize> {
    (0..=place).rev().find(|i| table.numbers[2 * i] == 1)
}

fn terms_only(column: &mut [u16], numbers: &[u16]) {
    for i in 0..column.len() {
        if numbers[2 * i] == 1 {
            column[i] = 1 + column[i + 1];
        }
    }
}

fn another(count: usize, random: &mut Random) -> Vec<u16> {
    column(&list_of(count, random))
}

/// A program of so many nodes: 1, or at least 3.
fn list_of(nodes: usize, random: &mut Random) -> Program {
    let mut program = Vec::new();
    let mut left = nodes;
    while left > 1 {
        let size = random.between(1, left - 2);
        // no program of two nodes is left
        let size = if left - 1 - size == 2 { size + 1 } else { size };
        program.push(term_of(size, random));
        left -= 1 + size;
    }
    program
}

fn term_of(nodes: usize, random: &mut Random) -> Term {
    match (nodes, random.below(3)) {
        (1, _) => Term::Constructor(1),
        (2, 0) => Term::Abstraction(Vec::new()),
        (4.., 0) => Term::Abstraction(list_of(nodes - 1, random)),
        (3.., 1) => {
            let left = random.between(1, nodes - 2);
            let right = nodes - 1 - left;
            application(term_of(left, random), term_of(right, random))
        }
        _ => fresh(term_of(nodes - 1, random)),
    }
}

/// A column of numbers that need not be sizes.
pub fn any_column(length: usize, random: &mut Random) -> Vec<u16> {
    let wild = random.one_in(4);
    let number = |_| match wild {
        true => random.draw() as u16,
        false => random.below(length + 2) as u16,
    };
    (0..length).map(number).collect()
}
