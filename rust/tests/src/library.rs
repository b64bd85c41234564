//! The library's six calls at either size.

use crate::evaluator::Size;
use mespindro::{small, Move, Refusal, Standing, Stop, Table, TableMut};

/// The calls of one size.
pub struct Library {
    pub read: fn(&[u8], TableMut<'_>) -> Result<usize, Refusal>,
    pub write: fn(Table<'_>, usize, &mut [u8]) -> Result<usize, Refusal>,
    pub step: fn(Table<'_>, usize, TableMut<'_>) -> Result<Move, Refusal>,
    pub run: fn(TableMut<'_>, usize, TableMut<'_>, u32) -> Result<Stop, Refusal>,
    pub standing: fn(Table<'_>, usize, usize) -> Result<Standing, Refusal>,
    pub thread: for<'t> fn(Table<'t>, usize, usize) -> &'t [u16],
}

const LARGE: Library = Library {
    read: mespindro::read,
    write: mespindro::write,
    step: mespindro::step,
    run: mespindro::run,
    standing: mespindro::standing,
    thread: mespindro::thread,
};

const SMALL: Library = Library {
    read: small::read,
    write: small::write,
    step: small::step,
    run: small::run,
    standing: small::standing,
    thread: small::thread,
};

impl Library {
    /// The calls whose limit this is.
    pub fn at(size: Size) -> &'static Library {
        match size {
            Size::SMALL => &SMALL,
            Size::LARGE => &LARGE,
            other => panic!("the library has no calls for {other:?}"),
        }
    }
}

/// What the calls of both sizes come to, which must be the same.
pub fn at_both<T: PartialEq + std::fmt::Debug>(work: impl Fn(&Library) -> T) -> T {
    let [small, large] = Size::BOTH.map(|size| work(Library::at(size)));
    assert_eq!(small, large, "at 2,048 nodes and at 16,384");
    small
}
