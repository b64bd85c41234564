//! include/mespindro.h, declaration by declaration, and what its answers say; its counts are [`Counts`].

use crate::{Counts, Reason, Refusal, Rule, Standing};
use core::mem::transmute;

#[repr(C)]
pub struct Count {
    pub count: usize,
    pub refusal: u16,
}

#[repr(C)]
pub struct Move {
    pub nodes: usize,
    pub thread: u32,
    pub rule: u16,
    pub refusal: u16,
}

#[repr(C)]
pub struct Stop {
    pub nodes: usize,
    pub steps: u32,
    pub counts: Counts,
    pub reason: u16,
    pub refusal: u16,
}

#[repr(C)]
pub struct Stand {
    pub standing: u16,
    pub refusal: u16,
}

#[repr(C)]
pub struct Part {
    pub start: usize,
    pub length: usize,
}

/// The six calls of one size, by their names in C: each over slices.
macro_rules! calls {
    ($size:ident: $read:ident, $write:ident, $step:ident, $run:ident, $standing:ident, $thread:ident) => {
        pub mod $size {
            use super::{Count, Move, Part, Stand, Stop};
            use crate::{Table, TableMut};

            extern "C" {
                fn $read(
                    text: *const u8,
                    text_length: usize,
                    out: *mut u16,
                    out_length: usize,
                    column: *mut u16,
                    column_length: usize,
                ) -> Count;
                fn $write(
                    table: *const u16,
                    table_length: usize,
                    column: *const u16,
                    column_length: usize,
                    count: usize,
                    out: *mut u8,
                    out_length: usize,
                ) -> Count;
                fn $step(
                    table: *const u16,
                    table_length: usize,
                    column: *const u16,
                    column_length: usize,
                    count: usize,
                    out: *mut u16,
                    out_length: usize,
                    out_column: *mut u16,
                    out_column_length: usize,
                ) -> Move;
                fn $run(
                    table: *mut u16,
                    table_length: usize,
                    column: *mut u16,
                    column_length: usize,
                    count: usize,
                    work: *mut u16,
                    work_length: usize,
                    work_column: *mut u16,
                    work_column_length: usize,
                    most: u32,
                ) -> Stop;
                fn $standing(
                    table: *const u16,
                    table_length: usize,
                    column: *const u16,
                    column_length: usize,
                    count: usize,
                    k: usize,
                ) -> Stand;
                fn $thread(
                    table: *const u16,
                    table_length: usize,
                    column: *const u16,
                    column_length: usize,
                    count: usize,
                    k: usize,
                ) -> Part;
            }

            pub fn read(text: &[u8], out: TableMut<'_>) -> Count {
                // SAFETY: all slices are valid for their lengths, and what is lent to be written is in no other use
                unsafe {
                    $read(
                        text.as_ptr(),
                        text.len(),
                        out.numbers.as_mut_ptr(),
                        out.numbers.len(),
                        out.column.as_mut_ptr(),
                        out.column.len(),
                    )
                }
            }

            pub fn write(table: Table<'_>, count: usize, out: &mut [u8]) -> Count {
                // SAFETY: as for `read`
                unsafe {
                    $write(
                        table.numbers.as_ptr(),
                        table.numbers.len(),
                        table.column.as_ptr(),
                        table.column.len(),
                        count,
                        out.as_mut_ptr(),
                        out.len(),
                    )
                }
            }

            pub fn step(table: Table<'_>, count: usize, out: TableMut<'_>) -> Move {
                // SAFETY: as for `read`
                unsafe {
                    $step(
                        table.numbers.as_ptr(),
                        table.numbers.len(),
                        table.column.as_ptr(),
                        table.column.len(),
                        count,
                        out.numbers.as_mut_ptr(),
                        out.numbers.len(),
                        out.column.as_mut_ptr(),
                        out.column.len(),
                    )
                }
            }

            pub fn run(table: TableMut<'_>, count: usize, work: TableMut<'_>, most: u32) -> Stop {
                // SAFETY: as for `read`
                unsafe {
                    $run(
                        table.numbers.as_mut_ptr(),
                        table.numbers.len(),
                        table.column.as_mut_ptr(),
                        table.column.len(),
                        count,
                        work.numbers.as_mut_ptr(),
                        work.numbers.len(),
                        work.column.as_mut_ptr(),
                        work.column.len(),
                        most,
                    )
                }
            }

            pub fn standing(table: Table<'_>, count: usize, k: usize) -> Stand {
                // SAFETY: as for `read`
                unsafe {
                    $standing(
                        table.numbers.as_ptr(),
                        table.numbers.len(),
                        table.column.as_ptr(),
                        table.column.len(),
                        count,
                        k,
                    )
                }
            }

            pub fn thread(table: Table<'_>, count: usize, k: usize) -> Part {
                // SAFETY: as for `read`
                unsafe {
                    $thread(
                        table.numbers.as_ptr(),
                        table.numbers.len(),
                        table.column.as_ptr(),
                        table.column.len(),
                        count,
                        k,
                    )
                }
            }
        }
    };
}

calls!(
    large: mespindro_read,
    mespindro_write,
    mespindro_step,
    mespindro_run,
    mespindro_standing,
    mespindro_thread
);

calls!(
    small: mespindro_small_read,
    mespindro_small_write,
    mespindro_small_step,
    mespindro_small_run,
    mespindro_small_standing,
    mespindro_small_thread
);

impl Count {
    pub fn result(self) -> Result<usize, Refusal> {
        refused(self.refusal, self.count == 0)?;
        Ok(self.count)
    }
}

impl Move {
    pub fn result(self) -> Result<crate::Move, Refusal> {
        let zeros = (self.nodes, self.rule, self.thread) == (0, 0, 0);
        refused(self.refusal, zeros)?;
        Ok(crate::Move {
            nodes: self.nodes,
            rule: known(Rule::of_code(self.rule)),
            thread: self.thread as usize,
        })
    }
}

impl Stop {
    pub fn result(self) -> Result<crate::Stop, Refusal> {
        let zeros = (self.nodes, self.steps, self.reason) == (0, 0, 0);
        refused(self.refusal, zeros && self.counts == Counts::default())?;
        Ok(crate::Stop {
            reason: known(Reason::of_code(self.reason)),
            nodes: self.nodes,
            steps: self.steps,
            counts: self.counts,
        })
    }
}

impl Stand {
    pub fn result(self) -> Result<Standing, Refusal> {
        refused(self.refusal, self.standing == 0)?;
        Ok(known(Standing::of_code(self.standing)))
    }
}

impl Part {
    pub fn of(self, numbers: &[u16]) -> &[u16] {
        &numbers[self.start..self.start + self.length]
    }
}

/// A refusal's number as an error; every other field is 0 then.
fn refused(number: u16, others_are_zero: bool) -> Result<(), Refusal> {
    if number == 0 {
        return Ok(());
    }
    Err(known(
        Refusal::of_number(number).filter(|_| others_are_zero),
    ))
}

/// What an answer's number stands for. The archive that this crate was made for gives no other.
fn known<T>(found: Option<T>) -> T {
    found.expect("the archive gives an answer that this version does not know")
}

// where the fields of the two longer answers stand, and that there is nothing between them: a value with another number in each
const _: () = {
    let made = Move {
        nodes: 1,
        thread: 2,
        rule: 3,
        refusal: 4,
    };
    let found: [u16; 8] = unsafe { transmute(made) };
    same(&found, &[1, 0, 0, 0, 2, 0, 3, 4]);

    let stop = Stop {
        nodes: 1,
        steps: 2,
        counts: Counts {
            alloc: 3,
            beta: 4,
            fresh: 5,
            guard: 6,
            unif: 7,
            fail: 8,
        },
        reason: 9,
        refusal: 10,
    };
    let found: [u16; 20] = unsafe { transmute(stop) };
    let expected = [1, 0, 0, 0, 2, 0, 3, 0, 4, 0, 5, 0, 6, 0, 7, 0, 8, 0, 9, 10];
    same(&found, &expected);
};

const fn same(found: &[u16], expected: &[u16]) {
    assert!(found.len() == expected.len());
    let mut at = 0;
    while at < found.len() {
        assert!(found[at] == expected[at]);
        at += 1;
    }
}
