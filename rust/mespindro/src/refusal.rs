//! The refusals, with the words of docs/USING.md.

use core::fmt;

/// Why a call was refused. A refused call has changed nothing.
///
/// Written out it has the words of docs/USING.md:
///
/// ```
/// use mespindro::Refusal;
///
/// assert_eq!(Refusal::NoThread.to_string(), "no thread (10): the thread number is past the last thread");
/// ```
#[derive(Clone, Copy, Debug, PartialEq, Eq, PartialOrd, Ord, Hash)]
pub enum Refusal {
    /// The table does not hold one program of `count` nodes.
    NoProgram = 1,
    /// The text is longer than the [`TEXT`](crate::TEXT) bytes of the call's size.
    TooLong = 2,
    /// The text is not exactly one canonical S-expression: a trailing newline is enough.
    NotCanonical = 3,
    /// A list or an atom stands where none may: an unknown tag, a wrong number of members.
    OutOfPlace = 4,
    /// A number is not a plain decimal or is out of its range.
    BadNumber = 5,
    /// A bound variable has no binder.
    NoBinder = 6,
    /// The program read, or a single step's result, has over the [`NODES`](crate::NODES) nodes of the call's size.
    TooManyNodes = 7,
    /// One location with two bodies in a thread, or a body that reaches a binder around it.
    Incoherent = 8,
    /// The result does not fit the output or its column; for a run, the program does not fit the work table or its column.
    NoRoom = 9,
    /// There is no thread of that number.
    NoThread = 10,
    /// A single step is asked for and every thread is finished.
    Finished = 11,
    /// The column of the program handed in is wrong or too short. It is asked directly after [`NoProgram`](Refusal::NoProgram).
    WrongColumn = 14,
}

impl Refusal {
    /// All of them, in the order of their numbers.
    pub const ALL: [Refusal; 12] = [
        Refusal::NoProgram,
        Refusal::TooLong,
        Refusal::NotCanonical,
        Refusal::OutOfPlace,
        Refusal::BadNumber,
        Refusal::NoBinder,
        Refusal::TooManyNodes,
        Refusal::Incoherent,
        Refusal::NoRoom,
        Refusal::NoThread,
        Refusal::Finished,
        Refusal::WrongColumn,
    ];

    /// Its number, 1 to 11 or 14.
    pub fn number(self) -> u16 {
        self as u16
    }

    /// The refusal of a number, 1 to 11 or 14.
    pub fn of_number(number: u16) -> Option<Refusal> {
        Refusal::ALL.into_iter().find(|r| r.number() == number)
    }

    /// Its name.
    pub fn name(self) -> &'static str {
        match self {
            Refusal::NoProgram => "no program",
            Refusal::TooLong => "too long",
            Refusal::NotCanonical => "not canonical",
            Refusal::OutOfPlace => "out of place",
            Refusal::BadNumber => "bad number",
            Refusal::NoBinder => "no binder",
            Refusal::TooManyNodes => "too many nodes",
            Refusal::Incoherent => "incoherent",
            Refusal::NoRoom => "no room",
            Refusal::NoThread => "no thread",
            Refusal::Finished => "finished",
            Refusal::WrongColumn => "wrong column",
        }
    }

    /// What an operator is to look at.
    pub fn advice(self) -> &'static str {
        match self {
            Refusal::NoProgram => "the table was not filled by read, step or run, or the count is not the one they returned",
            Refusal::TooLong => "over 196,608 bytes: no rule set of 16,384 nodes is that long; a wrong file, or two files joined. On a small leaf over 24,576: perhaps a rule set for a spine",
            Refusal::NotCanonical => "torn or edited by hand: a wrong length before a colon, a bracket missing, a newline at the end",
            Refusal::OutOfPlace => "canonical, but no rule set: an unknown tag, a term with too few or too many parts",
            Refusal::BadNumber => "a number that is no plain decimal (01), or too large: constructors to 65,535, all others to 16,383; on a small leaf to 2,047",
            Refusal::NoBinder => "a bound variable that counts past its outermost binder",
            Refusal::TooManyNodes => "the rule set, or what one step makes of it, has over 16,384 nodes; on a small leaf over 2,048",
            Refusal::Incoherent => "one location with two different bodies in a thread, or a closure that reaches outside; hand-written L nodes: leave them to the evaluator",
            Refusal::NoRoom => "the buffer that was lent is too small: the output or its column; for a run, the work table or its column",
            Refusal::NoThread => "the thread number is past the last thread",
            Refusal::Finished => "a single step was asked for and there is none to make",
            Refusal::WrongColumn => "the column is not the one that read, step or run left with this table, or it is shorter than the program",
        }
    }
}

impl fmt::Display for Refusal {
    fn fmt(&self, out: &mut fmt::Formatter<'_>) -> fmt::Result {
        write!(
            out,
            "{} ({}): {}",
            self.name(),
            self.number(),
            self.advice()
        )
    }
}

// the build script asks the compiler's version
#[cfg(mespindro_core_error)]
impl core::error::Error for Refusal {}
