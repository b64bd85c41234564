//! What accepted calls answer.

use core::fmt;

/// The six rules of a step, in their order.
#[derive(Clone, Copy, Debug, PartialEq, Eq, PartialOrd, Ord, Hash)]
pub enum Rule {
    /// An abstraction has got its location.
    Alloc = 1,
    /// An allocated abstraction was applied to a value; where its body is empty the thread is dropped.
    Beta = 2,
    /// A fresh variable has got its number.
    Fresh = 3,
    /// A guard whose left part is a value has become its right part.
    Guard = 4,
    /// Two values were made equal.
    Unif = 5,
    /// Two values cannot be made equal: the thread is dropped.
    Fail = 6,
}

impl Rule {
    /// All of them, in order.
    pub const ALL: [Rule; 6] = [
        Rule::Alloc,
        Rule::Beta,
        Rule::Fresh,
        Rule::Guard,
        Rule::Unif,
        Rule::Fail,
    ];

    /// The number by which a step tells it, 1 to 6.
    pub fn code(self) -> u16 {
        self as u16
    }

    /// The rule of a code, 1 to 6.
    pub fn of_code(code: u16) -> Option<Rule> {
        Rule::ALL.into_iter().find(|rule| rule.code() == code)
    }

    /// Its name.
    pub fn name(self) -> &'static str {
        match self {
            Rule::Alloc => "alloc",
            Rule::Beta => "beta",
            Rule::Fresh => "fresh",
            Rule::Guard => "guard",
            Rule::Unif => "unif",
            Rule::Fail => "fail",
        }
    }
}

impl fmt::Display for Rule {
    fn fmt(&self, out: &mut fmt::Formatter<'_>) -> fmt::Result {
        out.pad(self.name())
    }
}

/// Why a run stopped.
#[derive(Clone, Copy, Debug, PartialEq, Eq, Hash)]
pub enum Reason {
    /// Every thread is finished.
    Ended = 1,
    /// The step limit is used.
    Steps = 2,
    /// The next program would not fit; the table holds the last one that did.
    Room = 3,
}

impl Reason {
    /// All of them, in the order of their codes.
    pub const ALL: [Reason; 3] = [Reason::Ended, Reason::Steps, Reason::Room];

    /// The number by which a run tells it, 1 to 3.
    pub fn code(self) -> u16 {
        self as u16
    }

    /// The reason of a code, 1 to 3.
    pub fn of_code(code: u16) -> Option<Reason> {
        Reason::ALL.into_iter().find(|reason| reason.code() == code)
    }

    /// Its name.
    pub fn name(self) -> &'static str {
        match self {
            Reason::Ended => "ended",
            Reason::Steps => "steps",
            Reason::Room => "room",
        }
    }
}

impl fmt::Display for Reason {
    fn fmt(&self, out: &mut fmt::Formatter<'_>) -> fmt::Result {
        out.pad(self.name())
    }
}

/// How a thread stands.
#[derive(Clone, Copy, Debug, PartialEq, Eq, Hash)]
pub enum Standing {
    /// Built of constructors alone: compare it with the shape you expect, and use it.
    Answer = 1,
    /// No rule applies, and it is no value.
    Stuck = 2,
    /// There is a step to make.
    Open = 3,
    /// A value that holds a free variable or an allocated abstraction: not to be used.
    Partial = 4,
}

impl Standing {
    /// All of them, in the order of their codes.
    pub const ALL: [Standing; 4] = [
        Standing::Answer,
        Standing::Stuck,
        Standing::Open,
        Standing::Partial,
    ];

    /// The number by which a call tells it, 1 to 4.
    pub fn code(self) -> u16 {
        self as u16
    }

    /// The standing of a code, 1 to 4.
    pub fn of_code(code: u16) -> Option<Standing> {
        let mut all = Standing::ALL.into_iter();
        all.find(|standing| standing.code() == code)
    }

    /// Its name.
    pub fn name(self) -> &'static str {
        match self {
            Standing::Answer => "answer",
            Standing::Stuck => "stuck",
            Standing::Open => "open",
            Standing::Partial => "partial",
        }
    }
}

impl fmt::Display for Standing {
    fn fmt(&self, out: &mut fmt::Formatter<'_>) -> fmt::Result {
        out.pad(self.name())
    }
}

/// What an accepted step answers.
#[derive(Clone, Copy, Debug, PartialEq, Eq)]
pub struct Move {
    /// Of the new program, at the front of the output.
    pub nodes: usize,
    /// By which the step was made.
    pub rule: Rule,
    /// The one that was worked on, counted from 0 in the program before the step.
    pub thread: usize,
}

/// How many of a run's steps each rule made.
///
/// Written out: `alloc 4, beta 4, fresh 3, guard 140, unif 121, fail 77`.
#[repr(C)]
#[derive(Clone, Copy, Debug, Default, PartialEq, Eq)]
pub struct Counts {
    /// By [`Rule::Alloc`].
    pub alloc: u32,
    /// By [`Rule::Beta`].
    pub beta: u32,
    /// By [`Rule::Fresh`].
    pub fresh: u32,
    /// By [`Rule::Guard`].
    pub guard: u32,
    /// By [`Rule::Unif`].
    pub unif: u32,
    /// By [`Rule::Fail`].
    pub fail: u32,
}

impl Counts {
    /// The count of one rule.
    pub fn of(&self, rule: Rule) -> u32 {
        match rule {
            Rule::Alloc => self.alloc,
            Rule::Beta => self.beta,
            Rule::Fresh => self.fresh,
            Rule::Guard => self.guard,
            Rule::Unif => self.unif,
            Rule::Fail => self.fail,
        }
    }

    /// All six together: a run's steps.
    pub fn sum(&self) -> u64 {
        let counts = Rule::ALL.into_iter().map(|rule| self.of(rule));
        counts.map(u64::from).sum()
    }
}

impl fmt::Display for Counts {
    fn fmt(&self, out: &mut fmt::Formatter<'_>) -> fmt::Result {
        for rule in Rule::ALL {
            let comma = if rule == Rule::Alloc { "" } else { ", " };
            write!(out, "{comma}{rule} {}", self.of(rule))?;
        }
        Ok(())
    }
}

/// What an accepted run answers.
#[derive(Clone, Copy, Debug, PartialEq, Eq)]
pub struct Stop {
    /// Why it stopped.
    pub reason: Reason,
    /// Of the end program, which the table holds then.
    pub nodes: usize,
    /// Taken.
    pub steps: u32,
    /// What they were.
    pub counts: Counts,
}
