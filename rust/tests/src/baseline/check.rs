//! Whether the nodes of a table are a program, closed and coherent: one pass from the first node to the last.

use super::nodes::node;
use crate::evaluator::Size;
use mespindro::kind::*;
use mespindro::Refusal;

/// What is to come once all before it has been passed.
#[derive(Clone, Copy)]
enum Awaited {
    Term,
    Program,
    /// Nothing: the allocated abstraction at this place ends here.
    EndOf(usize),
}

/// The binders around a node, and how many of them stand outside the innermost allocated abstraction.
#[derive(Clone, Copy)]
struct Around {
    binders: usize,
    outside: usize,
}

impl Around {
    const NOTHING: Around = Around {
        binders: 0,
        outside: 0,
    };

    fn below_binder(self) -> Around {
        Around {
            binders: self.binders + 1,
            ..self
        }
    }

    fn below_allocated(self) -> Around {
        Around {
            binders: self.binders + 1,
            outside: self.binders,
        }
    }
}

/// The first allocated abstraction with a location: in which thread, and where it begins and ends.
#[derive(Clone, Copy, Default)]
struct First {
    thread: u64,
    place: usize,
    end: usize,
}

/// What stays from call to call is memory alone.
pub struct Check {
    size: Size,
    awaited: Vec<(Awaited, Around)>,
    /// By location; of another thread than the one at hand it says nothing.
    firsts: Vec<First>,
    /// All threads that were ever checked, so that no entry of an earlier one need be cleared.
    threads: u64,
    loose: bool,
    incoherent: bool,
}

impl Check {
    pub fn new(size: Size) -> Check {
        Check {
            size,
            awaited: Vec::new(),
            firsts: vec![First::default(); size.nodes],
            threads: 0,
            loose: false,
            incoherent: false,
        }
    }

    /// Refusals 1, 6 and 8 on the first `count` nodes.
    pub fn check(&mut self, table: &[u16], count: usize) -> Result<(), Refusal> {
        if count == 0 || count > self.size.nodes || count > table.len() / 2 {
            return Err(Refusal::NoProgram);
        }
        (self.loose, self.incoherent) = (false, false);
        let form = self.pass(&table[..2 * count]);
        match form {
            None => Err(Refusal::NoProgram),
            Some(()) if self.loose => Err(Refusal::NoBinder),
            Some(()) if self.incoherent => Err(Refusal::Incoherent),
            Some(()) => Ok(()),
        }
    }

    /// Passes all nodes; `None` where they are not one program.
    fn pass(&mut self, table: &[u16]) -> Option<()> {
        self.awaited.clear();
        let (mut place, mut next) = (0, (Awaited::Program, Around::NOTHING));
        while place < table.len() {
            let (kind, number) = node(table, place);
            let below = match next {
                (Awaited::Term, around) => self.term(kind, number, place, around)?,
                (_, around) => self.program(kind, number, around)?,
            };
            place += 2;
            next = match below {
                Some(first_part) => first_part,
                None => match self.after(table, place) {
                    Some(awaited) => awaited,
                    None => return (place == table.len()).then_some(()),
                },
            };
        }
        None
    }

    /// A node where a program must stand, and its first part if it has one.
    fn program(
        &mut self,
        kind: u16,
        number: u16,
        around: Around,
    ) -> Option<Option<(Awaited, Around)>> {
        if number != 0 || kind > ALTERNATIVE {
            return None;
        }
        if kind == EMPTY {
            return Some(None);
        }
        if self.awaited.is_empty() {
            self.threads += 1;
        }
        self.awaited.push((Awaited::Program, around));
        Some(Some((Awaited::Term, around)))
    }

    /// A node where a term must stand, and its first part if it has one.
    fn term(
        &mut self,
        kind: u16,
        number: u16,
        place: usize,
        around: Around,
    ) -> Option<Option<(Awaited, Around)>> {
        let in_range = match kind {
            BOUND | FREE | ALLOCATED => number <= self.size.largest(),
            CONSTRUCTOR => true,
            _ => number == 0,
        };
        if !in_range {
            return None;
        }
        Some(match kind {
            BOUND => {
                self.bound(usize::from(number), around);
                None
            }
            FREE | CONSTRUCTOR => None,
            ABSTRACTION => Some((Awaited::Program, around.below_binder())),
            ALLOCATED => {
                self.awaited.push((Awaited::EndOf(place), around));
                Some((Awaited::Program, around.below_allocated()))
            }
            FRESH => Some((Awaited::Term, around.below_binder())),
            APPLICATION | GUARD | UNIFICATION => {
                self.awaited.push((Awaited::Term, around));
                Some((Awaited::Term, around))
            }
            _ => return None,
        })
    }

    fn bound(&mut self, index: usize, around: Around) {
        if index >= around.binders {
            self.loose = true;
        } else if index >= around.binders - around.outside {
            self.incoherent = true;
        }
    }

    /// What comes at this place, behind a part without parts of its own; `None` where the whole program ends here.
    fn after(&mut self, table: &[u16], place: usize) -> Option<(Awaited, Around)> {
        loop {
            match self.awaited.pop()? {
                (Awaited::EndOf(start), _) => self.allocated(table, start, place),
                awaited => return Some(awaited),
            }
        }
    }

    /// An allocated abstraction is compared with the first one of its location in the thread.
    fn allocated(&mut self, table: &[u16], place: usize, end: usize) {
        let first = &mut self.firsts[usize::from(table[place + 1])];
        if first.thread == self.threads {
            self.incoherent |= table[first.place..first.end] != table[place..end];
            return;
        }
        *first = First {
            thread: self.threads,
            place,
            end,
        };
    }
}
