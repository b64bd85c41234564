//! Tables: two numbers a node, kind and number, in preorder, and a column beside them.

use super::column::{column, is_column_of};
use super::tree::{application, fresh, guard, unification, Program, Term};
use super::Size;
use mespindro::{Refusal, Table};

/// A table and its column in memory of their own.
#[derive(Clone, Debug, PartialEq, Eq)]
pub struct OwnTable {
    pub numbers: Vec<u16>,
    pub column: Vec<u16>,
}

impl OwnTable {
    /// Of a program, exactly.
    pub fn of(program: &[Term]) -> OwnTable {
        OwnTable {
            numbers: write_table(program),
            column: column(program),
        }
    }

    pub fn lent(&self) -> Table<'_> {
        Table::new(&self.numbers, &self.column)
    }
}

/// The program of the first `count` nodes; `None` is refusal 1.
pub fn decode(size: Size, table: &[u16], count: usize) -> Option<Program> {
    if count == 0 || count > size.nodes || count > table.len() / 2 {
        return None;
    }
    let mut nodes = Nodes {
        size,
        table: &table[..2 * count],
    };
    let program = nodes.program()?;
    nodes.table.is_empty().then_some(program)
}

/// The program of a table and its column, or refusal 1, 14, 6 or 8.
pub fn read_table(size: Size, table: Table<'_>, count: usize) -> Result<Program, Refusal> {
    let program = decode(size, table.numbers, count).ok_or(Refusal::NoProgram)?;
    if !is_column_of(table.column, &program) {
        return Err(Refusal::WrongColumn);
    }
    super::check::checked(program)
}

/// The nodes that are not read yet.
struct Nodes<'t> {
    size: Size,
    table: &'t [u16],
}

impl Nodes<'_> {
    fn next(&mut self) -> Option<(u16, u16)> {
        let (node, rest) = (self.table.get(..2)?, self.table.get(2..)?);
        self.table = rest;
        Some((node[0], node[1]))
    }

    fn program(&mut self) -> Option<Program> {
        let mut program = Vec::new();
        loop {
            match self.next()? {
                (0, 0) => return Some(program),
                (1, 0) => program.push(self.term()?),
                _ => return None,
            }
        }
    }

    fn term(&mut self) -> Option<Term> {
        let (kind, number) = self.next()?;
        let in_range = match kind {
            2 | 3 | 6 => number <= self.size.largest(),
            4 => true,
            _ => number == 0,
        };
        if !in_range {
            return None;
        }
        Some(match kind {
            2 => Term::Bound(number),
            3 => Term::Free(number),
            4 => Term::Constructor(number),
            5 => Term::Abstraction(self.program()?),
            6 => Term::Allocated(number, self.program()?),
            7 => application(self.term()?, self.term()?),
            8 => fresh(self.term()?),
            9 => guard(self.term()?, self.term()?),
            10 => unification(self.term()?, self.term()?),
            _ => return None,
        })
    }
}

/// The table of a program.
pub fn write_table(program: &[Term]) -> Vec<u16> {
    let mut table = Vec::new();
    put_program(program, &mut table);
    table
}

fn put_program(program: &[Term], table: &mut Vec<u16>) {
    for alternative in program {
        table.extend([1, 0]);
        put_term(alternative, table);
    }
    table.extend([0, 0]);
}

fn put_term(term: &Term, table: &mut Vec<u16>) {
    let (kind, number) = match term {
        Term::Bound(index) => (2, *index),
        Term::Free(variable) => (3, *variable),
        Term::Constructor(constructor) => (4, *constructor),
        Term::Abstraction(_) => (5, 0),
        Term::Allocated(location, _) => (6, *location),
        Term::Application(_, _) => (7, 0),
        Term::Fresh(_) => (8, 0),
        Term::Guard(_, _) => (9, 0),
        Term::Unification(_, _) => (10, 0),
    };
    table.extend([kind, number]);
    match term {
        Term::Bound(_) | Term::Free(_) | Term::Constructor(_) => {}
        Term::Abstraction(body) | Term::Allocated(_, body) => put_program(body, table),
        Term::Fresh(part) => put_term(part, table),
        Term::Application(l, r) | Term::Guard(l, r) | Term::Unification(l, r) => {
            put_term(l, table);
            put_term(r, table);
        }
    }
}
