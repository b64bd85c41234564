//! Columns: one number a node, the nodes of the subtree that begins there.

use super::tree::Term;

/// The column of a program: an entry is known once all that stands below its node has its own.
pub fn column(program: &[Term]) -> Vec<u16> {
    let mut column = Vec::new();
    put_program(program, &mut column);
    column
}

/// Whether a column's front is the program's; what stands behind it is not looked at.
pub fn is_column_of(given: &[u16], program: &[Term]) -> bool {
    given.starts_with(&column(program))
}

/// An alternative counts its term and all that stands behind it, the last empty node too.
fn put_program(program: &[Term], column: &mut Vec<u16>) {
    let mut alternatives = Vec::new();
    for term in program {
        alternatives.push(column.len());
        column.push(0);
        put_term(term, column);
    }
    column.push(1);
    for place in alternatives {
        fill(column, place);
    }
}

fn put_term(term: &Term, column: &mut Vec<u16>) {
    let place = column.len();
    column.push(0);
    match term {
        Term::Bound(_) | Term::Free(_) | Term::Constructor(_) => {}
        Term::Abstraction(body) | Term::Allocated(_, body) => put_program(body, column),
        Term::Fresh(part) => put_term(part, column),
        Term::Application(l, r) | Term::Guard(l, r) | Term::Unification(l, r) => {
            put_term(l, column);
            put_term(r, column);
        }
    }
    fill(column, place);
}

/// The node at the place, and all that was put behind it.
fn fill(column: &mut [u16], place: usize) {
    let nodes = column.len() - place;
    column[place] = u16::try_from(nodes).expect("no program that is compared has so many nodes");
}
