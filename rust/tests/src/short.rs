//! The programs of document 01's short notation that tests print.

use crate::evaluator::tree::{application, fresh, guard, unification, Program, Term};
use rules::notation;
use rules::term::Term as Named;

/// The program of a short notation; its threads need not be coherent.
pub fn program(short: &str) -> Program {
    let program = notation::read_incoherent(short);
    let program = program.unwrap_or_else(|error| panic!("{short}: {error:?}"));
    without_names(&program)
}

/// The evaluator's program for one with names.
pub fn without_names(program: &[Named]) -> Program {
    program.iter().map(term).collect()
}

fn term(named: &Named) -> Term {
    match named {
        Named::Bound(index) => Term::Bound(*index),
        Named::Free(number, _) => Term::Free(*number),
        Named::Constructor(number) => Term::Constructor(*number),
        Named::Abstraction(_, body) => Term::Abstraction(without_names(body)),
        Named::Allocated(location, _, body) => Term::Allocated(*location, without_names(body)),
        Named::Fresh(_, part) => fresh(term(part)),
        Named::Application(l, r) => application(term(l), term(r)),
        Named::Guard(l, r) => guard(term(l), term(r)),
        Named::Unification(l, r) => unification(term(l), term(r)),
    }
}
