//! What a program must fulfil beside its form: every bound variable has a binder (else 6), every thread is coherent (else 8).

use super::tree::{each_term, Program, Term};
use mespindro::Refusal;

/// Whether a bound variable anywhere in the program has no binder.
pub fn has_loose_index(program: &[Term]) -> bool {
    needs_of_all(program).0 > 0
}

/// Whether every thread is coherent.
pub fn is_coherent(program: &[Term]) -> bool {
    program.iter().all(is_coherent_thread)
}

/// Whether an allocated abstraction stands anywhere in the program, inside any body too.
pub fn holds_closure(program: &[Term]) -> bool {
    let mut found = false;
    for thread in program {
        each_term(thread, 0, &mut |t, _| {
            found |= matches!(t, Term::Allocated(..));
        });
    }
    found
}

/// Refusals 6 and 8 on a program that has its form.
pub fn checked(program: Program) -> Result<Program, Refusal> {
    if has_loose_index(&program) {
        Err(Refusal::NoBinder)
    } else if !is_coherent(&program) {
        Err(Refusal::Incoherent)
    } else {
        Ok(program)
    }
}

/// How many binders around a term its variables need, and whether every allocated abstraction in it needs none.
fn needs(term: &Term) -> (usize, bool) {
    match term {
        Term::Bound(index) => (usize::from(*index) + 1, true),
        Term::Free(_) | Term::Constructor(_) => (0, true),
        Term::Abstraction(body) => below_binder(needs_of_all(body)),
        Term::Fresh(part) => below_binder(needs(part)),
        Term::Allocated(_, body) => {
            let (binders, closed) = below_binder(needs_of_all(body));
            (binders, closed && binders == 0)
        }
        Term::Application(l, r) | Term::Guard(l, r) | Term::Unification(l, r) => {
            together(needs(l), needs(r))
        }
    }
}

fn needs_of_all(program: &[Term]) -> (usize, bool) {
    program.iter().map(needs).fold((0, true), together)
}

fn below_binder((binders, closed): (usize, bool)) -> (usize, bool) {
    (binders.saturating_sub(1), closed)
}

fn together(one: (usize, bool), other: (usize, bool)) -> (usize, bool) {
    (one.0.max(other.0), one.1 && other.1)
}

fn is_coherent_thread(thread: &Term) -> bool {
    let mut closures: Vec<(u16, &Program)> = Vec::new();
    each_term(thread, 0, &mut |t, _| {
        if let Term::Allocated(location, body) = t {
            closures.push((*location, body));
        }
    });
    let (_, closed) = needs(thread);
    let equal = closures.iter().enumerate().all(|(i, (location, body))| {
        let earlier = &closures[..i];
        earlier.iter().all(|(l, b)| l != location || b == body)
    });
    closed && equal
}
