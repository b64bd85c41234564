//! Whether every thread is coherent, document 01's condition on allocated abstractions; and where it is not, which one is to blame.

use std::collections::BTreeMap;

use super::Term;
use crate::term::{each_term, same};

/// The first allocated abstraction that breaks it, counted in the text's order, and how; none where every thread is coherent.
pub fn fault(program: &[Term]) -> Option<(usize, String)> {
    let mut before = 0;
    for thread in program {
        let closures = closures(thread);
        if let Some((place, message)) = fault_of_thread(&closures) {
            return Some((before + place, message));
        }
        before += closures.len();
    }
    None
}

/// The locations and bodies of a thread's allocated abstractions, in order.
fn closures(thread: &Term) -> Vec<(u16, &[Term])> {
    let mut found = Vec::new();
    each_term(thread, 0, &mut |part, _| {
        if let Term::Allocated(location, _, body) = part {
            found.push((*location, body.as_slice()));
        }
    });
    found
}

fn fault_of_thread(closures: &[(u16, &[Term])]) -> Option<(usize, String)> {
    let mut bodies = BTreeMap::new();
    for (place, (location, body)) in closures.iter().enumerate() {
        if reaches_outside(body) {
            let message = format!("(L {location} …) uses a variable that is bound outside it");
            return Some((place, message));
        }
        if !same(bodies.entry(location).or_insert(*body), body) {
            let message = format!("location {location} has two different bodies in one thread");
            return Some((place, message));
        }
    }
    None
}

/// Whether a body has a variable beyond the binder of its own abstraction.
fn reaches_outside(body: &[Term]) -> bool {
    let mut reaches = false;
    for alternative in body {
        each_term(alternative, 1, &mut |part, binders| {
            if let Term::Bound(index) = part {
                reaches |= usize::from(*index) >= binders;
            }
        });
    }
    reaches
}
