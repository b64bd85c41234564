//! Terms and programs as trees. Binders and unknowns may have the names that a person gave them; a name is for the eye and means nothing.

use std::collections::BTreeMap;
use std::sync::Arc;

use mespindro::kind;

/// A program: the list of its alternatives.
pub type Program = Vec<Term>;

/// What a person calls a variable; none where nobody has named it.
pub type Name = Option<Arc<str>>;

/// A term of the calculus.
#[derive(Clone, Debug, PartialEq, Eq)]
pub enum Term {
    /// By the binders between it and its own.
    Bound(u16),
    /// An unknown, by its number.
    Free(u16, Name),
    /// By its number.
    Constructor(u16),
    /// A rule.
    Abstraction(Name, Program),
    /// A rule at its location.
    Allocated(u16, Name, Program),
    /// Of a function to an argument.
    Application(Box<Term>, Box<Term>),
    /// A term with a new unknown.
    Fresh(Name, Box<Term>),
    /// A condition and a result.
    Guard(Box<Term>, Box<Term>),
    /// Two terms to be made equal.
    Unification(Box<Term>, Box<Term>),
}

use Term::*;

impl Term {
    /// The parts of a term of two parts.
    pub fn parts(&self) -> Option<(&Term, &Term)> {
        match self {
            Application(l, r) | Guard(l, r) | Unification(l, r) => Some((l, r)),
            _ => None,
        }
    }

    /// Whether the two are one term but for names.
    pub fn same(&self, other: &Term) -> bool {
        match (self, other) {
            (Bound(i), Bound(j)) | (Free(i, _), Free(j, _)) | (Constructor(i), Constructor(j)) => {
                i == j
            }
            (Abstraction(_, p), Abstraction(_, q)) => same(p, q),
            (Allocated(l, _, p), Allocated(m, _, q)) => l == m && same(p, q),
            (Fresh(_, t), Fresh(_, s)) => t.same(s),
            (Application(l, r), Application(m, s))
            | (Guard(l, r), Guard(m, s))
            | (Unification(l, r), Unification(m, s)) => l.same(m) && r.same(s),
            _ => false,
        }
    }

    /// How many nodes it has in a table.
    pub fn nodes(&self) -> usize {
        let mut nodes = 0;
        each_term(self, 0, &mut |part, _| {
            nodes += match part {
                // the body's alternatives and its end
                Abstraction(_, body) | Allocated(_, _, body) => 2 + body.len(),
                _ => 1,
            }
        });
        nodes
    }

    /// A term of the same two-part kind, with other parts; itself where it has no two parts.
    pub fn with_parts(&self, left: Term, right: Term) -> Term {
        let (left, right) = (Box::new(left), Box::new(right));
        match self {
            Application(..) => Application(left, right),
            Guard(..) => Guard(left, right),
            Unification(..) => Unification(left, right),
            other => other.clone(),
        }
    }
}

/// How many nodes a program has in a table.
pub fn nodes(program: &[Term]) -> usize {
    1 + program.iter().map(|term| 1 + term.nodes()).sum::<usize>()
}

/// Whether two programs are one but for names.
pub fn same(program: &[Term], other: &[Term]) -> bool {
    let mut pairs = program.iter().zip(other);
    program.len() == other.len() && pairs.all(|(t, s)| t.same(s))
}

/// The alternatives in a part of the library's own table, without the end of their list.
pub(crate) fn of_nodes(nodes: &[u16]) -> Program {
    take_alternatives(&mut &*nodes)
}

/// Takes a term off the front.
fn take(rest: &mut &[u16]) -> Term {
    let [of, number, behind @ ..] = *rest else {
        unreachable!("a table of the library's holds whole programs");
    };
    *rest = behind;
    match *of {
        kind::BOUND => Bound(*number),
        kind::FREE => Free(*number, None),
        kind::CONSTRUCTOR => Constructor(*number),
        kind::ABSTRACTION => Abstraction(None, take_program(rest)),
        kind::ALLOCATED => Allocated(*number, None, take_program(rest)),
        kind::FRESH => Fresh(None, Box::new(take(rest))),
        of => {
            let left = Box::new(take(rest));
            let right = Box::new(take(rest));
            match of {
                kind::APPLICATION => Application(left, right),
                kind::GUARD => Guard(left, right),
                _ => Unification(left, right),
            }
        }
    }
}

fn take_alternatives(rest: &mut &[u16]) -> Program {
    let mut program = Vec::new();
    while let [kind::ALTERNATIVE, _, term @ ..] = *rest {
        *rest = term;
        program.push(take(rest));
    }
    program
}

/// Takes a list of alternatives and its end off the front.
fn take_program(rest: &mut &[u16]) -> Program {
    let program = take_alternatives(rest);
    *rest = &rest[2..];
    program
}

/// Calls `see` with each term inside a term, itself included, in preorder, and the binders between the two.
pub fn each_term<'t>(term: &'t Term, binders: usize, see: &mut impl FnMut(&'t Term, usize)) {
    see(term, binders);
    match term {
        Bound(_) | Free(..) | Constructor(_) => {}
        Abstraction(_, body) | Allocated(_, _, body) => {
            for alternative in body {
                each_term(alternative, binders + 1, see);
            }
        }
        Fresh(_, part) => each_term(part, binders + 1, see),
        Application(l, r) | Guard(l, r) | Unification(l, r) => {
            each_term(l, binders, see);
            each_term(r, binders, see);
        }
    }
}

/// The free variables anywhere in a term, bodies included, with their names.
pub fn free_variables(term: &Term) -> BTreeMap<u16, Name> {
    let mut found = BTreeMap::new();
    each_term(term, 0, &mut |part, _| {
        if let Free(number, name) = part {
            found.insert(*number, name.clone());
        }
    });
    found
}

/// The allocated abstractions anywhere in a term, bodies included, by their locations.
pub(crate) fn closures(term: &Term) -> BTreeMap<u16, &Term> {
    let mut found = BTreeMap::new();
    each_term(term, 0, &mut |part, _| {
        if let Allocated(location, ..) = part {
            found.insert(*location, part);
        }
    });
    found
}

/// The locations anywhere in a term, bodies included, with the names of what their rules ask for.
pub(crate) fn closure_names(term: &Term) -> BTreeMap<u16, Name> {
    let names = closures(term)
        .into_iter()
        .map(|(location, closure)| match closure {
            Allocated(_, name, _) => (location, name.clone()),
            _ => (location, None),
        });
    names.collect()
}
