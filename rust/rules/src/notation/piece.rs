//! What is laid out: words and brackets, with the place that a step works on, if there is one.

use super::{Names, Term};
use crate::redex::Side;
use crate::term::Name;

/// A word, or a bracket with a head (a tag and what belongs to it, or nothing) and parts.
pub enum Shape {
    Word(String),
    List(String, Vec<Piece>),
}

/// Where a piece stands, seen from the place that a step works on.
#[derive(Clone, Copy, PartialEq, Eq)]
pub enum Focus {
    Beside,
    Around,
    There,
}

pub struct Piece {
    pub shape: Shape,
    pub focus: Focus,
}

/// A term's piece; `way` leads to the place that a step works on.
pub fn piece(term: &Term, names: &Names, way: Option<&[Side]>) -> Piece {
    let mut maker = Maker {
        names,
        binders: Vec::new(),
    };
    maker.term(term, way)
}

/// The piece of a list of terms.
pub fn list(program: &[Term], names: &Names) -> Piece {
    let mut maker = Maker {
        names,
        binders: Vec::new(),
    };
    maker.list(program)
}

/// A constructor's name, or its number.
pub fn constructor(number: u16, names: &Names) -> String {
    match names.name(number) {
        Some(name) => name.to_string(),
        None => format!("c{number}"),
    }
}

/// An unknown's name, or its number.
pub fn unknown(number: u16, name: &Name) -> String {
    match name {
        Some(name) => format!("?{name}"),
        None => format!("x{number}"),
    }
}

/// A rule that is spoken of: its location, and what it asks for.
pub fn rule(location: u16, name: &Name) -> String {
    match name {
        Some(name) => format!("the rule L{location} on {name}"),
        None => format!("the rule L{location}"),
    }
}

struct Maker<'a> {
    names: &'a Names,
    /// The names of the binders around the place, the innermost last.
    binders: Vec<&'a Name>,
}

impl<'a> Maker<'a> {
    fn list(&mut self, program: &'a [Term]) -> Piece {
        let parts = program.iter().map(|t| self.term(t, None)).collect();
        bracket("", parts)
    }

    fn below(&mut self, name: &'a Name, make: impl FnOnce(&mut Self) -> Piece) -> Piece {
        self.binders.push(name);
        let made = make(self);
        self.binders.pop();
        made
    }

    fn term(&mut self, term: &'a Term, way: Option<&[Side]>) -> Piece {
        let made = match term {
            Term::Bound(index) => word(self.bound(*index)),
            Term::Free(number, name) => word(unknown(*number, name)),
            Term::Constructor(number) => word(constructor(*number, self.names)),
            Term::Abstraction(name, body) => {
                let body = self.below(name, |maker| maker.list(body));
                bracket(&headed("l", name), vec![body])
            }
            Term::Allocated(location, name, body) => {
                let body = self.below(name, |maker| maker.list(body));
                bracket(&headed(&format!("L {location}"), name), vec![body])
            }
            Term::Fresh(name, part) => {
                let part = self.below(name, |maker| maker.term(part, None));
                bracket(&headed("n", name), vec![part])
            }
            Term::Unification(left, right) => {
                let left = self.term(left, after(way, Side::Left));
                let right = self.term(right, after(way, Side::Right));
                bracket("u", vec![left, right])
            }
            Term::Application(..) => bracket("a", self.application(term, way)),
            Term::Guard(..) => bracket("g", self.guard(term, way)),
        };
        Piece {
            shape: made.shape,
            focus: focus(way),
        }
    }

    /// A variable's name, where its binder has one.
    fn bound(&self, index: u16) -> String {
        let binder = self.binders.iter().rev().nth(usize::from(index));
        match binder {
            Some(Some(name)) => name.to_string(),
            _ => format!("b{index}"),
        }
    }

    /// The function and the arguments of (a F A B …). An application that a step works on stands in a bracket of its own.
    fn application(&mut self, term: &'a Term, way: Option<&[Side]>) -> Vec<Piece> {
        let (mut rest, mut way) = (term, way);
        let mut parts = Vec::new();
        while let Term::Application(function, argument) = rest {
            if !parts.is_empty() && focus(way) == Focus::There {
                break;
            }
            parts.push(self.term(argument, after(way, Side::Right)));
            (rest, way) = (function, after(way, Side::Left));
        }
        parts.push(self.term(rest, way));
        parts.reverse();
        parts
    }

    /// The conditions and the result of (g A B … T), in the same way.
    fn guard(&mut self, term: &'a Term, way: Option<&[Side]>) -> Vec<Piece> {
        let (mut rest, mut way) = (term, way);
        let mut parts = Vec::new();
        while let Term::Guard(condition, result) = rest {
            if !parts.is_empty() && focus(way) == Focus::There {
                break;
            }
            parts.push(self.term(condition, after(way, Side::Left)));
            (rest, way) = (result, after(way, Side::Right));
        }
        parts.push(self.term(rest, way));
        parts
    }
}

/// The rest of a way, below one side.
fn after(way: Option<&[Side]>, side: Side) -> Option<&[Side]> {
    let (first, rest) = way?.split_first()?;
    (*first == side).then_some(rest)
}

fn focus(way: Option<&[Side]>) -> Focus {
    match way {
        None => Focus::Beside,
        Some([]) => Focus::There,
        Some(_) => Focus::Around,
    }
}

fn word(word: String) -> Piece {
    Piece {
        shape: Shape::Word(word),
        focus: Focus::Beside,
    }
}

fn bracket(head: &str, parts: Vec<Piece>) -> Piece {
    Piece {
        shape: Shape::List(head.to_string(), parts),
        focus: Focus::Beside,
    }
}

fn headed(tag: &str, name: &Name) -> String {
    match name {
        Some(name) => format!("{tag} {name}"),
        None => tag.to_string(),
    }
}
