//! A term on one line that is no longer than a screen is wide: what does not fit is left out, `…` in its place, furthest from the place that
//! a step works on first. That place stands in square brackets.

use super::piece::{piece, Focus, Piece, Shape};
use super::{Names, Term};
use crate::redex::Side;

/// What stands for something that is left out.
const LEFT_OUT: &str = "…";

/// How much is shown: brackets so deep beside the place, one less for each bracket further out; so deep in the place itself; and so many parts
/// of a bracket on either side.
#[derive(Clone, Copy)]
struct Detail {
    beside: usize,
    place: usize,
    parts: usize,
}

const ALL: usize = usize::MAX;

/// From everything to nearly nothing.
const DETAILS: [Detail; 16] = [
    detail(ALL, ALL, ALL),
    detail(6, 7, ALL),
    detail(5, 6, ALL),
    detail(4, 5, ALL),
    detail(4, 5, 3),
    detail(3, 4, ALL),
    detail(3, 4, 3),
    detail(3, 4, 2),
    detail(3, 4, 1),
    detail(2, 3, ALL),
    detail(2, 3, 3),
    detail(2, 3, 1),
    detail(1, 3, 2),
    detail(1, 2, 1),
    detail(0, 2, 1),
    detail(0, 1, 1),
];

const fn detail(beside: usize, place: usize, parts: usize) -> Detail {
    Detail {
        beside,
        place,
        parts,
    }
}

/// The term on a line of at most `width` characters, of which `way` leads to the place that a step works on, if there is one.
pub fn line(term: &Term, names: &Names, way: Option<&[Side]>, width: usize) -> String {
    let whole = piece(term, names, way);
    let whole_line = DETAILS.iter().find_map(|d| written(&whole, *d, width));
    whole_line.unwrap_or_else(|| around_place(&whole, width))
}

/// The place with as many of the brackets around it as fit, and dots on both sides.
fn around_place(whole: &Piece, width: usize) -> String {
    let room = width.saturating_sub(2 * (LEFT_OUT.chars().count() + 1));
    let mut shown = None;
    for around in chain(whole).into_iter().rev() {
        let details = DETAILS[DETAILS.len() - 2..].iter();
        let mut fitting = details.filter_map(|d| written(around, *d, room));
        match fitting.next() {
            Some(line) => shown = Some(line),
            None => break,
        }
    }
    match shown {
        Some(line) => format!("{LEFT_OUT} {line} {LEFT_OUT}"),
        None if whole.focus == Focus::Beside => LEFT_OUT.to_string(),
        None => format!("[{LEFT_OUT}]"),
    }
}

/// The brackets around the place, the outermost first, and the place itself.
fn chain(whole: &Piece) -> Vec<&Piece> {
    let mut chain = vec![whole];
    while let Some(inner) = inner(chain[chain.len() - 1]) {
        chain.push(inner);
    }
    chain
}

/// The part that the place is, or is in.
fn inner(piece: &Piece) -> Option<&Piece> {
    match (&piece.shape, piece.focus) {
        (Shape::List(_, parts), Focus::Around) => parts.iter().find(|p| p.focus != Focus::Beside),
        _ => None,
    }
}

fn written(piece: &Piece, detail: Detail, width: usize) -> Option<String> {
    let mut line = Line {
        text: String::new(),
        room: width,
        detail,
    };
    line.put(piece, chain(piece).len() - 1, detail.beside)?;
    Some(line.text)
}

/// A line so far, and how many characters it still takes.
struct Line {
    text: String,
    room: usize,
    detail: Detail,
}

impl Line {
    fn add(&mut self, word: &str) -> Option<()> {
        self.room = self.room.checked_sub(word.chars().count())?;
        self.text += word;
        Some(())
    }

    /// Puts a piece; `away` counts the brackets from it to the place, if that is inside it. None where the line is full.
    fn put(&mut self, piece: &Piece, away: usize, depth: usize) -> Option<()> {
        match piece.focus {
            Focus::Beside => self.beside(piece, depth),
            Focus::Around => self.around(piece, away),
            Focus::There => {
                self.add("[")?;
                self.beside(piece, self.detail.place)?;
                self.add("]")
            }
        }
    }

    fn beside(&mut self, piece: &Piece, depth: usize) -> Option<()> {
        let (head, parts) = match &piece.shape {
            Shape::Word(word) => return self.add(word),
            Shape::List(head, parts) => (head, parts),
        };
        if is_left_out(piece, depth) {
            return self.add(LEFT_OUT);
        }
        let shown = self.detail.parts.saturating_mul(2);
        let kept = |index: usize| index < shown;
        self.bracket(head, parts, &kept, 0, depth.saturating_sub(1))
    }

    fn around(&mut self, piece: &Piece, away: usize) -> Option<()> {
        let Shape::List(head, parts) = &piece.shape else {
            return None;
        };
        let place = parts.iter().position(|p| p.focus != Focus::Beside)?;
        let near = self.detail.parts;
        let kept = |index: usize| index.abs_diff(place) <= near;
        let depth = self.detail.beside.saturating_sub(away - 1);
        self.bracket(head, parts, &kept, away - 1, depth)
    }

    /// A bracket with the parts that are kept; dots for each run of the others.
    fn bracket(
        &mut self,
        head: &str,
        parts: &[Piece],
        kept: &dyn Fn(usize) -> bool,
        away: usize,
        depth: usize,
    ) -> Option<()> {
        self.add("(")?;
        self.add(head)?;
        let mut first = head.is_empty();
        let mut left_out = false;
        for (index, part) in parts.iter().enumerate() {
            let dots = !kept(index) || is_left_out(part, depth);
            if dots && left_out {
                continue;
            }
            self.add(if first { "" } else { " " })?;
            match dots {
                true => self.add(LEFT_OUT)?,
                false => self.put(part, away, depth)?,
            }
            (first, left_out) = (false, dots);
        }
        self.add(")")
    }
}

fn is_left_out(piece: &Piece, depth: usize) -> bool {
    let list = matches!(&piece.shape, Shape::List(_, parts) if !parts.is_empty());
    piece.focus == Focus::Beside && list && depth == 0
}
