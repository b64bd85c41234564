//! Writing the readable form: a term on one line where it fits, else its parts on lines of their own, two blanks further in.

use std::collections::BTreeSet;

use super::piece::{constructor, list, piece, Piece, Shape};
use super::{Names, Term};
use crate::term::each_term;

/// The longest line that a break can avoid.
const WIDTH: usize = 100;

pub fn file(program: &[Term], names: &Names) -> String {
    let mut out = String::new();
    for number in used(program, names) {
        out += &format!("= {} c{number}\n", constructor(number, names));
    }
    out + &lines(&list(program, names), 0) + "\n"
}

pub fn term(term: &Term, names: &Names, indent: usize) -> String {
    lines(&piece(term, names, None), indent)
}

fn lines(piece: &Piece, indent: usize) -> String {
    let mut lines = Lines {
        text: " ".repeat(indent),
        column: indent,
    };
    lines.lay(piece);
    lines.text
}

/// The length on one line, or None where it is over `most`: no longer looked at than that.
fn flat_length(piece: &Piece, most: usize) -> Option<usize> {
    let (mut length, parts) = match &piece.shape {
        Shape::Word(word) => return Some(word.len()).filter(|n| *n <= most),
        Shape::List(head, parts) => (head.len() + 2, parts),
    };
    for (index, part) in parts.iter().enumerate() {
        let gap = usize::from(index > 0 || length > 2);
        length += gap + flat_length(part, most.checked_sub(length + gap)?)?;
    }
    Some(length).filter(|n| *n <= most)
}

/// The lines so far, and where the last one ends.
struct Lines {
    text: String,
    column: usize,
}

impl Lines {
    fn add(&mut self, word: &str) {
        self.text += word;
        self.column += word.len();
    }

    fn new_line(&mut self, indent: usize) {
        self.text.push('\n');
        self.text.extend(std::iter::repeat(' ').take(indent));
        self.column = indent;
    }

    fn room(&self) -> usize {
        WIDTH.saturating_sub(self.column)
    }

    fn lay(&mut self, piece: &Piece) {
        let (head, parts) = match &piece.shape {
            Shape::Word(word) => return self.add(word),
            Shape::List(head, parts) => (head, parts),
        };
        let indent = self.column + 2;
        let fits = flat_length(piece, self.room()).is_some();
        self.add("(");
        self.add(head);
        for (index, part) in parts.iter().enumerate() {
            // a tag and its first part stay together; so do words in a row, as long as the line has room
            let stays = fits || index == 0 || self.takes_words(&parts[index - 1], part);
            match (stays, index == 0 && head.is_empty()) {
                (true, true) => {}
                (true, false) => self.add(" "),
                (false, _) => self.new_line(if head.is_empty() { indent - 1 } else { indent }),
            }
            self.lay(part);
        }
        self.add(")");
    }

    fn takes_words(&self, before: &Piece, piece: &Piece) -> bool {
        match (&before.shape, &piece.shape) {
            (Shape::Word(_), Shape::Word(word)) => word.len() < self.room(),
            _ => false,
        }
    }
}

/// The named constructors that a program uses, ascending.
fn used(program: &[Term], names: &Names) -> BTreeSet<u16> {
    let mut found = BTreeSet::new();
    for term in program {
        each_term(term, 0, &mut |part, _| match part {
            Term::Constructor(c) if names.name(*c).is_some() => drop(found.insert(*c)),
            _ => {}
        });
    }
    found
}
