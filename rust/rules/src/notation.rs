//! A readable form of programs, and the canonical text: one from the other.
//!
//! The readable form is document 01's short notation with free layout:
//!
//! ```text
//! file        = { declaration } program
//! declaration = "=" NAME cN                    ; NAME is another word for cN from here on
//! program     = "(" { term } ")"               ; its alternatives, in order
//! term        = xN | bN | cN                   ; free variable, bound variable, constructor
//!             | NAME                           ; a declared constructor, or a variable that a binder around it names
//!             | "(" "l" [ NAME ] program ")"   ; abstraction
//!             | "(" "L" N [ NAME ] program ")" ; abstraction allocated at location N
//!             | "(" "n" [ NAME ] term ")"      ; fresh variable
//!             | "(" "u" term term ")"          ; unification
//!             | "(" "a" term term { term } ")" ; application: (a F A B) is (a (a F A) B)
//!             | "(" "g" term term { term } ")" ; guard: (g A B T) is (g A (g B T))
//! ```
//!
//! Blanks and newlines may stand between any two words or brackets; `;` begins a comment that goes to the line's end. A NAME is a letter and
//! then letters, digits and `-`; it is no tag (`l`, `L`, `n`, `u`, `a`, `g`), no `xN`, `bN` or `cN`, and says one thing only: a name in use is
//! not given again, and a constructor has one name.
//!
//! What is read here, in both directions, is what the library reads: numbers are in their ranges, every bound variable has its binder, the
//! program has at most 16,384 nodes, and every thread is coherent.

use std::collections::BTreeMap;
use std::fmt;

use crate::term::{each_term, Program, Term};

mod canonical;
mod coherent;
mod layout;
mod line;
mod piece;
mod readable;

pub use line::line;
pub use piece::{rule, unknown};

/// What is wrong with an input, and where: both counted from 1. A canonical text is one line, its column a byte.
#[derive(Clone, Debug, PartialEq, Eq)]
pub struct Error {
    /// The line.
    pub line: usize,
    /// The character of the line.
    pub column: usize,
    /// What is wrong there.
    pub message: String,
}

impl fmt::Display for Error {
    fn fmt(&self, out: &mut fmt::Formatter) -> fmt::Result {
        write!(out, "{}:{}: {}", self.line, self.column, self.message)
    }
}

impl std::error::Error for Error {}

/// The names of constructors, one to one.
#[derive(Clone, Debug, Default, PartialEq, Eq)]
pub struct Names {
    numbers: BTreeMap<String, u16>,
    names: BTreeMap<u16, String>,
}

impl Names {
    /// The number of a name.
    pub fn number(&self, name: &str) -> Option<u16> {
        self.numbers.get(name).copied()
    }

    /// The name of a number.
    pub fn name(&self, number: u16) -> Option<&str> {
        self.names.get(&number).map(String::as_str)
    }

    /// With `ok` for constructor 0, as people call it, where neither a constructor nor a variable of the program is called so already.
    pub fn with_ok(mut self, program: &[Term]) -> Names {
        let free = self.number("ok").is_none() && self.name(0).is_none();
        if free && !names_a_variable(program, "ok") {
            self.declare("ok", 0);
        }
        self
    }

    fn declare(&mut self, name: &str, number: u16) {
        self.numbers.insert(name.to_string(), number);
        self.names.insert(number, name.to_string());
    }
}

/// Whether a binder of the program has a name.
fn names_a_variable(program: &[Term], name: &str) -> bool {
    let mut found = false;
    for term in program {
        each_term(term, 0, &mut |part, _| match part {
            Term::Abstraction(given, _) | Term::Allocated(_, given, _) | Term::Fresh(given, _) => {
                found |= given.as_deref() == Some(name)
            }
            _ => {}
        });
    }
    found
}

/// Readable form to canonical text.
pub fn to_text(readable: &str) -> Result<Vec<u8>, Error> {
    let (_, program) = read(readable)?;
    Ok(canonical::write(&program))
}

/// The names that a readable form declares at its head, and its program.
pub fn read(readable: &str) -> Result<(Names, Program), Error> {
    let (names, program, closures) = readable::read(readable)?;
    match coherent::fault(&program) {
        None => Ok((names, program)),
        Some((closure, message)) => Err(closures[closure].error(message)),
    }
}

/// The names that a file declares, with or without a program behind them.
pub fn names(readable: &str) -> Result<Names, Error> {
    readable::names(readable)
}

/// The program of a readable form whose threads need not be coherent, to try what refuses them.
pub fn read_incoherent(readable: &str) -> Result<Program, Error> {
    readable::read(readable).map(|(_, program, _)| program)
}

/// A file's bytes as the characters of a readable form; some editors put a mark before the first one.
pub fn utf8(content: &[u8]) -> Result<&str, Error> {
    let text = std::str::from_utf8(content);
    let text = text.map(|text| text.strip_prefix('\u{feff}').unwrap_or(text));
    text.map_err(|error| {
        let before = String::from_utf8_lossy(&content[..error.valid_up_to()]);
        let last = before.rsplit('\n').next().unwrap_or("");
        Error {
            line: before.matches('\n').count() + 1,
            column: last.chars().count() + 1,
            message: "a character of UTF-8 must stand here".to_string(),
        }
    })
}

/// Canonical text to readable form, with numbers alone.
pub fn from_text(text: &[u8]) -> Result<String, Error> {
    from_text_named(text, &Names::default())
}

/// Canonical text to readable form, headed by the declarations of the names that it uses.
pub fn from_text_named(text: &[u8], names: &Names) -> Result<String, Error> {
    let program = canonical::read(text)?;
    Ok(layout::file(&program, names))
}

/// The program of a canonical text.
pub fn program(text: &[u8]) -> Result<Program, Error> {
    canonical::read(text)
}

/// The canonical text of a program.
pub fn text(program: &[Term]) -> Vec<u8> {
    canonical::write(program)
}

/// One term in readable form, its lines indented by so many blanks.
pub fn show(term: &Term, names: &Names, indent: usize) -> String {
    layout::term(term, names, indent)
}

/// A number of a plain decimal (no sign, no leading zero) up to `most`.
fn plain_decimal(digits: &[u8], most: u16) -> Option<u16> {
    let plain = !digits.is_empty()
        && digits.iter().all(u8::is_ascii_digit)
        && (digits.len() == 1 || digits[0] != b'0');
    if !plain || digits.len() > 5 {
        return None;
    }
    let number = digits
        .iter()
        .fold(0u32, |n, d| n * 10 + u32::from(d - b'0'));
    u16::try_from(number).ok().filter(|n| *n <= most)
}

/// The greatest constructor, and the greatest free variable, location and bound index.
const MOST_CONSTRUCTOR: u16 = 65_535;
const MOST_OTHER: u16 = (mespindro::NODES - 1) as u16;

/// Counts the nodes of a program while it is read.
#[derive(Default)]
struct Nodes(usize);

impl Nodes {
    /// False where the program has become too large.
    fn more(&mut self, nodes: usize) -> bool {
        self.0 += nodes;
        self.0 <= mespindro::NODES
    }
}

fn too_many() -> String {
    format!("the program has more than {} nodes", mespindro::NODES)
}

#[cfg(test)]
mod tests {
    use super::*;

    #[test]
    fn plain_decimals() {
        assert_eq!(plain_decimal(b"0", 2047), Some(0));
        assert_eq!(plain_decimal(b"2047", 2047), Some(2047));
        assert_eq!(plain_decimal(b"65535", 65_535), Some(65_535));
        for bad in [
            "",
            "00",
            "01",
            "+1",
            "2048",
            "65536",
            "18446744073709551617",
        ] {
            assert_eq!(plain_decimal(bad.as_bytes(), 2047), None, "{bad}");
        }
    }
}
