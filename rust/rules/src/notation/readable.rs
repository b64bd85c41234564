//! Reading the readable form.

use std::sync::Arc;

use super::{
    plain_decimal, too_many, Error, Names, Nodes, Program, Term, MOST_CONSTRUCTOR, MOST_OTHER,
};
use crate::term::Name;

const TAGS: [&str; 6] = ["l", "L", "n", "u", "a", "g"];

/// Of a word that is no name, and of a tag in a term's place: what was most likely meant.
const NAME: &str =
    "a letter and then letters, digits and '-', no tag (l, L, n, u, a, g), no xN, bN or cN";
const TAG: &str =
    "is a tag and stands behind a bracket of its own; a list of alternatives has brackets too";

/// The declared names, the program, and the tag of each allocated abstraction.
pub fn read(readable: &str) -> Result<(Names, Program, Vec<Token<'_>>), Error> {
    let mut reader = Reader::new(readable);
    reader.declarations()?;
    let program = reader.program()?;
    if !reader.next_is("") {
        return Err(reader.error("nothing may stand behind the program"));
    }
    Ok((reader.names, program, reader.closures))
}

/// The declared names of a form that may have no program.
pub fn names(readable: &str) -> Result<Names, Error> {
    let mut reader = Reader::new(readable);
    reader.declarations()?;
    match reader.next_is("") {
        true => Ok(reader.names),
        false => read(readable).map(|(names, _, _)| names),
    }
}

/// A word or a bracket and where it begins; the empty word stands at the end of the input.
#[derive(Clone, Copy)]
pub struct Token<'a> {
    word: &'a str,
    line: usize,
    column: usize,
}

impl Token<'_> {
    pub fn error(self, message: impl Into<String>) -> Error {
        let message: String = message.into();
        let message = match self.word {
            "" => format!("{message}, and the input ends"),
            _ => message,
        };
        Error {
            line: self.line,
            column: self.column,
            message,
        }
    }
}

/// The words that have not been taken yet, and where they begin.
struct Words<'a> {
    rest: &'a str,
    line: usize,
    column: usize,
}

impl<'a> Words<'a> {
    /// Takes the next word or bracket.
    fn next(&mut self) -> Token<'a> {
        while self.skip() {}
        let (line, column) = (self.line, self.column);
        let ends = |c: char| c.is_whitespace() || matches!(c, '(' | ')' | ';');
        let length = match self.rest.find(ends) {
            Some(0) => 1,
            Some(length) => length,
            None => self.rest.len(),
        };
        let word = self.pass(length);
        Token { word, line, column }
    }

    /// Passes a blank, a line's end or a comment; false where there is none.
    fn skip(&mut self) -> bool {
        let bytes = match self.rest.chars().next() {
            Some('\n') => {
                self.rest = &self.rest[1..];
                (self.line, self.column) = (self.line + 1, 1);
                return true;
            }
            Some(';') => self.rest.find('\n').unwrap_or(self.rest.len()),
            Some(blank) if blank.is_whitespace() => blank.len_utf8(),
            _ => return false,
        };
        self.pass(bytes);
        true
    }

    /// Passes so many bytes of the line.
    fn pass(&mut self, bytes: usize) -> &'a str {
        let (passed, rest) = self.rest.split_at(bytes);
        self.rest = rest;
        self.column += passed.chars().count();
        passed
    }
}

struct Reader<'a> {
    words: Words<'a>,
    /// The next word, and the one behind it.
    token: Token<'a>,
    behind: Token<'a>,
    names: Names,
    /// The binders around the place, the innermost last, with their names.
    binders: Vec<Option<&'a str>>,
    nodes: Nodes,
    /// The tag of each allocated abstraction, in order.
    closures: Vec<Token<'a>>,
}

impl<'a> Reader<'a> {
    fn new(readable: &'a str) -> Reader<'a> {
        let mut words = Words {
            rest: readable,
            line: 1,
            column: 1,
        };
        Reader {
            token: words.next(),
            behind: words.next(),
            words,
            names: Names::default(),
            binders: Vec::new(),
            nodes: Nodes::default(),
            closures: Vec::new(),
        }
    }

    fn take(&mut self) -> Token<'a> {
        let token = self.token;
        self.token = self.behind;
        self.behind = self.words.next();
        token
    }

    fn next_is(&self, word: &str) -> bool {
        self.token.word == word
    }

    fn error(&self, message: impl Into<String>) -> Error {
        self.token.error(message)
    }

    fn expect(&mut self, word: &str, what: &str) -> Result<(), Error> {
        if !self.next_is(word) {
            return Err(self.error(format!("{what} must stand here")));
        }
        self.take();
        Ok(())
    }

    fn count(&mut self, nodes: usize) -> Result<(), Error> {
        if self.nodes.more(nodes) {
            Ok(())
        } else {
            Err(self.error(too_many()))
        }
    }

    fn declarations(&mut self) -> Result<(), Error> {
        while self.next_is("=") {
            self.declaration()?;
        }
        Ok(())
    }

    fn declaration(&mut self) -> Result<(), Error> {
        self.take();
        let name = self.new_name()?;
        let token = self.take();
        let number = leaf(token)?.and_then(|term| match term {
            Term::Constructor(c) => Some(c),
            _ => None,
        });
        let Some(number) = number else {
            return Err(token.error("a constructor cN must stand here"));
        };
        if let Some(other) = self.names.name(number) {
            let message = format!("c{number} is already called {other}");
            return Err(token.error(message));
        }
        self.names.declare(name, number);
        Ok(())
    }

    /// A name that is not in use yet.
    fn new_name(&mut self) -> Result<&'a str, Error> {
        let word = self.token.word;
        if matches!(word, "" | "(" | ")") {
            return Err(self.error("a name must stand here"));
        }
        if !is_name(word) {
            return Err(self.error(format!("{word} cannot be a name: {NAME}")));
        }
        if self.names.number(word).is_some() || self.binders.contains(&Some(word)) {
            return Err(self.error(format!("{word} is already a name here")));
        }
        self.take();
        Ok(word)
    }

    fn program(&mut self) -> Result<Program, Error> {
        self.expect("(", "a program's '('")?;
        self.count(1)?;
        let mut alternatives = Vec::new();
        while !self.next_is(")") {
            self.count(1)?;
            alternatives.push(self.term()?);
        }
        self.take();
        Ok(alternatives)
    }

    fn term(&mut self) -> Result<Term, Error> {
        self.count(1)?;
        let token = self.take();
        if token.word != "(" {
            return self.word(token);
        }
        let tag = self.take();
        let term = match tag.word {
            "l" => {
                let (name, body) = self.body()?;
                Term::Abstraction(name, body)
            }
            "L" => {
                self.closures.push(tag);
                let location = self.location()?;
                let (name, body) = self.body()?;
                Term::Allocated(location, name, body)
            }
            "n" => self.fresh()?,
            "u" => Term::Unification(Box::new(self.term()?), Box::new(self.term()?)),
            "a" => self.application()?,
            "g" => self.guard()?,
            _ => return Err(tag.error("a tag (l, L, n, u, a or g) must stand here")),
        };
        self.expect(")", "')'")?;
        Ok(term)
    }

    fn word(&self, token: Token<'a>) -> Result<Term, Error> {
        let word = token.word;
        if let Some(term) = leaf(token)? {
            return match term {
                Term::Bound(index) if usize::from(index) >= self.binders.len() => {
                    Err(token.error(format!("{word} has no binder")))
                }
                other => Ok(other),
            };
        }
        if let Some(index) = self.binders.iter().rev().position(|b| *b == Some(word)) {
            return Ok(Term::Bound(index as u16));
        }
        match self.names.number(word) {
            Some(number) => Ok(Term::Constructor(number)),
            None if is_name(word) => Err(token.error(format!("{word} is not declared"))),
            None if TAGS.contains(&word) => Err(token.error(format!("{word} {TAG}"))),
            None if word.is_empty() => Err(token.error("a term or ')' must stand here")),
            None => Err(token.error("a term must stand here")),
        }
    }

    fn location(&mut self) -> Result<u16, Error> {
        let token = self.take();
        plain_decimal(token.word.as_bytes(), MOST_OTHER).ok_or_else(|| {
            token.error(format!("a location from 0 to {MOST_OTHER} must stand here"))
        })
    }

    /// An abstraction's body, after its variable's name if it has one.
    fn body(&mut self) -> Result<(Name, Program), Error> {
        let name = match self.token.word {
            "(" | ")" | "" => None,
            _ => Some(self.new_name()?),
        };
        self.binders.push(name);
        let program = self.program();
        self.binders.pop();
        Ok((name.map(Arc::from), program?))
    }

    /// A fresh variable and its term: a word with something behind it is the variable's name.
    fn fresh(&mut self) -> Result<Term, Error> {
        let named = !matches!(self.token.word, "(" | ")" | "") && self.behind.word != ")";
        let name = if named { Some(self.new_name()?) } else { None };
        self.binders.push(name);
        let term = self.term();
        self.binders.pop();
        Ok(Term::Fresh(name.map(Arc::from), Box::new(term?)))
    }

    fn application(&mut self) -> Result<Term, Error> {
        let function = self.term()?;
        let argument = self.term()?;
        let mut whole = Term::Application(Box::new(function), Box::new(argument));
        while !self.next_is(")") {
            self.count(1)?;
            let argument = self.term()?;
            whole = Term::Application(Box::new(whole), Box::new(argument));
        }
        Ok(whole)
    }

    fn guard(&mut self) -> Result<Term, Error> {
        let mut conditions = vec![self.term()?];
        let mut result = self.term()?;
        while !self.next_is(")") {
            self.count(1)?;
            conditions.push(result);
            result = self.term()?;
        }
        let around = |inner, condition| Term::Guard(Box::new(condition), Box::new(inner));
        Ok(conditions.into_iter().rev().fold(result, around))
    }
}

/// The letter and digits of a word like x12; None for every other word.
fn lettered(word: &str) -> Option<(u8, &str)> {
    let letter = *word.as_bytes().first()?;
    let digits = word.get(1..)?;
    let all = !digits.is_empty() && digits.bytes().all(|b| b.is_ascii_digit());
    (matches!(letter, b'x' | b'b' | b'c') && all).then_some((letter, digits))
}

fn leaf(token: Token) -> Result<Option<Term>, Error> {
    let Some((letter, digits)) = lettered(token.word) else {
        return Ok(None);
    };
    let (make, most): (fn(u16) -> Term, u16) = match letter {
        b'x' => (|number| Term::Free(number, None), MOST_OTHER),
        b'b' => (Term::Bound, MOST_OTHER),
        _ => (Term::Constructor, MOST_CONSTRUCTOR),
    };
    match plain_decimal(digits.as_bytes(), most) {
        Some(number) => Ok(Some(make(number))),
        None => Err(token.error(format!(
            "{}N goes from 0 to {most}, without leading zeros",
            letter as char
        ))),
    }
}

fn is_name(word: &str) -> bool {
    word.starts_with(|c: char| c.is_ascii_alphabetic())
        && word.chars().all(|c| c.is_ascii_alphanumeric() || c == '-')
        && !TAGS.contains(&word)
        && lettered(word).is_none()
}
