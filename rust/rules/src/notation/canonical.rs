//! Rivest's canonical form: reading a program from it and writing one.

use super::{
    coherent, plain_decimal, too_many, Error, Nodes, Program, Term, MOST_CONSTRUCTOR, MOST_OTHER,
};

pub fn write(program: &[Term]) -> Vec<u8> {
    let mut out = Vec::new();
    write_program(program, &mut out);
    out
}

fn write_program(program: &[Term], out: &mut Vec<u8>) {
    out.push(b'(');
    program.iter().for_each(|t| write_term(t, out));
    out.push(b')');
}

fn write_atom(bytes: &[u8], out: &mut Vec<u8>) {
    out.extend_from_slice(bytes.len().to_string().as_bytes());
    out.push(b':');
    out.extend_from_slice(bytes);
}

fn write_number(number: u16, out: &mut Vec<u8>) {
    write_atom(number.to_string().as_bytes(), out);
}

fn write_term(term: &Term, out: &mut Vec<u8>) {
    out.push(b'(');
    write_atom(&[tag(term)], out);
    match term {
        Term::Bound(n) | Term::Free(n, _) | Term::Constructor(n) => write_number(*n, out),
        Term::Abstraction(_, p) => write_program(p, out),
        Term::Allocated(location, _, p) => {
            write_number(*location, out);
            write_program(p, out);
        }
        Term::Fresh(_, t) => write_term(t, out),
        Term::Application(f, a) | Term::Guard(f, a) | Term::Unification(f, a) => {
            write_term(f, out);
            write_term(a, out);
        }
    }
    out.push(b')');
}

fn tag(term: &Term) -> u8 {
    match term {
        Term::Bound(_) => b'v',
        Term::Free(..) => b'x',
        Term::Constructor(_) => b'c',
        Term::Abstraction(..) => b'l',
        Term::Allocated(..) => b'L',
        Term::Application(..) => b'a',
        Term::Fresh(..) => b'n',
        Term::Guard(..) => b'g',
        Term::Unification(..) => b'u',
    }
}

pub fn read(text: &[u8]) -> Result<Program, Error> {
    let mut reader = Reader {
        text,
        place: 0,
        nodes: Nodes::default(),
        binders: 0,
        closures: Vec::new(),
    };
    let program = reader.program()?;
    if reader.place < text.len() {
        return Err(reader.error("the text goes on behind the program"));
    }
    if let Some((closure, message)) = coherent::fault(&program) {
        reader.place = reader.closures[closure];
        return Err(reader.error(message));
    }
    Ok(program)
}

struct Reader<'a> {
    text: &'a [u8],
    place: usize,
    nodes: Nodes,
    /// How many binders are around the place.
    binders: u16,
    /// Where the tag of each allocated abstraction stands, in order.
    closures: Vec<usize>,
}

impl Reader<'_> {
    fn error(&self, message: impl Into<String>) -> Error {
        let mut message: String = message.into();
        if self.place >= self.text.len() {
            message += ", and the text ends";
        }
        Error {
            line: 1,
            column: self.place + 1,
            message,
        }
    }

    fn count(&mut self, nodes: usize) -> Result<(), Error> {
        if self.nodes.more(nodes) {
            Ok(())
        } else {
            Err(self.error(too_many()))
        }
    }

    fn next_is(&self, byte: u8) -> bool {
        self.text.get(self.place) == Some(&byte)
    }

    fn byte(&mut self, byte: u8) -> Result<(), Error> {
        if !self.next_is(byte) {
            return Err(self.error(format!("'{}' must stand here", byte as char)));
        }
        self.place += 1;
        Ok(())
    }

    /// An atom's bytes. A length of over five digits is longer than any text that is read.
    fn atom(&mut self) -> Result<Vec<u8>, Error> {
        let rest = &self.text[self.place..];
        let digits = rest.iter().take_while(|b| b.is_ascii_digit()).count();
        let Some(length) = plain_decimal(&rest[..digits], u16::MAX) else {
            return Err(self.error("an atom's length must stand here"));
        };
        let start = digits + 1;
        let end = start + usize::from(length);
        if rest.get(digits) != Some(&b':') || end > rest.len() {
            return Err(self.error("an atom must stand here"));
        }
        self.place += end;
        Ok(rest[start..end].to_vec())
    }

    fn number(&mut self, most: u16) -> Result<u16, Error> {
        let at = self.place;
        let atom = self.atom()?;
        plain_decimal(&atom, most).ok_or_else(|| {
            self.place = at;
            self.error(format!("a plain decimal from 0 to {most} must stand here"))
        })
    }

    fn program(&mut self) -> Result<Program, Error> {
        self.byte(b'(')?;
        self.count(1)?;
        let mut alternatives = Vec::new();
        while !self.next_is(b')') {
            if !self.next_is(b'(') {
                return Err(self.error("'(' or ')' must stand here"));
            }
            self.count(1)?;
            alternatives.push(self.term()?);
        }
        self.place += 1;
        Ok(alternatives)
    }

    fn term(&mut self) -> Result<Term, Error> {
        self.count(1)?;
        self.byte(b'(')?;
        let at = self.place;
        let tag = self.atom()?;
        let term = match tag.as_slice() {
            b"v" => Term::Bound(self.bound()?),
            b"x" => Term::Free(self.number(MOST_OTHER)?, None),
            b"c" => Term::Constructor(self.number(MOST_CONSTRUCTOR)?),
            b"l" => Term::Abstraction(None, self.below(Self::program)?),
            b"L" => self.allocated(at)?,
            b"n" => Term::Fresh(None, self.below(Self::boxed)?),
            b"a" => Term::Application(self.boxed()?, self.boxed()?),
            b"g" => Term::Guard(self.boxed()?, self.boxed()?),
            b"u" => Term::Unification(self.boxed()?, self.boxed()?),
            _ => {
                self.place = at;
                return Err(self.error("unknown tag"));
            }
        };
        self.byte(b')')?;
        Ok(term)
    }

    fn allocated(&mut self, at: usize) -> Result<Term, Error> {
        self.closures.push(at);
        let location = self.number(MOST_OTHER)?;
        let body = self.below(Self::program)?;
        Ok(Term::Allocated(location, None, body))
    }

    fn boxed(&mut self) -> Result<Box<Term>, Error> {
        self.term().map(Box::new)
    }

    fn below<T>(&mut self, part: fn(&mut Self) -> Result<T, Error>) -> Result<T, Error> {
        self.binders += 1;
        let read = part(self);
        self.binders -= 1;
        read
    }

    fn bound(&mut self) -> Result<u16, Error> {
        let at = self.place;
        let index = self.number(MOST_OTHER)?;
        if index >= self.binders {
            self.place = at;
            return Err(self.error(format!("bound variable {index} has no binder")));
        }
        Ok(index)
    }
}
