//! Texts: Rivest's canonical S-expressions without display hints.

use super::tree::{application, fresh, guard, program_size, unification, Program, Term};
use super::{check, Size};
use mespindro::Refusal;

/// An S-expression: an atom's bytes, or a list.
#[derive(Clone, Debug, PartialEq, Eq)]
pub enum Expression {
    Atom(Vec<u8>),
    List(Vec<Expression>),
}

use Expression::{Atom, List};

/// The number of a closure in an operator's text. No call gives it.
pub const CLOSURE: u16 = 15;

/// The program of a text, or refusal 2 to 8.
pub fn read_text(size: Size, text: &[u8]) -> Result<Program, Refusal> {
    check::checked(read_spelled(size, text)?)
}

/// The program of an operator's text, which the program on standard input takes, or the number of its refusal: 2 to 7, or 15.
pub fn read_operators_text(text: &[u8]) -> Result<Program, u16> {
    let program = read_spelled(Size::SMALL, text).map_err(Refusal::number)?;
    if check::holds_closure(&program) {
        return Err(CLOSURE);
    }
    check::checked(program).map_err(Refusal::number)
}

/// The program that a text spells, whether it is coherent or not, or refusal 2 to 7.
fn read_spelled(size: Size, text: &[u8]) -> Result<Program, Refusal> {
    if text.len() > size.text() {
        return Err(Refusal::TooLong);
    }
    let expression = parse(text).ok_or(Refusal::NotCanonical)?;
    let mut form = Form { size, lowest: None };
    let program = form.program(&expression);
    if let Some(refusal) = form.lowest {
        return Err(refusal);
    }
    if check::has_loose_index(&program) {
        return Err(Refusal::NoBinder);
    }
    if program_size(&program) > size.nodes {
        return Err(Refusal::TooManyNodes);
    }
    Ok(program)
}

/// The expression that the text is, exactly.
pub fn parse(text: &[u8]) -> Option<Expression> {
    let mut rest = text;
    let expression = parse_one(&mut rest)?;
    rest.is_empty().then_some(expression)
}

fn parse_one(rest: &mut &[u8]) -> Option<Expression> {
    if rest.first()? != &b'(' {
        return parse_atom(rest).map(Atom);
    }
    *rest = &rest[1..];
    let mut members = Vec::new();
    while rest.first()? != &b')' {
        members.push(parse_one(rest)?);
    }
    *rest = &rest[1..];
    Some(List(members))
}

fn parse_atom(rest: &mut &[u8]) -> Option<Vec<u8>> {
    let colon = rest.iter().position(|b| !b.is_ascii_digit())?;
    let (digits, behind) = rest.split_at(colon);
    if behind[0] != b':' || !is_plain_decimal(digits) {
        return None;
    }
    // a length that no number holds is longer than any text
    let length: usize = std::str::from_utf8(digits).ok()?.parse().ok()?;
    let bytes = behind[1..].get(..length)?;
    *rest = &behind[1 + length..];
    Some(bytes.to_vec())
}

/// Digits without a leading zero; zero itself is `0`.
fn is_plain_decimal(digits: &[u8]) -> bool {
    let leading_zero = digits.len() > 1 && digits[0] == b'0';
    !digits.is_empty() && !leading_zero && digits.iter().all(u8::is_ascii_digit)
}

/// Builds the program of an expression and keeps the lower of refusals 4 and 5; what stands in a refused place does not matter.
struct Form {
    size: Size,
    lowest: Option<Refusal>,
}

impl Form {
    fn refuse(&mut self, refusal: Refusal) {
        self.lowest = Some(self.lowest.map_or(refusal, |r| r.min(refusal)));
    }

    fn program(&mut self, expression: &Expression) -> Program {
        match expression {
            List(members) => members.iter().map(|m| self.term(m)).collect(),
            Atom(_) => {
                self.refuse(Refusal::OutOfPlace);
                Vec::new()
            }
        }
    }

    fn term(&mut self, expression: &Expression) -> Term {
        let largest = self.size.largest();
        let List(members) = expression else {
            return self.out_of_place();
        };
        let Some((Atom(tag), parts)) = members.split_first() else {
            return self.out_of_place();
        };
        match (tag.as_slice(), parts) {
            (b"v", [n]) => Term::Bound(self.number(n, largest)),
            (b"x", [n]) => Term::Free(self.number(n, largest)),
            (b"c", [n]) => Term::Constructor(self.number(n, 65535)),
            (b"l", [body]) => Term::Abstraction(self.program(body)),
            (b"L", [n, body]) => Term::Allocated(self.number(n, largest), self.program(body)),
            (b"a", [l, r]) => application(self.term(l), self.term(r)),
            (b"n", [part]) => fresh(self.term(part)),
            (b"g", [l, r]) => guard(self.term(l), self.term(r)),
            (b"u", [l, r]) => unification(self.term(l), self.term(r)),
            _ => self.out_of_place(),
        }
    }

    fn out_of_place(&mut self) -> Term {
        self.refuse(Refusal::OutOfPlace);
        Term::Constructor(0)
    }

    fn number(&mut self, expression: &Expression, largest: u16) -> u16 {
        let Atom(digits) = expression else {
            self.refuse(Refusal::OutOfPlace);
            return 0;
        };
        match plain_number(digits) {
            Some(n) if n <= largest => n,
            _ => {
                self.refuse(Refusal::BadNumber);
                0
            }
        }
    }
}

fn plain_number(digits: &[u8]) -> Option<u16> {
    if !is_plain_decimal(digits) {
        return None;
    }
    std::str::from_utf8(digits).ok()?.parse().ok()
}

/// The text of a program.
pub fn write_text(program: &[Term]) -> Vec<u8> {
    let mut text = Vec::new();
    put_expression(&program_expression(program), &mut text);
    text
}

/// The text of an expression.
pub fn put_expression(expression: &Expression, text: &mut Vec<u8>) {
    match expression {
        Atom(bytes) => {
            text.extend(format!("{}:", bytes.len()).bytes());
            text.extend(bytes);
        }
        List(members) => {
            text.push(b'(');
            for member in members {
                put_expression(member, text);
            }
            text.push(b')');
        }
    }
}

/// The expression of a program.
pub fn program_expression(program: &[Term]) -> Expression {
    List(program.iter().map(term_expression).collect())
}

fn term_expression(term: &Term) -> Expression {
    let number = |n: &u16| Atom(n.to_string().into_bytes());
    let (tag, parts) = match term {
        Term::Bound(n) => ("v", vec![number(n)]),
        Term::Free(n) => ("x", vec![number(n)]),
        Term::Constructor(n) => ("c", vec![number(n)]),
        Term::Abstraction(body) => ("l", vec![program_expression(body)]),
        Term::Allocated(n, body) => ("L", vec![number(n), program_expression(body)]),
        Term::Application(l, r) => ("a", vec![term_expression(l), term_expression(r)]),
        Term::Fresh(part) => ("n", vec![term_expression(part)]),
        Term::Guard(l, r) => ("g", vec![term_expression(l), term_expression(r)]),
        Term::Unification(l, r) => ("u", vec![term_expression(l), term_expression(r)]),
    };
    let mut members = vec![Atom(tag.as_bytes().to_vec())];
    members.extend(parts);
    List(members)
}
