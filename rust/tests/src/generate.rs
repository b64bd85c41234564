//! Random programs, texts and tables.

use crate::evaluator::step::{step, Step};
use crate::evaluator::text::{program_expression, put_expression, write_text, Expression};
use crate::evaluator::tree::{
    application, fresh, guard, program_size, term_size, unification, Program, Term,
};
use crate::evaluator::Size;
use crate::random::Random;

/// A program that is closed, coherent, in range and not too large.
pub fn sound_program(size: Size, random: &mut Random) -> Program {
    let mut program = program(size, random, NO_FAULTS);
    while program_size(&program) > size.nodes {
        program.pop();
    }
    program
}

/// A sound program after some steps.
pub fn worked_program(size: Size, random: &mut Random) -> Program {
    let mut program = sound_program(size, random);
    for _ in 0..random.between(1, 20) {
        match step(&program) {
            Step::To(_, _, next) if program_size(&next) <= size.nodes => program = next,
            _ => break,
        }
    }
    program
}

/// A sound program of about as many nodes as there may be at either size: one thread, or the threads of a smaller one over and over.
pub fn large_program(size: Size, random: &mut Random) -> Program {
    let small = Size::SMALL.nodes;
    let nodes = random.pick(&[1000, small, small + 40, size.nodes]);
    let nodes = nodes.min(size.nodes);
    if random.one_in(2) {
        return large_thread(size, nodes, random);
    }
    let mut threads = worked_program(size, random);
    threads.push(sound_leaf(random));
    let mut program = Vec::new();
    for thread in threads.iter().cycle() {
        program.push(thread.clone());
        if program_size(&program) > nodes {
            program.pop();
            break;
        }
    }
    program
}

/// A program of one thread of nearly so many nodes: lively terms beside each other.
fn large_thread(size: Size, nodes: usize, random: &mut Random) -> Program {
    let mut thread = Thread::new(size, random, NO_FAULTS);
    let mut whole = thread.lively(100, 0);
    loop {
        let part = thread.lively(200, 0);
        if term_size(&whole) + term_size(&part) + 3 > nodes {
            return vec![whole];
        }
        whole = match thread.random.below(3) {
            0 => application(whole, part),
            1 => application(part, whole),
            _ => guard(part, whole),
        };
    }
}

/// A sound program of threads that unify: two values that are alike but for the variables in them, and behind these goals what uses the variables.
pub fn goals_program(size: Size, random: &mut Random) -> Program {
    let threads = random.pick(&[1, 1, 1, 2, 3]);
    let mut program: Program = (0..threads)
        .map(|_| Thread::new(size, random, NO_FAULTS).goals())
        .collect();
    while program_size(&program) > size.nodes {
        program.pop();
    }
    program
}

/// A program in which a bound variable may have no binder and a thread may be incoherent.
pub fn faulty_program(size: Size, random: &mut Random) -> Program {
    let (indices, closures) = random.pick(&[(12, 0), (0, 5), (0, 5), (20, 5)]);
    program(size, random, Faults { indices, closures })
}

fn program(size: Size, random: &mut Random, faults: Faults) -> Program {
    let threads = random.pick(&[0, 1, 1, 1, 2, 2, 3, 5]);
    let budget = random.pick(&[4, 8, 16, 16, 32, 32, 64, 64, 100, 500]);
    (0..threads)
        .map(|_| match random.below(12) {
            0 => growing(random),
            1 => many_names(size, random),
            _ => Thread::new(size, random, faults).lively(budget, 0),
        })
        .collect()
}

/// A thread that grows, until it ends or passes the room.
fn growing(random: &mut Random) -> Term {
    let inner = sound_leaf(random);
    match random.below(4) {
        0 => (0..random.between(1, 12)).fold(inner, |term, _| {
            let twice = vec![application(
                application(Term::Constructor(1), Term::Bound(0)),
                Term::Bound(0),
            )];
            application(Term::Abstraction(twice), term)
        }),
        1 => (0..random.between(1, 10)).fold(inner, |term, _| {
            let choice = vec![Term::Bound(0), Term::Constructor(2), Term::Free(1)];
            let choice = application(Term::Abstraction(choice), Term::Constructor(1));
            application(application(Term::Constructor(9), choice), term)
        }),
        2 => {
            let itself = application(Term::Bound(0), Term::Bound(0));
            let body = match random.below(3) {
                0 => application(itself, Term::Bound(0)),
                1 => application(inner, itself),
                _ => guard(unification(inner.clone(), inner), itself),
            };
            let function = Term::Abstraction(vec![body]);
            application(function.clone(), function)
        }
        _ => tower(random.between(1, 11) as u16, random),
    }
}

/// A thread with more names of one kind than one pass of the search looks for, some of them in a body, and what asks for one more of them or,
/// now and then, of the other kind.
fn many_names(size: Size, random: &mut Random) -> Term {
    let count = random.between(65, 200) as u16;
    let least = random.pick(&[0, 64]);
    let left_out = random.between(least, usize::from(count)) as u16;
    let variables = random.one_in(2);
    let asks_variable = variables != random.one_in(4);
    let names = random.shuffled(count);
    let names = names.into_iter().filter(|name| *name != left_out);
    let elements = names.map(|name| match variables {
        true => Term::Free(name),
        false => Term::Allocated(name, vec![]),
    });
    let (inside, outside): (Vec<_>, Vec<_>) = elements.partition(|_| random.one_in(3));
    let structure = outside.into_iter().fold(Term::Constructor(9), application);
    let names = application(structure, Term::Allocated(size.largest(), inside));
    let asks = match asks_variable {
        true => fresh(Term::Bound(0)),
        false => Term::Abstraction(vec![Term::Bound(0)]),
    };
    application(names, asks)
}

/// A number at the end of the names of either size.
fn far_name(size: Size, random: &mut Random) -> u16 {
    let (small, largest) = (Size::SMALL.largest(), size.largest());
    let name = random.pick(&[small, small + 1, largest - 1, largest]);
    name.min(largest)
}

fn sound_leaf(random: &mut Random) -> Term {
    match random.below(2) {
        0 => Term::Free(random.below(3) as u16),
        _ => Term::Constructor(random.below(3) as u16),
    }
}

/// A goal whose values double from variable to variable, with some of the variables kept beside it.
fn tower(levels: u16, random: &mut Random) -> Term {
    let pair = |i| {
        application(
            application(Term::Constructor(8), Term::Free(i)),
            Term::Free(i),
        )
    };
    let (mut left, mut right) = (Term::Constructor(9), Term::Constructor(9));
    for i in 0..levels {
        left = application(left, Term::Free(i + 1));
        right = application(right, pair(i));
    }
    let goal = unification(left, right);
    match random.below(3) {
        0 => goal,
        1 => guard(
            goal,
            Term::Free(random.below(usize::from(levels) + 1) as u16),
        ),
        _ => application(Term::Constructor(7), application(goal, Term::Free(levels))),
    }
}

/// One in how many bound variables and allocated abstractions is made without regard to soundness; 0 is none.
#[derive(Clone, Copy)]
struct Faults {
    indices: usize,
    closures: usize,
}

const NO_FAULTS: Faults = Faults {
    indices: 0,
    closures: 0,
};

/// What the terms of one thread have in common: its allocated abstractions.
struct Thread<'r> {
    size: Size,
    random: &'r mut Random,
    faults: Faults,
    closures: Vec<(u16, Program)>,
}

impl Thread<'_> {
    fn new(size: Size, random: &mut Random, faults: Faults) -> Thread<'_> {
        let mut thread = Thread {
            size,
            random,
            faults,
            closures: Vec::new(),
        };
        for _ in 0..thread.random.below(4) {
            let far = far_name(size, thread.random);
            let location = thread.random.pick(&[0, 1, 2, 3, 7, far]);
            let body = thread.body(6, 0);
            // a body made so far has only locations made before it, so no closure holds its own
            if thread.closures.iter().all(|(l, _)| *l != location) {
                thread.closures.push((location, body));
            }
        }
        thread
    }

    fn fault(&mut self, one_in: usize) -> bool {
        one_in > 0 && self.random.one_in(one_in)
    }

    /// The alternatives of a body inside `binders` binders.
    fn body(&mut self, budget: usize, binders: usize) -> Program {
        let alternatives = self.random.pick(&[0, 1, 1, 1, 2, 2, 3]);
        (0..alternatives)
            .map(|_| self.lively(budget / alternatives, binders + 1))
            .collect()
    }

    /// A term that is likely to have something to do.
    fn lively(&mut self, budget: usize, binders: usize) -> Term {
        if budget <= 1 {
            return self.leaf(binders);
        }
        let left = self.random.between(1, budget - 1);
        let right = budget - left;
        match self.random.below(13) {
            0 | 1 => fresh(self.lively(budget - 1, binders + 1)),
            2 | 3 => {
                let goal = self.goal(left, binders);
                guard(goal, self.lively(right, binders))
            }
            4 => self.goal(budget, binders),
            5 | 6 => {
                let function = Term::Abstraction(self.body(left, binders));
                application(function, self.lively(right, binders))
            }
            7 => {
                let function = self.closure(left, binders);
                application(function, self.value(right, binders))
            }
            8 => guard(self.lively(left, binders), self.lively(right, binders)),
            9 => unification(self.lively(left, binders), self.lively(right, binders)),
            10 => application(self.lively(left, binders), self.lively(right, binders)),
            11 => Term::Abstraction(self.body(budget, binders)),
            _ => self.value(budget, binders),
        }
    }

    fn leaf(&mut self, binders: usize) -> Term {
        if self.fault(self.faults.indices) {
            return Term::Bound(self.random.below(binders + 3) as u16);
        }
        match self.random.below(8) {
            0..=2 if binders > 0 => Term::Bound(self.random.below(binders) as u16),
            0..=4 => self.variable(),
            5 => self.closure(4, binders),
            _ => self.constructor(),
        }
    }

    fn variable(&mut self) -> Term {
        let far = far_name(self.size, self.random);
        Term::Free(self.random.pick(&[0, 0, 1, 1, 2, 3, 4, 5, far]))
    }

    fn constructor(&mut self) -> Term {
        Term::Constructor(self.random.pick(&[0, 1, 1, 2, 3, 65535]))
    }

    /// One of the thread's allocated abstractions.
    fn closure(&mut self, budget: usize, binders: usize) -> Term {
        if self.fault(self.faults.closures) {
            let location = self.random.below(4) as u16;
            // closed, so that only its location is against it, or reaching out
            let around = self.random.pick(&[0, 0, binders]);
            return Term::Allocated(location, self.body(budget, around));
        }
        if self.closures.is_empty() {
            return self.constructor();
        }
        let (location, body) = &self.closures[self.random.below(self.closures.len())];
        Term::Allocated(*location, body.clone())
    }

    /// A value, or what becomes one when the binders around it are gone.
    fn value(&mut self, budget: usize, binders: usize) -> Term {
        if budget <= 2 || self.random.one_in(5) {
            return self.leaf(binders);
        }
        let mut structure = self.constructor();
        let mut left = budget - 1;
        while left > 1 && !self.random.one_in(4) {
            let part = self.random.between(1, left - 1);
            structure = application(structure, self.value(part, binders));
            left -= part;
        }
        structure
    }

    fn goal(&mut self, budget: usize, binders: usize) -> Term {
        let (left, right) = self.pair(budget / 2, binders);
        unification(left, right)
    }

    /// Two values that are often unifiable: alike but for variables, with a clash now and then.
    fn pair(&mut self, budget: usize, binders: usize) -> (Term, Term) {
        match self.random.below(12) {
            0 => (
                self.value(budget, binders),
                self.value(budget.min(6), binders),
            ),
            1 | 2 => (self.variable(), self.value(budget, binders)),
            3 | 4 => (self.value(budget, binders), self.variable()),
            5 if binders > 0 => {
                let index = self.random.below(binders) as u16;
                (Term::Bound(index), self.value(budget, binders))
            }
            _ if budget > 2 => {
                let part = self.random.between(1, budget - 1);
                let (f, g) = self.pair_of_structures(budget - part, binders);
                let (a, b) = self.pair(part, binders);
                (application(f, a), application(g, b))
            }
            _ => {
                let same = self.leaf(binders);
                (same.clone(), same)
            }
        }
    }

    /// Goals over so many variables, one behind the other, and then a use of these.
    fn goals(&mut self) -> Term {
        let names = self.random.pick(&[2, 4, 8, 16, 40, 100]);
        let budget = self.random.pick(&[6, 12, 24, 50, 100, 300]);
        let mut thread = self.row(6, names);
        for _ in 0..self.random.pick(&[1, 1, 2, 4]) {
            let (left, right) = match self.random.below(5) {
                0 => self.renamings(budget.min(40), names),
                _ => {
                    let value = self.full_value(budget);
                    (self.named(&value, names), self.named(&value, names))
                }
            };
            thread = match self.random.below(4) {
                0 => application(
                    application(self.row(3, names), unification(left, right)),
                    thread,
                ),
                _ => guard(unification(left, right), thread),
            };
        }
        thread
    }

    /// A value of about so many nodes.
    fn full_value(&mut self, budget: usize) -> Term {
        if budget <= 2 {
            return self.leaf(0);
        }
        let (mut structure, mut left) = (self.constructor(), budget - 1);
        while left > 1 {
            let part = self.random.between(1, left - 1);
            structure = application(structure, self.full_value(part));
            left -= part;
        }
        structure
    }

    fn name(&mut self, names: usize) -> Term {
        Term::Free(self.random.below(names) as u16)
    }

    /// A structure of variables, and of closures that may hold some.
    fn row(&mut self, length: usize, names: usize) -> Term {
        let arguments = 0..self.random.between(1, length);
        arguments.fold(Term::Constructor(9), |row, _| {
            let argument = match self.random.below(4) {
                0 => self.closure(1, 0),
                _ => self.name(names),
            };
            application(row, argument)
        })
    }

    /// Two structures of as many variables.
    fn renamings(&mut self, length: usize, names: usize) -> (Term, Term) {
        let same = Term::Constructor(9);
        (0..length).fold((same.clone(), same), |(left, right), _| {
            let (x, y) = (self.name(names), self.name(names));
            (application(left, x), application(right, y))
        })
    }

    /// The value with variables in the place of some of its parts.
    fn named(&mut self, value: &Term, names: usize) -> Term {
        if self.random.one_in(6) {
            return self.name(names);
        }
        self.named_below(value, names)
    }

    /// As `named`, but what is applied stays a structure.
    fn named_below(&mut self, value: &Term, names: usize) -> Term {
        match value {
            Term::Application(function, argument) => {
                let function = self.named_below(function, names);
                application(function, self.named(argument, names))
            }
            // a clash now and then
            _ if self.random.one_in(200) => self.constructor(),
            leaf => leaf.clone(),
        }
    }

    fn pair_of_structures(&mut self, budget: usize, binders: usize) -> (Term, Term) {
        if budget <= 2 {
            let head = self.constructor();
            return (head.clone(), head);
        }
        let part = self.random.between(1, budget - 1);
        let (f, g) = self.pair_of_structures(budget - part, binders);
        let (a, b) = self.pair(part, binders);
        (application(f, a), application(g, b))
    }
}

/// A text: of a program, damaged, of nearly the right form, or of the letters of texts only.
pub fn text(size: Size, random: &mut Random) -> Vec<u8> {
    if random.one_in(60) {
        return large_text(size, random);
    }
    match random.below(11) {
        0 => write_text(&sound_program(size, random)),
        1 => write_text(&faulty_program(size, random)),
        2 | 3 => odd_form(size, random),
        4 => odd_numbers(size, random),
        5 => letters(random),
        _ => {
            let mut text = write_text(&faulty_program(size, random));
            for _ in 0..random.pick(&[1, 1, 1, 2, 4]) {
                damage(size, &mut text, random);
            }
            text
        }
    }
}

/// The text of a program's expression with members dropped, doubled, replaced, and numbers and tags changed.
fn odd_form(size: Size, random: &mut Random) -> Vec<u8> {
    let mut expression = program_expression(&faulty_program(size, random));
    for _ in 0..random.between(1, 3) {
        let place = random.below(40);
        change_form(&mut expression, &mut { place }, random);
    }
    let mut text = Vec::new();
    put_expression(&expression, &mut text);
    text
}

/// The text of a program in which some numbers are of another form or out of their range.
fn odd_numbers(size: Size, random: &mut Random) -> Vec<u8> {
    let mut expression = program_expression(&faulty_program(size, random));
    change_numbers(&mut expression, random);
    let mut text = Vec::new();
    put_expression(&expression, &mut text);
    text
}

fn change_numbers(expression: &mut Expression, random: &mut Random) {
    let Expression::List(members) = expression else {
        return;
    };
    for (place, member) in members.iter_mut().enumerate() {
        match member {
            Expression::Atom(number) if place == 1 && random.one_in(6) => {
                *number = random.pick(&NUMBERS).as_bytes().to_vec();
            }
            _ => change_numbers(member, random),
        }
    }
}

/// The text of a program's threads over and over, about as many nodes as a program may have at either size.
fn large_text(size: Size, random: &mut Random) -> Vec<u8> {
    let threads = match random.below(3) {
        0 => faulty_program(size, random),
        _ => sound_program(size, random),
    };
    let mut program = Vec::new();
    let limit = random.pick(&[Size::SMALL.nodes, size.nodes]);
    let nodes = random.between(limit - 48, limit + 32);
    while !threads.is_empty() && program_size(&program) < nodes {
        program.push(threads[program.len() % threads.len()].clone());
        program.push(Term::Constructor(1));
    }
    write_text(&program)
}

/// Changes the expression that comes `left` places behind, in preorder, or the last.
fn change_form(expression: &mut Expression, left: &mut usize, random: &mut Random) {
    if *left == 0 {
        *expression = changed(expression, random);
        return;
    }
    *left -= 1;
    if let Expression::List(members) = expression {
        for member in members {
            change_form(member, left, random);
            if *left == 0 {
                return;
            }
        }
    }
}

/// Atoms for a number's place: plain decimals in and out of range, and others.
const NUMBERS: [&str; 20] = [
    "0",
    "1",
    "2",
    "3",
    "00",
    "01",
    "",
    "+1",
    "-1",
    "2047",
    "2048",
    "16383",
    "16384",
    "65535",
    "65536",
    "x",
    "1 ",
    "4294967296",
    "18446744073709551616",
    "18446744073709551617",
];

fn changed(expression: &Expression, random: &mut Random) -> Expression {
    let tags = [
        "v", "x", "c", "l", "L", "a", "n", "g", "u", "V", "z", "", "cc",
    ];
    let atom = |word: &str| Expression::Atom(word.as_bytes().to_vec());
    match (random.below(6), expression) {
        (0, _) => Expression::List(Vec::new()),
        (1, Expression::List(members)) if !members.is_empty() => {
            let mut members = members.clone();
            members.pop();
            Expression::List(members)
        }
        (2, Expression::List(members)) if !members.is_empty() => {
            let mut members = members.clone();
            let twice = members[random.below(members.len())].clone();
            members.insert(random.below(members.len() + 1), twice);
            Expression::List(members)
        }
        (3, whole) => Expression::List(vec![whole.clone()]),
        (4, Expression::Atom(_)) => atom(random.pick(&tags)),
        _ => atom(random.pick(&NUMBERS)),
    }
}

/// Some of the letters that texts are made of.
fn letters(random: &mut Random) -> Vec<u8> {
    let pieces: [&[u8]; 24] = [
        b"(",
        b"(",
        b")",
        b")",
        b"1:c",
        b"1:v",
        b"1:x",
        b"1:l",
        b"1:L",
        b"1:a",
        b"1:n",
        b"1:g",
        b"1:u",
        b"1:0",
        b"1:1",
        b"0:",
        b"00:",
        b"01:0",
        b"2:10",
        b"2:()",
        b":",
        b"99999999999999999999:",
        b" ",
        b"[1:h]",
    ];
    let length = random.below(12);
    let mut text: Vec<u8> = b"(".to_vec();
    for _ in 0..length {
        text.extend(random.pick(&pieces));
    }
    while random.one_in(2) {
        text.push(b')');
    }
    text
}

/// One change of the bytes: cut, flipped, lengthened, joined, a leading zero.
fn damage(size: Size, text: &mut Vec<u8>, random: &mut Random) {
    let place = random.below(text.len() + 1);
    let byte = random.pick(b"()0123456789:vxclLangu \n\0\xff");
    match random.below(9) {
        0 => text.truncate(place),
        1 if place < text.len() => text[place] ^= 1 << random.below(8),
        2 if place < text.len() => text[place] = byte,
        3 => text.insert(place, byte),
        4 => text.push(byte),
        5 => text.extend(write_text(&sound_program(size, random))),
        6 if place < text.len() => {
            text.remove(place);
        }
        7 => {
            let colon = text[place..].iter().position(|b| *b == b':');
            if let Some(behind) = colon {
                // before the length's last digit
                text.insert((place + behind).saturating_sub(1), b'0');
            }
        }
        _ => {
            let end = (place + random.below(20)).min(text.len());
            let part = text[place..end].to_vec();
            text.splice(place..place, part);
        }
    }
}

/// A table of numbers that need not be a program.
pub fn any_table(random: &mut Random) -> Vec<u16> {
    let length = random.pick(&[0, 1, 2, 3, 4, 6, 8, 9, 14, 20, 31, 40]);
    let wild = random.one_in(4);
    let number = |random: &mut Random, place: usize| match place % 2 {
        _ if wild => random.draw() as u16,
        0 => random.pick(&[0, 0, 1, 1, 1, 2, 3, 4, 4, 5, 6, 7, 8, 9, 10, 11, 12]),
        _ => random.pick(&[0, 0, 0, 0, 0, 0, 1, 2, 2047, 2048, 16383, 16384, 65535]),
    };
    (0..length).map(|place| number(random, place)).collect()
}

/// A program's table with a few numbers changed, or some nodes taken out or doubled.
pub fn damaged_table(table: &[u16], random: &mut Random) -> Vec<u16> {
    let mut table = table.to_vec();
    for _ in 0..random.between(1, 3) {
        let place = random.below(table.len());
        match random.below(5) {
            0 => {
                table[place] =
                    random.pick(&[0, 1, 2, 4, 6, 8, 10, 11, 2047, 2048, 16383, 16384, 65535])
            }
            1 => table[place] = table[place].wrapping_add(1),
            2 => table[place / 2 * 2] = random.below(12) as u16,
            3 if table.len() > 2 => {
                let node = place / 2 * 2;
                table.drain(node..(node + 2).min(table.len()));
            }
            _ => table.truncate(place.max(1)),
        }
    }
    table
}
