//! The number that a new variable or location gets (request 4): the least that stands nowhere in the thread, however many numbers are taken, in
//! whichever order they stand, and inside bodies too. The request's cases are in cases/new-names.txt.

use mespindro::Rule;
use mespindro_tests::compare;
use mespindro_tests::evaluator::table::{read_table, OwnTable};
use mespindro_tests::evaluator::tree::{
    application, fresh, program_size, term_size, Program, Term,
};
use mespindro_tests::evaluator::{Lengths, Size};
use mespindro_tests::library::{at_both, Library};
use mespindro_tests::on_big_stack;
use mespindro_tests::random::Random;

/// What a name is: the element that has it, what asks for a new one, the rule that gives it, and the nodes of an element.
struct Kind {
    element: fn(u16) -> Term,
    asks: fn() -> Term,
    rule: Rule,
    size: usize,
}

const VARIABLES: Kind = Kind {
    element: Term::Free,
    asks: || fresh(Term::Bound(0)),
    rule: Rule::Fresh,
    size: 1,
};

const LOCATIONS: Kind = Kind {
    element: |location| Term::Allocated(location, vec![]),
    asks: || Term::Abstraction(vec![]),
    rule: Rule::Alloc,
    size: 2,
};

/// c9 applied to one element after another.
fn structure(kind: &Kind, names: &[u16]) -> Term {
    let elements = names.iter().map(|name| (kind.element)(*name));
    elements.fold(Term::Constructor(9), application)
}

/// The same names as the alternatives of a closure's body. Its own location is none of theirs.
fn body(size: Size, kind: &Kind, names: &[u16]) -> Term {
    let elements = names.iter().map(|name| (kind.element)(*name));
    Term::Allocated(size.largest(), elements.collect())
}

/// The sizes that take what fits this one.
fn sizes_from(size: Size) -> impl Iterator<Item = Size> {
    let sizes = Size::BOTH.into_iter();
    sizes.filter(move |other| other.nodes >= size.nodes)
}

/// One step of the elements applied to what asks for a name: the library gives the number, the evaluator does too, and nothing else changes.
fn takes(size: Size, kind: &Kind, elements: &Term, number: u16) {
    let before = vec![application(elements.clone(), (kind.asks)())];
    let after = vec![application(elements.clone(), (kind.element)(number))];
    let table = OwnTable::of(&before);
    let (count, lengths) = (table.nodes(), Lengths::for_nodes(size.nodes));
    for size in sizes_from(size) {
        let mut out = OwnTable::empty(lengths);
        let made = (Library::at(size).step)(table.lent(), count, out.lent_mut());
        let made = made.expect("a step");
        assert_eq!((made.rule, made.thread), (kind.rule, 0));
        let told = read_table(size, out.lent(), made.nodes);
        assert_eq!(told.as_ref(), Ok(&after), "{number} is the least");
        compare::step(size, table.lent(), count, lengths)
            .unwrap_or_else(|difference| panic!("{difference}"));
    }
}

/// The names in three orders.
fn orders(names: Vec<u16>, random: &mut Random) -> [Vec<u16>; 3] {
    let end = names.len() as u16;
    let shuffled = random
        .shuffled(end)
        .iter()
        .map(|i| names[usize::from(*i)])
        .collect();
    let descending = names.iter().rev().copied().collect();
    [names, descending, shuffled]
}

/// The first k numbers are taken, or k of the first k + 1 with one left out, in every order, in a structure or in a body.
fn left_out(kind: &Kind, most: u16) -> usize {
    let mut random = Random::new(64);
    let mut tried = 0;
    for k in [1, 2, 62, 63, 64, 65, 127, 128, 129, 191, 192, 193, most] {
        let mut gaps = vec![0, 62, 63, 64, 65, 127, 128, k - 1, k];
        gaps.retain(|gap| *gap <= k);
        gaps.sort_unstable();
        gaps.dedup();
        for gap in gaps {
            let names = (0..=k).filter(|name| *name != gap).collect();
            for order in orders(names, &mut random) {
                takes(Size::SMALL, kind, &structure(kind, &order), gap);
                takes(Size::SMALL, kind, &body(Size::SMALL, kind, &order), gap);
                tried += 2;
            }
        }
    }
    tried
}

/// The most are 1,020, in a thread of 2,044 nodes.
#[test]
fn variables_in_every_order() {
    let names: Vec<u16> = (0..1020).collect();
    let thread = application(structure(&VARIABLES, &names), (VARIABLES.asks)());
    assert_eq!(term_size(&thread), 2044);
    let tried = on_big_stack(|| left_out(&VARIABLES, 1020));
    println!("{tried} threads");
}

#[test]
fn locations_in_every_order() {
    let tried = on_big_stack(|| left_out(&LOCATIONS, 680));
    println!("{tried} threads");
}

/// As many names as 16,384 nodes hold, one of them left out: numbers that the small size does not have are given too.
#[test]
fn names_beyond_the_small_size() {
    on_big_stack(|| {
        let mut random = Random::new(66);
        for (kind, most) in [(&VARIABLES, 8188), (&LOCATIONS, 5459)] {
            for gap in [0, 64, 2047, 2048, most - 1, most] {
                let names = (0..=most).filter(|name| *name != gap).collect();
                for order in orders(names, &mut random) {
                    takes(Size::LARGE, kind, &structure(kind, &order), gap);
                    takes(Size::LARGE, kind, &body(Size::LARGE, kind, &order), gap);
                }
            }
        }
    });
}

/// Numbers far apart and numbers that stand often: only those that are met count, however often they are.
#[test]
fn scattered_and_repeated() {
    let mut random = Random::new(65);
    let mut tried = 0;
    on_big_stack(|| {
        for _ in 0..500 {
            let kind = random.pick(&[&VARIABLES, &LOCATIONS]);
            // the body's own location is 2,047
            let end = if kind.rule == Rule::Alloc { 2047 } else { 2048 };
            let range = random.pick(&[2, 60, 70, 130, 400, end]);
            let count = random.between(0, (Size::SMALL.nodes - 10) / (kind.size + 1));
            let names: Vec<u16> = (0..count).map(|_| random.below(range) as u16).collect();
            let least = (0..).find(|name| !names.contains(name)).expect("a number");
            takes(Size::SMALL, kind, &structure(kind, &names), least);
            takes(Size::SMALL, kind, &body(Size::SMALL, kind, &names), least);
            tried += 2;
        }
    });
    println!("{tried} threads");
}

/// A run beside 700 shuffled variables: each of 500 fresh nodes takes the number above them, of which no occurrence is left.
#[test]
fn a_run_beside_many() {
    let names = Random::new(4).shuffled(700);
    let nested = (0..500).fold(Term::Bound(0), |part, _| fresh(part));
    let program: Program = vec![application(structure(&VARIABLES, &names), nested)];
    let end = vec![application(structure(&VARIABLES, &names), Term::Free(700))];
    assert_eq!(program_size(&program), 1905);
    let lengths = Lengths::for_nodes(Size::SMALL.nodes);
    let (stop, table) = at_both(|library| {
        let mut table = OwnTable::within(&program, lengths);
        let mut work = OwnTable::empty(lengths);
        let stop = (library.run)(table.lent_mut(), 1905, work.lent_mut(), 10_000);
        (stop.expect("a run"), table)
    });
    assert_eq!((stop.steps, stop.counts.fresh), (500, 500));
    assert_eq!(read_table(Size::SMALL, table.lent(), stop.nodes), Ok(end));
}
