//! The inputs of the benchmark, built from code.

use mespindro_tests::evaluator::table::{write_table, OwnTable};
use mespindro_tests::evaluator::text::read_text;
use mespindro_tests::evaluator::Size;
use mespindro_tests::random::Random;
use std::path::Path;

/// A run that is measured; where the evaluator cannot take the input in a bearable time, the library alone.
pub struct Case {
    pub name: &'static str,
    pub table: OwnTable,
    pub most: u32,
    pub alone: bool,
}

/// The numbers of a program with its column.
pub fn with_column(numbers: Vec<u16>) -> OwnTable {
    let count = numbers.len() / 2;
    let table = OwnTable::of_numbers(&numbers, count);
    assert_eq!(table.nodes(), count, "a program");
    table
}

/// Kind and number.
pub type Node = (u16, u16);

pub fn cases() -> Vec<Case> {
    let case = |name, table, most| Case {
        name,
        table: with_column(table),
        most,
        alone: false,
    };
    let mut cases = vec![
        case(
            "a structure of 1,999 nodes: nothing to do",
            plain_structure(),
            1,
        ),
        case(
            "the same with 499 variables: nothing to do",
            one_thread(&structure(999, |i| if i < 499 { (3, i) } else { (4, 2) })),
            1,
        ),
        case(
            "two equal structures of 1,000 nodes unified",
            equal_structures(499),
            1,
        ),
        case(
            "a structure of 1,000 nodes against one of variables",
            variable_structure(499),
            1,
        ),
        case("a doubling unifier, 11 levels", doubling(11), 1),
        case(
            "340 alternatives, each with a variable of its own",
            alternatives(340),
            10_000,
        ),
        case("2,045 nested fresh variables", nested_fresh(2045), 10_000),
        case(
            "700 shuffled variables and 500 nested fresh nodes",
            new_beside(700, 500),
            10_000,
        ),
        case(
            "1,022 guards, nested on the right",
            nested_guards(1022),
            10_000,
        ),
        case(
            "80 guards before a value of 20 closures of 90 nodes",
            guards_before_closures(80, 20),
            10_000,
        ),
        case(
            "endless beta behind a structure, a full table",
            endless(true),
            10_000,
        ),
        case(
            "endless beta before a structure, a full table",
            endless(false),
            10_000,
        ),
        case("endless beta, 15 nodes", endless_small(), 10_000),
        case(
            "a constructor put in below 30 fresh nodes, again and again",
            one_thread(&handed_on(&below_fresh(30), &[(4, 1)])),
            10_000,
        ),
        case(
            "a chain of 254 links asked 254 times",
            one_thread(&asked_chain(254, None)),
            1,
        ),
        case(
            "two equal nests of 339 closures: nothing to do",
            equal_nests(339),
            1,
        ),
    ];
    for (name, file) in [
        ("two tenants (rules/two-tenants)", "two-tenants"),
        ("48 ports (rules/leaf-48)", "leaf-48"),
    ] {
        cases.push(case(name, rules(file), 10_000));
    }
    cases.extend(alone_cases());
    cases
}

/// Inputs whose unifier no evaluator that copies can hold, or on which the library is slowest.
fn alone_cases() -> Vec<Case> {
    let case = |name, table, most| Case {
        name,
        table: with_column(table),
        most,
        alone: true,
    };
    vec![
        case("a doubling unifier, 255 levels", doubling(255), 1),
        case("a chain of 499 variables, the last first", chain(499), 1),
        case(
            "a closure of 1,927 nodes put in below 30 fresh nodes",
            one_thread(&handed_on(&below_fresh(30), &deep_closure(1923))),
            10_000,
        ),
        case(
            "a closure of 1,852 nodes moved along 10 fresh variables",
            one_thread(&handed_on(&along_variables(10), &deep_closure(1848))),
            10_000,
        ),
        case(
            "a constructor put in at 320 places, again and again",
            one_thread(&handed_on(&in_many_places(320), &[(4, 1)])),
            10_000,
        ),
        case(
            "a failing chain of 83 links asked 83 times, again and again",
            failing_chain(83),
            10_000,
        ),
        case(
            "30 new variables beside 900 others, again and again",
            beside_variables(900, &handed_on(&below_fresh(30), &[(4, 1)])),
            10_000,
        ),
    ]
}

/// A program of one thread.
pub fn one_thread(nodes: &[Node]) -> Vec<u16> {
    let mut table = vec![1, 0];
    for &(kind, number) in nodes {
        table.extend([kind, number]);
    }
    table.extend([0, 0]);
    table
}

/// c1 applied to k elements.
pub fn structure(k: u16, element: impl Fn(u16) -> Node) -> Vec<Node> {
    let mut nodes = vec![(7, 0); k as usize];
    nodes.push((4, 1));
    nodes.extend((0..k).map(element));
    nodes
}

pub fn goal(left: Vec<Node>, right: Vec<Node>) -> Vec<Node> {
    let mut nodes = vec![(10, 0)];
    nodes.extend(left);
    nodes.extend(right);
    nodes
}

pub fn equal_structures(k: u16) -> Vec<u16> {
    one_thread(&goal(structure(k, |_| (4, 2)), structure(k, |_| (4, 2))))
}

pub fn variable_structure(k: u16) -> Vec<u16> {
    one_thread(&goal(structure(k, |_| (4, 2)), structure(k, |i| (3, i))))
}

/// The tower D(n): the variable n has 2^(n+2) - 3 nodes.
pub fn doubling(n: u16) -> Vec<u16> {
    let mut right = vec![(7, 0); n as usize];
    right.push((4, 9));
    for i in 0..n {
        right.extend([(7, 0), (7, 0), (4, 8), (3, i), (3, i)]);
    }
    let mut left = vec![(7, 0); n as usize];
    left.push((4, 9));
    left.extend((1..=n).map(|i| (3, i)));
    one_thread(&goal(left, right))
}

/// Each variable against the next smaller one, from the last on: the links make one long chain.
pub fn chain(n: u16) -> Vec<u16> {
    one_thread(&goal(
        structure(n, |i| (3, n - i)),
        structure(n, |i| (3, n - i - 1)),
    ))
}

/// `(g (u x0 cI) x0)` for each I.
pub fn alternatives(n: u16) -> Vec<u16> {
    let mut table = Vec::new();
    for i in 0..n {
        table.extend([1, 0, 9, 0, 10, 0, 3, 0, 4, i, 3, 0]);
    }
    table.extend([0, 0]);
    table
}

fn nested_fresh(n: usize) -> Vec<u16> {
    let mut nodes = vec![(8, 0); n];
    nodes.push((4, 1));
    one_thread(&nodes)
}

/// A structure of the first k variables in any order, applied to the part: each new name there is looked for beyond all k.
fn beside_variables(k: u16, part: &[Node]) -> Vec<u16> {
    let names = Random::new(4).shuffled(k);
    let mut nodes = vec![(7, 0)];
    nodes.extend(structure(k, |i| (3, names[i as usize])));
    nodes.extend(part);
    one_thread(&nodes)
}

/// Nested fresh nodes beside the first k variables.
fn new_beside(k: u16, fresh: usize) -> Vec<u16> {
    beside_variables(k, &[vec![(8, 0); fresh], vec![(4, 1)]].concat())
}

fn nested_guards(n: usize) -> Vec<u16> {
    let mut nodes = [(9, 0), (4, 2)].repeat(n);
    nodes.push((4, 1));
    one_thread(&nodes)
}

/// `(g c0 (g c0 .. V))`, where V is c9 applied to k closures of 90 nodes, each with a location of its own: a search that walks bodies walks
/// them all at each step.
fn guards_before_closures(n: usize, k: u16) -> Vec<u16> {
    let closure = |location: u16| {
        let mut nodes = vec![(6, location), (1, 0)];
        nodes.extend(structure(43, |_| (4, 2)));
        nodes.push((0, 0));
        nodes
    };
    let closures: Vec<Vec<Node>> = (0..k).map(closure).collect();
    let closures: Vec<&[Node]> = closures.iter().map(|c| &c[..]).collect();
    let mut nodes = [(9, 0), (4, 0)].repeat(n);
    nodes.extend(applied((4, 9), &closures));
    one_thread(&nodes)
}

/// `(a W W)` with W = `(L 0 ((a b0 b0)))`: steps to itself.
fn self_application() -> Vec<Node> {
    let w = [(6, 0), (1, 0), (7, 0), (2, 0), (2, 0), (0, 0)];
    let mut nodes = vec![(7, 0)];
    nodes.extend(w);
    nodes.extend(w);
    nodes
}

fn endless_small() -> Vec<u16> {
    one_thread(&self_application())
}

/// The same beside a structure that fills the table.
fn endless(behind: bool) -> Vec<u16> {
    let big = structure(1014, |_| (4, 2));
    let mut nodes = vec![(7, 0)];
    if behind {
        nodes.extend(big);
        nodes.extend(self_application());
    } else {
        nodes.extend([(7, 0), (4, 9)]);
        nodes.extend(self_application());
        nodes.extend(structure(1013, |_| (4, 2)));
    }
    one_thread(&nodes)
}

pub fn rules(name: &str) -> Vec<u16> {
    let file = Path::new(env!("CARGO_MANIFEST_DIR"))
        .join("../../rules")
        .join(name)
        .with_extension("csexp");
    let text = std::fs::read(file).expect("a rule set is there");
    write_table(&read_text(Size::SMALL, &text).expect("a rule set is read"))
}

/// A structure of 1,999 nodes, alone in its program.
pub fn plain_structure() -> Vec<u16> {
    one_thread(&structure(999, |_| (4, 2)))
}

/// The longest text of a program: a structure of so many large constructors.
pub fn long_structure(k: u16) -> Vec<u16> {
    one_thread(&structure(k, |i| (4, 60_000 + i % 5_000)))
}

/// `((n (g (u b0 c1) b0)))`, 8 nodes.
pub fn tiny() -> Vec<u16> {
    one_thread(&[(8, 0), (9, 0), (10, 0), (2, 0), (4, 1), (2, 0)])
}

/// A run of the small size, and one of the same kind with about eight times the nodes.
pub struct Growing {
    pub name: &'static str,
    pub small: OwnTable,
    pub large: OwnTable,
    pub most: u32,
}

pub fn growing() -> Vec<Growing> {
    let pair = |name, small, large, most| Growing {
        name,
        small: with_column(small),
        large: with_column(large),
        most,
    };
    vec![
        pair(
            "1,022 and 8,190 guards, nested on the right",
            nested_guards(1022),
            nested_guards(8190),
            10_000,
        ),
        pair(
            "two equal structures of 1,000 and 8,000 nodes unified",
            equal_structures(499),
            equal_structures(3999),
            1,
        ),
        pair(
            "a structure of 1,000 and 8,000 nodes against one of variables",
            variable_structure(499),
            variable_structure(3999),
            1,
        ),
        pair(
            "a doubling unifier, 255 and 2,040 levels",
            doubling(255),
            doubling(2040),
            1,
        ),
        pair(
            "a chain of 499 and 3,999 variables, the last first",
            chain(499),
            chain(3999),
            1,
        ),
        pair(
            "two equal nests of 339 and 2,729 closures: nothing to do",
            equal_nests(339),
            equal_nests(2729),
            1,
        ),
        pair(
            "100 new variables beside 700 and 5,600 shuffled ones",
            new_beside(700, 500),
            new_beside(5600, 4000),
            100,
        ),
    ]
}

/// `(a (a (a c3 c6001) c5001) c101)`, so many times.
pub fn placements(n: usize) -> Vec<u16> {
    let mut table = Vec::new();
    for _ in 0..n {
        table.extend([1, 0, 7, 0, 7, 0, 7, 0]);
        table.extend([4, 3, 4, 6001, 4, 5001, 4, 101]);
    }
    table.extend([0, 0]);
    table
}

/// The head applied to each part in turn.
pub fn applied(head: Node, parts: &[&[Node]]) -> Vec<Node> {
    let mut nodes = vec![(7, 0); parts.len()];
    nodes.push(head);
    nodes.extend(parts.concat());
    nodes
}

/// `xN = xN-1, .., x1 = x0`, and then n times `xN = xN`: the last variable's links are followed each time. With two constructors at last.
fn asked_chain(n: u16, last: Option<(u16, u16)>) -> Vec<Node> {
    let side = |less: u16, last: Option<u16>| {
        let mut parts: Vec<[Node; 1]> = (1..=n).rev().map(|i| [(3, i - less)]).collect();
        parts.extend((0..n).map(|_| [(3, n)]));
        parts.extend(last.map(|c| [(4, c)]));
        let parts: Vec<&[Node]> = parts.iter().map(|p| &p[..]).collect();
        applied((4, 9), &parts)
    };
    goal(side(0, last.map(|c| c.0)), side(1, last.map(|c| c.1)))
}

/// `(a W W)` with W = `(L 0 (G (a b0 b0)))`, where the goal G is a chain that is asked and fails at last.
fn failing_chain(n: u16) -> Vec<u16> {
    let mut w = vec![(6, 0), (1, 0)];
    w.extend(asked_chain(n, Some((1, 2))));
    w.extend([(1, 0), (7, 0), (2, 0), (2, 0), (0, 0)]);
    let mut nodes = vec![(7, 0)];
    nodes.extend(&w);
    nodes.extend(&w);
    one_thread(&nodes)
}

/// `(a (a c1 N) N)` with N = `(L n-1 ((L n-2 (.. (L 0 (c1)) ..))))`.
fn equal_nests(n: u16) -> Vec<u16> {
    let mut nest: Vec<Node> = (0..n).rev().flat_map(|l| [(6, l), (1, 0)]).collect();
    nest.push((4, 1));
    nest.extend(vec![(0, 0); n as usize]);
    one_thread(&applied((4, 1), &[&nest, &nest]))
}

/// `(L 7 ((n (n .. c1))))`.
fn deep_closure(n: usize) -> Vec<Node> {
    let mut nodes = vec![(6, 7), (1, 0)];
    nodes.extend(vec![(8, 0); n]);
    nodes.extend([(4, 1), (0, 0)]);
    nodes
}

/// `(a (a F F) V)` with F = `(L 0 ((l (body))))`, where the body ends in `(a (a F F) V)`: V is handed on for ever.
fn handed_on(body: &[Node], v: &[Node]) -> Vec<Node> {
    let mut f = vec![(6, 0), (1, 0), (5, 0), (1, 0)];
    f.extend(body);
    f.extend([(0, 0), (0, 0)]);
    let mut nodes = vec![(7, 0), (7, 0)];
    nodes.extend(&f);
    nodes.extend(&f);
    nodes.extend(v);
    nodes
}

/// `(a (a F F) V)` below k fresh nodes.
fn below_fresh(k: u16) -> Vec<Node> {
    let mut nodes = vec![(8, 0); k as usize];
    nodes.extend([(7, 0), (7, 0), (2, k + 1), (2, k + 1), (2, k)]);
    nodes
}

/// A structure with V in k places; then `(a (a F F) V)`.
fn in_many_places(k: usize) -> Vec<Node> {
    let mut nodes = vec![(7, 0), (5, 0), (1, 0), (7, 0), (7, 0)];
    nodes.extend([(2, 2), (2, 2), (2, 1), (0, 0)]);
    nodes.extend(vec![(7, 0); k]);
    nodes.push((4, 9));
    nodes.extend(vec![(2, 0); k]);
    nodes
}

/// k fresh variables, the first unified with V and each with the one before; the last is handed on in the place of V.
fn along_variables(k: u16) -> Vec<Node> {
    let mut nodes = vec![(8, 0); k as usize];
    nodes.extend([(7, 0), (5, 0), (1, 0), (7, 0), (7, 0)]);
    nodes.extend([(2, k + 2), (2, k + 2), (2, 1), (0, 0)]);
    let goals: Vec<[Node; 3]> = (0..k)
        .rev()
        .map(|i| [(10, 0), (2, i), (2, i + 1)])
        .collect();
    let goals: Vec<&[Node]> = goals.iter().map(|g| &g[..]).collect();
    nodes.extend(applied((4, 9), &goals));
    nodes
}
