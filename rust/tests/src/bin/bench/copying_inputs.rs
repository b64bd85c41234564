//! The inputs on which the library is held against the baseline that copies.

use crate::inputs::{
    alternatives, applied, chain, doubling, equal_structures, goal, one_thread, rules, structure,
    variable_structure, with_column, Node,
};
use mespindro_tests::evaluator::table::OwnTable;
use mespindro_tests::evaluator::Size;

/// What a row is there for.
#[derive(Clone, Copy, PartialEq, Eq)]
pub enum Family {
    /// One unification over long structures.
    Long,
    /// A run of many unifications, checked once.
    Run,
    /// The tower D(n), whose unifier doubles at each of n variables.
    Doubling(u16),
    /// One unification by the library alone: no copy holds it, or its links are the longest.
    Alone,
}

/// A run that is measured, with the calls of its size.
pub struct Input {
    pub name: String,
    pub family: Family,
    pub size: Size,
    pub program: OwnTable,
}

impl Input {
    /// With the small calls where it fits them.
    fn new(name: &str, family: Family, numbers: Vec<u16>) -> Input {
        let program = with_column(numbers);
        let small = program.nodes() <= Size::SMALL.nodes;
        Input {
            name: name.to_string(),
            family,
            size: if small { Size::SMALL } else { Size::LARGE },
            program,
        }
    }

    /// How many steps a call on it may make, and one that has nothing to do: a whole run is kept from its steps by the limit.
    pub fn most(&self, idle: bool) -> u32 {
        match self.family {
            Family::Run if idle => 0,
            Family::Run => 10_000,
            _ => 1,
        }
    }

    /// The same nodes with nothing to do. In a single step guards and unifications are made applications: the search then passes all nodes, as it
    /// does after the step.
    pub fn idle(&self) -> OwnTable {
        let mut idle = self.program.clone();
        if self.family != Family::Run {
            for node in idle.numbers.chunks_exact_mut(2) {
                if matches!(node[0], 9 | 10) {
                    node[0] = 7;
                }
            }
        }
        idle
    }
}

pub fn inputs() -> Vec<Input> {
    let mut inputs = long();
    inputs.extend(runs());
    inputs.extend(towers());
    inputs.extend(alone());
    inputs
}

fn long() -> Vec<Input> {
    let long = |name: &str, numbers| Input::new(name, Family::Long, numbers);
    let mut inputs = vec![
        long(
            "two equal structures of 500 arguments",
            equal_structures(500),
        ),
        long(
            "a structure against one of 499 variables",
            variable_structure(499),
        ),
        long(
            "200 arguments of three nodes against variables",
            threes_against_variables(200),
        ),
    ];
    for (nodes, times) in [(201, 1), (201, 2), (201, 8), (801, 1), (801, 2), (41, 40)] {
        let name = format!("a value of {nodes} nodes, used {}", so_often(times));
        inputs.push(long(&name, used(wide(nodes), times)));
    }
    for (nodes, times) in [(801, 1), (201, 8)] {
        let name = format!("a list of {nodes} nodes, used {}", so_often(times));
        inputs.push(long(&name, used(list(nodes), times)));
    }
    inputs.push(long(
        "x0 = c1 before 1,801 nodes of constructors",
        small_goal_before(structure(900, |_| (4, 2))),
    ));
    inputs.push(long(
        "x0 = c1 before 900 variables",
        small_goal_before(structure(900, |i| (3, i + 1))),
    ));
    inputs
}

fn so_often(times: u16) -> String {
    match times {
        1 => "once".to_string(),
        2 => "twice".to_string(),
        _ => format!("{times} times"),
    }
}

fn runs() -> [Input; 8] {
    let run = |name: &str, numbers| Input::new(name, Family::Run, numbers);
    [
        run("48 ports (rules/leaf-48)", rules("leaf-48")),
        run(
            "40 alternatives over a list of 20 placements, which is handed on",
            handed_list(40, 20),
        ),
        run("6 alternatives over a list of 20 placements", listed(6, 20)),
        run(
            "40 alternatives over a list of 20 placements (large calls)",
            listed(40, 20),
        ),
        run("12 goals over structures of 40 arguments", goals(12, 40)),
        run("20 goals over structures of 24 arguments", goals(20, 24)),
        run(
            "20 goals over structures of 40 arguments (large calls)",
            goals(20, 40),
        ),
        run(
            "340 alternatives, each with a variable of its own",
            alternatives(340),
        ),
    ]
}

/// The towers that both sides take.
fn towers() -> [Input; 8] {
    let tower = |n| Input::new(&format!("D({n})"), Family::Doubling(n), doubling(n));
    [4, 6, 8, 10, 12, 14, 16, 18].map(tower)
}

fn alone() -> [Input; 2] {
    [
        Input::new("D(255)", Family::Alone, doubling(255)),
        Input::new(
            "a chain of 499 variables, the last first",
            Family::Alone,
            chain(499),
        ),
    ]
}

// ---- One unification.

/// c1 applied to k times `(a c2 c3)`, against c1 applied to k variables.
fn threes_against_variables(k: u16) -> Vec<u16> {
    let three: &[Node] = &[(7, 0), (4, 2), (4, 3)];
    let left = applied((4, 1), &vec![three; k as usize]);
    one_thread(&goal(left, structure(k, |i| (3, i))))
}

/// A structure of constructors with so many nodes: nested on the left.
fn wide(nodes: u16) -> Vec<Node> {
    structure((nodes - 1) / 2, |_| (4, 2))
}

/// `(a (a c1 c2) (a (a c1 c2) .. c3))` with so many nodes: nested on the right.
fn list(nodes: usize) -> Vec<Node> {
    let mut list = [(7, 0), (7, 0), (4, 1), (4, 2)].repeat((nodes - 1) / 4);
    list.push((4, 3));
    list
}

/// `(g (u x0 V) S)`, where S is a structure with x0 in so many places.
fn used(value: Vec<Node>, times: u16) -> Vec<u16> {
    before(goal(vec![(3, 0)], value), structure(times, |_| (3, 0)))
}

fn small_goal_before(part: Vec<Node>) -> Vec<u16> {
    before(goal(vec![(3, 0)], vec![(4, 1)]), part)
}

/// `(g G T)`.
fn before(goal: Vec<Node>, part: Vec<Node>) -> Vec<u16> {
    one_thread(&[vec![(9, 0)], goal, part].concat())
}

// ---- Runs.

/// `(g (u S1 S2) (g (u S3 S4) .. c1))`: k variables of its own against those of the goal before it, which have become constructors by then.
fn goals(n: u16, k: u16) -> Vec<u16> {
    let variables = |j: u16| structure(k, |i| (3, j * k + i));
    let mut nodes = Vec::new();
    for j in 0..n {
        let known = match j {
            0 => structure(k, |_| (4, 2)),
            _ => variables(j - 1),
        };
        nodes.push((9, 0));
        nodes.extend(goal(variables(j), known));
    }
    nodes.push((4, 1));
    one_thread(&nodes)
}

/// What a list is built of, and what ends it.
const LIST: Node = (4, 7003);
const NONE: Node = (4, 7004);

/// `(a (a list E) (a (a list E) .. none))`.
fn list_of(elements: impl Iterator<Item = Vec<Node>>) -> Vec<Node> {
    let mut nodes = Vec::new();
    for element in elements {
        nodes.extend([(7, 0), (7, 0), LIST]);
        nodes.extend(element);
    }
    nodes.push(NONE);
    nodes
}

/// n times a tenant on a port with a VLAN.
fn placements(n: u16) -> Vec<Node> {
    list_of((0..n).map(|i| {
        let parts = [6001 + i % 3, 5001 + i, 101 + i % 4].map(|c| [(4, c)]);
        applied((4, 3), &[&parts[0], &parts[1], &parts[2]])
    }))
}

/// n bound variables, the one with this index last.
fn pattern(n: u16, last: u16) -> Vec<Node> {
    list_of((0..n).rev().map(|i| vec![(2, last + i)]))
}

/// `(a (a (a c5 X) Y) Z)`, three of n bound variables by the alternative's number; the last has this index.
fn three_of(n: u16, last: u16, number: u16) -> Vec<Node> {
    let parts = [number, number + 7, number + 14].map(|i| [(2, last + i % n)]);
    applied((4, 5), &[&parts[0], &parts[1], &parts[2]])
}

/// `(a (l (A1 .. Am)) LIST)`, each alternative `(n .. (n (g (u b PATTERN) T)))` with n fresh variables, of which T has three.
fn listed(m: u16, n: u16) -> Vec<u16> {
    let mut nodes = vec![(7, 0), (5, 0)];
    for number in 0..m {
        nodes.push((1, 0));
        nodes.extend(vec![(8, 0); n as usize]);
        nodes.push((9, 0));
        nodes.extend(goal(vec![(2, n)], pattern(n, 0)));
        nodes.extend(three_of(n, 0, number));
    }
    nodes.push((0, 0));
    nodes.extend(placements(n));
    one_thread(&nodes)
}

/// The same with more alternatives than hold a list each: the n variables are made once, and the list and the pattern are handed on from choice
/// to choice, `(a (a (l ((l ((g (u b1 b0) T) REST)))) LIST) PATTERN)`, where REST is the next one, with b1 and b0 for both.
fn handed_list(m: u16, n: u16) -> Vec<u16> {
    let mut nodes = vec![(8, 0); n as usize];
    for number in 0..m {
        nodes.extend([(7, 0), (7, 0), (5, 0), (1, 0), (5, 0), (1, 0), (9, 0)]);
        nodes.extend(goal(vec![(2, 1)], vec![(2, 0)]));
        // two binders more at each choice
        nodes.extend(three_of(n, 2 * (number + 1), number));
        if number + 1 < m {
            nodes.push((1, 0));
        }
    }
    for _ in 1..m {
        nodes.extend([(0, 0), (0, 0), (2, 1), (2, 0)]);
    }
    nodes.extend([(0, 0), (0, 0)]);
    nodes.extend(placements(n));
    nodes.extend(pattern(n, 0));
    one_thread(&nodes)
}
