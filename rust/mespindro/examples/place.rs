//! Places tenants on ports: reads a rule set from a file (rules/leaf-48.csexp is one), runs it, and prints a line for each alternative of its
//! end. The same as examples/place.c, over the Rust binding.
//!
//! Its exit status is 0 where there is an alternative and every one is a placement. A switch that is to be configured from this output must not go on otherwise.

use std::process::ExitCode;

use mespindro::kind::{APPLICATION, CONSTRUCTOR};
// a leaf's rule set fits the small size; for a larger one take these from the crate itself
use mespindro::small::{read, run, standing, thread, COLUMN, TABLE};
use mespindro::{Reason, Refusal, Standing, Table, TableMut};

/// The numbers of the rule sets in rules/.
const PLACEMENT: u16 = 3;
const PORTS: u16 = 5000;
const TENANTS: u16 = 6000;
const RANGE: u16 = 1000;

const STEP_LIMIT: u32 = 10_000;

fn refused(call: &str, refusal: Refusal) -> bool {
    let (number, name) = (refusal.number(), refusal.name());
    println!("{call} refused, {number}: {name}");
    false
}

/// A port or a tenant is numbered from its range's base; a small number stands for itself.
fn plain(constructor: u16, base: u16) -> u16 {
    match constructor.checked_sub(base) {
        Some(number) if number < RANGE => number,
        _ => constructor,
    }
}

/// Tenant, port and VLAN of (a (a (a PLACEMENT tenant) port) vlan), if the thread is that.
fn placement(nodes: &[u16]) -> Option<(u16, u16, u16)> {
    const A: u16 = APPLICATION;
    const C: u16 = CONSTRUCTOR;
    match *nodes {
        [A, _, A, _, A, _, C, PLACEMENT, C, tenant, C, port, C, vlan] => {
            Some((plain(tenant, TENANTS), plain(port, PORTS), vlan))
        }
        _ => None,
    }
}

/// An answer is built of constructors alone: what is left to ask is whether it has a placement's shape.
fn print_thread(k: usize, standing: Standing, nodes: &[u16]) -> bool {
    match (standing, placement(nodes)) {
        (Standing::Answer, Some((tenant, port, vlan))) => {
            println!("tenant {tenant} -> port {port}, VLAN {vlan}");
            return true;
        }
        (Standing::Answer, None) => {
            println!("thread {k}: an answer, but no placement of tenant, port and VLAN")
        }
        (Standing::Partial, _) => {
            println!("thread {k}: partial, something in it is undecided or still a rule")
        }
        (Standing::Stuck, _) => println!("thread {k}: stuck, no rule applies"),
        (Standing::Open, _) => println!("thread {k}: open, there was more to do"),
    }
    false
}

/// Prints every thread of the program in the table; true where there is one and all are placements.
fn print_threads(table: Table<'_>, count: usize) -> bool {
    let mut all = true;
    let mut k = 0;
    loop {
        match standing(table, count, k) {
            Ok(standing) => all &= print_thread(k, standing, thread(table, count, k)),
            Err(Refusal::NoThread) => break,
            Err(refusal) => return refused("standing", refusal),
        }
        k += 1;
    }
    if k == 0 {
        println!("no alternative is left: the request cannot be met");
    }
    all && k > 0
}

fn place(text: &[u8]) -> bool {
    let (mut numbers, mut column) = ([0; TABLE], [0; COLUMN]);
    let (mut work, mut work_column) = ([0; TABLE], [0; COLUMN]);
    let mut table = TableMut::new(&mut numbers, &mut column);
    let work = TableMut::new(&mut work, &mut work_column);
    let count = match read(text, table.reborrow()) {
        Ok(count) => count,
        Err(refusal) => return refused("read", refusal),
    };
    let stop = match run(table.reborrow(), count, work, STEP_LIMIT) {
        Ok(stop) => stop,
        Err(refusal) => return refused("run", refusal),
    };
    let steps = stop.steps;
    match stop.reason {
        Reason::Ended => {}
        Reason::Steps => println!("stopped after {steps} steps: not ended"),
        Reason::Room => println!("stopped after {steps} steps for want of room: not ended"),
    }
    if stop.reason != Reason::Ended {
        println!("  {}", stop.counts);
    }
    print_threads(table.as_table(), stop.nodes) && stop.reason == Reason::Ended
}

fn main() -> ExitCode {
    let arguments: Vec<String> = std::env::args().skip(1).collect();
    let [file] = arguments.as_slice() else {
        eprintln!("place FILE");
        return ExitCode::from(2);
    };
    match std::fs::read(file) {
        Ok(text) if place(&text) => ExitCode::SUCCESS,
        Ok(_) => ExitCode::from(1),
        Err(error) => {
            eprintln!("{file}: {error}");
            ExitCode::from(2)
        }
    }
}
