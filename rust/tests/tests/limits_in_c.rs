//! The constants and the calls of the header agree, at both sizes: just inside each limit and just outside it, told by c/limits.c.

mod in_c;

use std::process::Command;

const SOURCE: &str = "rust/tests/c/limits.c";

/// The nodes of each size, and the flags by which c/size.h takes its calls.
const SIZES: [(usize, &[&str]); 2] = [(16_384, &["-std=c11"]), (2_048, &["-std=c11", "-DSMALL"])];

/// What c/limits.c prints at the size of so many nodes.
fn expected(nodes: usize) -> String {
    let less = nodes - 1;
    format!(
        "\
read full: {nodes}, refusal 0
written: the same, refusal 0
step: {less}, rule 3, refusal 0
one more: 0, refusal 7
table of more: write 1, step 1, run 1, standing 1, thread of 0
full result, step: {nodes}, refusal 0
full result, run: 4 steps, reason 1, refusal 0
result of more, step: 0, refusal 7
result of more, run: 0 steps, reason 3, refusal 0
x last: 3, refusal 0
x beyond: 0, refusal 5
L last: 4, refusal 0
L beyond: 0, refusal 5
v last: 0, refusal 6
v beyond: 0, refusal 5
c last: 3, refusal 0
c beyond: 0, refusal 5
text full: 0, refusal 3
text beyond: 0, refusal 2
2,046 fresh: 2049, small read 7, small standing 1
4,913 fresh: 4916, small read 7, small standing 1
4,914 fresh: 4917, small read 2, small standing 1
x2048: 3, small read 5, small standing 1
L2048: 4, small read 5, small standing 1
"
    )
}

fn prints(mut program: Command, nodes: usize) {
    let output = program.output().unwrap();
    assert!(output.status.success());
    let printed = String::from_utf8_lossy(&output.stdout);
    assert_eq!(printed, expected(nodes));
}

#[test]
fn in_c() {
    for (nodes, flags) in SIZES {
        prints(in_c::for_this_machine(SOURCE, flags)(), nodes);
    }
}

#[test]
fn in_c_for_the_switch() {
    for (nodes, flags) in SIZES {
        if let Some(program) = in_c::for_the_switch(SOURCE, flags) {
            prints(program(), nodes);
        }
    }
}
