//! The archive needs `memcpy` and `memset` from outside and nothing else, as the header says: c/alone.c, which has these two alone, is linked with
//! it, without a C library.

mod in_c;

const SOURCE: &str = "rust/tests/c/alone.c";

/// No library and no start files: the program is linked, and not run.
const ALONE: [&str; 6] = [
    "-std=c11",
    "-ffreestanding",
    "-fno-stack-protector",
    "-nostdlib",
    "-static",
    "-Wl,-e,main",
];

#[test]
fn with_two_functions() {
    let _linked = in_c::for_this_machine(SOURCE, &ALONE);
}

#[test]
fn with_two_functions_for_the_switch() {
    let _linked = in_c::for_the_switch(SOURCE, &ALONE);
}
