//! The tests of Mespindro: an independent evaluator, a baseline for the speed, and what compares the proved library with both.

pub mod baseline;
pub mod beside;
pub mod calls;
pub mod compare;
pub mod damage;
pub mod evaluator;
pub mod generate;
pub mod lending;
pub mod library;
pub mod one_a_line;
pub mod progress;
pub mod random;
pub mod short;
pub mod shrink;

/// Runs the work in a thread whose stack holds any nesting, of the library and of the evaluator.
pub fn on_big_stack<T: Send>(work: impl FnOnce() -> T + Send) -> T {
    std::thread::scope(|scope| {
        let thread = std::thread::Builder::new().stack_size(512 << 20);
        let running = thread.spawn_scoped(scope, work).expect("a thread starts");
        running
            .join()
            .unwrap_or_else(|panic| std::panic::resume_unwind(panic))
    })
}
