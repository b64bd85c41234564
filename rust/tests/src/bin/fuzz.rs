//! `fuzz SECONDS [SEED]`: compares the library with the evaluator and with the baseline on random inputs, at either size, for so long. Prints the
//! seed first; where two of them differ, the smallest call it finds on which they still do, and ends with status 1.

use mespindro_tests::calls::random_calls;
use mespindro_tests::compare::{compare, Call, Tally};
use mespindro_tests::evaluator::Size;
use mespindro_tests::on_big_stack;
use mespindro_tests::progress::Progress;
use mespindro_tests::random::Random;
use mespindro_tests::shrink::shrink;
use std::process::ExitCode;
use std::time::{Duration, Instant, SystemTime};

fn main() -> ExitCode {
    let numbers = std::env::args().skip(1).map(|word| word.parse::<u64>());
    let numbers: Result<Vec<u64>, _> = numbers.collect();
    let (seconds, seed) = match numbers.as_deref() {
        Ok([seconds]) => (*seconds, seed_of_now()),
        Ok([seconds, seed]) => (*seconds, *seed),
        _ => {
            eprintln!("fuzz SECONDS [SEED]");
            return ExitCode::from(2);
        }
    };
    println!("seed {seed}");
    on_big_stack(|| fuzz(Duration::from_secs(seconds), seed))
}

fn seed_of_now() -> u64 {
    let now = SystemTime::now().duration_since(SystemTime::UNIX_EPOCH);
    now.map_or(0, |past| past.as_nanos() as u64)
}

fn fuzz(time: Duration, seed: u64) -> ExitCode {
    let start = Instant::now();
    let mut random = Random::new(seed);
    let mut tally = Tally::default();
    let mut inputs = 0;
    let mut progress = Progress::on_terminal();
    while start.elapsed() < time {
        progress.each_second(|| {
            let (past, all) = (start.elapsed().as_secs(), time.as_secs());
            let compared = tally.compared();
            format!("{past} of {all} s, {inputs} inputs, {compared} compared")
        });
        let size = random.pick(&Size::BOTH);
        for call in random_calls(size, &mut random) {
            if tally.compare(size, &call).is_err() {
                progress.clear();
                println!("input {inputs}, {} nodes", size.nodes);
                report(size, shrink(size, call));
                return ExitCode::FAILURE;
            }
        }
        inputs += 1;
    }
    progress.clear();
    println!("{inputs} inputs, {tally}");
    ExitCode::SUCCESS
}

fn report(size: Size, call: Call) {
    if let Err(difference) = compare(size, &call) {
        println!("{difference}");
    }
    println!("{call:?}");
    if let Call::Read { text, .. } = &call {
        println!("text {}", text.escape_ascii());
    }
}
