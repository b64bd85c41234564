//! Times of calls, and how they are written.

use std::time::{Duration, Instant};

/// The least time of a call, over rounds for about a second: other work of the machine makes single ones longer.
pub fn least(prepare: impl FnMut(), mut call: impl FnMut(&mut dyn FnMut())) -> Duration {
    let [time] = least_of_each([()], prepare, |(), done| call(done));
    time
}

/// The least time of a call in each of several ways, by turns, so that what else the machine does meets all of them: about a second each.
pub fn least_of_each<Way: Copy, const N: usize>(
    ways: [Way; N],
    mut prepare: impl FnMut(),
    mut call: impl FnMut(Way, &mut dyn FnMut()),
) -> [Duration; N] {
    let least = least_rounds(&ways, Duration::from_secs(N as u64), |way| {
        prepare();
        let mut took = Duration::ZERO;
        let watch = Watch::start();
        call(way, &mut || took = watch.time());
        took
    });
    least.try_into().expect("a time for each way")
}

/// The least that a round tells of each way, by turns for so long.
fn least_rounds<Way: Copy>(
    ways: &[Way],
    at_least: Duration,
    mut round: impl FnMut(Way) -> Duration,
) -> Vec<Duration> {
    let begin = Instant::now();
    let mut best = vec![Duration::MAX; ways.len()];
    let mut rounds = 0;
    while rounds < 5 || begin.elapsed() < at_least {
        for (way, best) in ways.iter().zip(&mut best) {
            *best = round(*way).min(*best);
        }
        rounds += 1;
    }
    best
}

/// How long rounds are made before they are looked at, and how often at most.
const LOOK: Duration = Duration::from_millis(750);
const LOOKS: usize = 6;

/// The same until it is steady, none half a percent less than before: for times of which differences are taken.
pub fn steady_least<Way: Copy>(
    ways: &[Way],
    mut round: impl FnMut(Way) -> Duration,
) -> Vec<Duration> {
    let mut best = least_rounds(ways, LOOK, &mut round);
    for _ in 1..LOOKS {
        let again = least_rounds(ways, LOOK, &mut round);
        let mut steady = true;
        for (best, again) in best.iter_mut().zip(again) {
            steady &= ratio(again, *best) > 0.995;
            *best = again.min(*best);
        }
        if steady {
            break;
        }
    }
    best
}

/// How long the work takes.
pub fn taken(work: impl FnOnce()) -> Duration {
    let watch = Watch::start();
    work();
    watch.time()
}

/// From here a call is interrupted where the machine has other work, in every round.
const LONG: Duration = Duration::from_millis(2);

/// The time since a start: of a long call this thread's own share of it, which is told some microseconds too low and so is none for short ones.
struct Watch {
    own: Duration,
    begin: Instant,
}

impl Watch {
    fn start() -> Watch {
        Watch {
            own: own_time(),
            begin: Instant::now(),
        }
    }

    fn time(&self) -> Duration {
        let whole = self.begin.elapsed();
        if whole < LONG {
            whole
        } else {
            own_time() - self.own
        }
    }
}

/// Seconds and nanoseconds, as C's clock_gettime writes them on Linux with 64 bits.
#[repr(C)]
struct TimeSpec {
    seconds: i64,
    nanoseconds: i64,
}

extern "C" {
    fn clock_gettime(clock: i32, time: *mut TimeSpec) -> i32;
}

/// How long this thread has been at work, without what it waited.
fn own_time() -> Duration {
    const OF_THIS_THREAD: i32 = 3;
    let mut time = TimeSpec {
        seconds: 0,
        nanoseconds: 0,
    };
    // SAFETY: the pointer is to memory of that form, which the call writes before it returns
    let status = unsafe { clock_gettime(OF_THIS_THREAD, &mut time) };
    assert_eq!(status, 0, "the clock of this thread");
    Duration::new(time.seconds as u64, time.nanoseconds as u32)
}

pub fn ratio(a: Duration, b: Duration) -> f64 {
    a.as_secs_f64() / b.as_secs_f64()
}

pub fn time(d: Duration) -> String {
    let us = d.as_secs_f64() * 1e6;
    if us < 1000.0 {
        format!("{us:.1} µs")
    } else {
        format!("{:.2} ms", us / 1000.0)
    }
}

/// With one more place where that tells more.
pub fn fine_time(d: Duration) -> String {
    let us = d.as_secs_f64() * 1e6;
    if us < 10.0 {
        format!("{us:.2} µs")
    } else {
        time(d)
    }
}

pub fn thousands(n: usize) -> String {
    if n < 1000 {
        n.to_string()
    } else {
        format!("{},{:03}", n / 1000, n % 1000)
    }
}
