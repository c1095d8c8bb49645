//! Time, interleaved.

use std::time::{Duration, Instant};

/// A round of a contender lasts about this long, or one run of it.
const ROUND: Duration = Duration::from_micros(50);

/// The least time of a call in nanoseconds, for each contender. A run of one is `calls` calls; in each
/// round they run in turn, so that a busy machine meets all of them.
pub fn least<const N: usize>(
    rounds: usize,
    calls: usize,
    mut run: [&mut dyn FnMut(); N],
) -> [f64; N] {
    let mut time = |k: usize, turns: u32| {
        let start = Instant::now();
        for _ in 0..turns {
            run[k]();
        }
        start.elapsed() / turns
    };
    let turns: [u32; N] = std::array::from_fn(|k| {
        time(k, 1); // warms
        let once = time(k, 1).max(Duration::from_nanos(1));
        (ROUND.as_nanos() / once.as_nanos()).clamp(1, 1000) as u32
    });
    let mut best = [Duration::MAX; N];
    for _ in 0..rounds {
        for k in 0..N {
            best[k] = best[k].min(time(k, turns[k]));
        }
    }
    best.map(|time| time.as_nanos() as f64 / calls as f64)
}

/// The time of a long run in nanoseconds, for each contender: of each of its parts the least over the
/// rounds, summed. Parts run in order, so that each finds the caches as a whole run leaves them.
pub fn least_of_parts<const N: usize>(
    rounds: usize,
    parts: usize,
    mut run: [&mut dyn FnMut(usize); N],
) -> [f64; N] {
    let mut best = [(); N].map(|_| vec![Duration::MAX; parts]);
    for _ in 0..rounds {
        for (run, best) in run.iter_mut().zip(&mut best) {
            for (part, best) in best.iter_mut().enumerate() {
                let start = Instant::now();
                run(part);
                *best = start.elapsed().min(*best);
            }
        }
    }
    best.map(|times| times.iter().sum::<Duration>().as_nanos() as f64)
}
