//! The shortest of many runs.

use std::time::{Duration, Instant};

const LEAST_RUNS: u32 = 5;
const LEAST_TIME: Duration = Duration::from_millis(500);

/// What a run gives, and the time of the shortest.
pub fn shortest<R>(mut run: impl FnMut() -> R) -> (R, Duration) {
    let begin = Instant::now();
    let (mut result, mut shortest) = timed(&mut run);
    let mut runs = 1;
    while runs < LEAST_RUNS || begin.elapsed() < LEAST_TIME {
        let (again, time) = timed(&mut run);
        result = again;
        shortest = shortest.min(time);
        runs += 1;
    }
    (result, shortest)
}

fn timed<R>(run: &mut impl FnMut() -> R) -> (R, Duration) {
    let begin = Instant::now();
    let result = run();
    (result, begin.elapsed())
}
