//! How long calls take.

use std::fmt::Debug;
use std::hint::black_box;
use std::time::{Duration, Instant};

/// Seconds, of plain Rust with the scan, of plain Rust with the table, and of the library.
pub type Times = [f64; 3];

/// Their places.
pub const TABLE: usize = 1;
pub const LIBRARY: usize = 2;

/// Each time is the median of so many rounds; of fewer, but of no less than the second number, where the rounds take
/// longer than that together.
const ROUNDS: usize = 101;
const FEW_ROUNDS: usize = 9;
const LONG: Duration = Duration::from_millis(1500);

/// In a round a call is repeated for so long. That is enough for the clock, and little beside the time for which other
/// programs are let in, so that they are met in few rounds.
const ROUND: Duration = Duration::from_micros(100);

/// The seconds that each of the calls takes, which take turns. Their answers are equal.
pub fn timed<T: PartialEq + Debug, const N: usize>(calls: [&dyn Fn() -> T; N]) -> [f64; N] {
    let first = calls[0]();
    for call in &calls[1..] {
        assert_eq!(call(), first);
    }
    let repetitions = calls.map(repetitions);
    let mut times = [(); N].map(|()| Vec::new());
    let start = Instant::now();
    for round in 0..ROUNDS {
        if round >= FEW_ROUNDS && start.elapsed() > LONG {
            break;
        }
        for (at, call) in calls.iter().enumerate() {
            times[at].push(seconds(call, repetitions[at]));
        }
    }
    times.map(median)
}

/// So many that they take as long as a round.
fn repetitions<T>(call: &dyn Fn() -> T) -> u32 {
    let lasts = |repetitions| seconds(call, repetitions) * f64::from(repetitions);
    let powers = (0..).map(|power| 1 << power);
    { powers }
        .find(|&repetitions| lasts(repetitions) > ROUND.as_secs_f64())
        .expect("a call takes time")
}

/// Of one call.
fn seconds<T>(call: &dyn Fn() -> T, repetitions: u32) -> f64 {
    let start = Instant::now();
    for _ in 0..repetitions {
        black_box(call());
    }
    start.elapsed().as_secs_f64() / f64::from(repetitions)
}

fn median(mut times: Vec<f64>) -> f64 {
    times.sort_by(f64::total_cmp);
    times[times.len() / 2]
}

#[cfg(test)]
mod tests {
    use super::*;

    #[test]
    #[should_panic]
    fn calls_that_answer_otherwise_are_not_timed() {
        timed([&|| 1, &|| 1, &|| 2]);
    }

    #[test]
    fn the_time_is_that_of_one_call() {
        let waits = |micros| move || std::thread::sleep(Duration::from_micros(micros));
        let [short, long] = timed([&waits(10) as _, &waits(2000) as _]);
        assert!(short < long && long > 0.002, "{short} {long}");
        assert_eq!(median(vec![3.0, 1.0, 9.0, 2.0, 2.5]), 2.5);
    }
}
