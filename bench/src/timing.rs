//! Two functions timed in turns.

use std::time::Instant;

const ROUNDS: usize = 101;

/// How long one turn should take.
const TURN: f64 = 200_000.0;

/// Medians over the rounds: nanoseconds of one call of each, and the ratio.
#[derive(Clone)]
pub struct Timing {
    pub library: f64,
    pub rust: f64,
    pub ratio: f64,
}

pub fn in_turns(mut library: impl FnMut(), mut rust: impl FnMut()) -> Timing {
    let warm = time(10, &mut library).max(time(10, &mut rust));
    let calls = (TURN / warm).clamp(1.0, 100_000.0) as u32;
    let rounds: Vec<(f64, f64)> = (0..ROUNDS)
        .map(|round| match round % 2 {
            0 => {
                let first = time(calls, &mut library);
                (first, time(calls, &mut rust))
            }
            _ => {
                let first = time(calls, &mut rust);
                (time(calls, &mut library), first)
            }
        })
        .collect();
    Timing {
        library: median(rounds.iter().map(|round| round.0)),
        rust: median(rounds.iter().map(|round| round.1)),
        ratio: median(rounds.iter().map(|round| round.0 / round.1)),
    }
}

/// Nanoseconds of one of so many calls.
fn time(calls: u32, call: &mut impl FnMut()) -> f64 {
    let start = Instant::now();
    for _ in 0..calls {
        call();
    }
    start.elapsed().as_nanos() as f64 / f64::from(calls)
}

pub fn median(values: impl Iterator<Item = f64>) -> f64 {
    let mut values: Vec<f64> = values.collect();
    values.sort_by(f64::total_cmp);
    values[values.len() / 2]
}

pub fn geometric_mean(values: &[f64]) -> f64 {
    let sum: f64 = values.iter().map(|value| value.ln()).sum();
    (sum / values.len() as f64).exp()
}
