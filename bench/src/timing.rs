//! Times several sides in turn, and gives medians and quartiles of what they took.

use std::time::{Duration, Instant};

/// A case has the most rounds that fit in its time, between these. They are odd, so that a round is in the middle.
pub const MOST_ROUNDS: usize = 201;
pub const LEAST_ROUNDS: usize = 11;
pub const CASE: Duration = Duration::from_secs(2);
/// A round takes about this long, or as long as a call of the slowest side. Against this the clock's own time is small.
pub const ROUND: Duration = Duration::from_micros(200);
/// How long each side runs before it is timed.
const WARM_UP: Duration = Duration::from_millis(20);

/// The lower quartile, the median and the upper quartile.
pub struct Spread {
    pub low: f64,
    pub median: f64,
    pub high: f64,
}

impl Spread {
    pub fn of(values: &[f64]) -> Spread {
        let mut values = values.to_vec();
        values.sort_by(f64::total_cmp);
        let at = |quarters: usize| values[(values.len() - 1) * quarters / 4];
        Spread {
            low: at(1),
            median: at(2),
            high: at(3),
        }
    }

    /// Of what one side took over what the other took in the same round.
    pub fn of_ratios(times: &[f64], others: &[f64]) -> Spread {
        let ratios: Vec<f64> = times.iter().zip(others).map(|(time, other)| time / other).collect();
        Spread::of(&ratios)
    }

    pub fn quartiles(&self, decimals: usize) -> String {
        format!("({:.decimals$} to {:.decimals$})", self.low, self.high)
    }
}

/// The times of each side for one call in each round. All are lent the same, and each goes first in its turn. A side
/// makes so many calls, and answers the microseconds for one of them.
pub fn interleaved<Lent>(lent: &mut Lent, sides: &[impl Fn(&mut Lent, u32) -> f64]) -> Vec<Vec<f64>> {
    let single: Vec<f64> = sides.iter().map(|side| warm_up(lent, side)).collect();
    // Rounds of one length on all sides: other work of the machine would interrupt the longer ones more often.
    let length = single.iter().copied().fold(micros(ROUND), f64::max);
    let calls: Vec<u32> = single.iter().map(|call| (length / call).ceil() as u32).collect();
    let mut times = vec![Vec::new(); sides.len()];
    for round in 0..rounds_within(sides.len() as f64 * length) {
        for turn in 0..sides.len() {
            let at = (round + turn) % sides.len();
            times[at].push(sides[at](lent, calls[at]));
        }
    }
    times
}

pub fn micros(time: Duration) -> f64 {
    time.as_secs_f64() * 1e6
}

/// The time for one call, over so many calls.
pub fn each(calls: u32, mut call: impl FnMut()) -> f64 {
    let start = Instant::now();
    for _ in 0..calls {
        call();
    }
    micros(start.elapsed()) / f64::from(calls)
}

/// How many rounds a case has where a round of all sides together takes so long.
fn rounds_within(all: f64) -> usize {
    let fit = (micros(CASE) / all) as usize;
    fit.clamp(LEAST_ROUNDS, MOST_ROUNDS) | 1
}

/// Warms a side up, and answers the time of its fastest call.
fn warm_up<Lent>(lent: &mut Lent, side: impl Fn(&mut Lent, u32) -> f64) -> f64 {
    let start = Instant::now();
    let mut fastest = f64::INFINITY;
    while start.elapsed() < WARM_UP {
        fastest = fastest.min(side(lent, 1));
    }
    // The clock cannot tell less than a nanosecond.
    fastest.max(1e-3)
}

#[cfg(test)]
mod tests {
    use super::*;

    #[test]
    fn rounds_fit_in_the_time_of_a_case() {
        let case = micros(CASE);
        assert_eq!(rounds_within(1.0), MOST_ROUNDS);
        assert_eq!(rounds_within(case / 100.0), 101);
        assert_eq!(rounds_within(case / 51.0), 51);
        assert_eq!(rounds_within(case), LEAST_ROUNDS);
    }

    #[test]
    fn quartiles_of_values_and_ratios() {
        let spread = Spread::of(&[5.0, 1.0, 4.0, 2.0, 3.0]);
        assert_eq!((spread.low, spread.median, spread.high), (2.0, 3.0, 4.0));
        let ratios = Spread::of_ratios(&[4.0, 9.0, 2.0], &[2.0, 3.0, 2.0]);
        assert_eq!(ratios.median, 2.0);
        assert_eq!(ratios.quartiles(2), "(1.00 to 2.00)");
    }

    #[test]
    fn sides_take_turns() {
        // Calls that are said to take so long have the fewest rounds.
        let side = |name: u8| {
            move |order: &mut Vec<u8>, _: u32| {
                order.push(name);
                micros(CASE)
            }
        };
        let mut order = Vec::new();
        let times = interleaved(&mut order, &[side(b'a'), side(b'b'), side(b'c')]);
        assert!(times.iter().all(|times| times.len() == LEAST_ROUNDS));
        let rounds = &order[order.len() - 3 * LEAST_ROUNDS..];
        assert_eq!(rounds, b"abcbcacababcbcacababcbcacababcbca");
    }
}
