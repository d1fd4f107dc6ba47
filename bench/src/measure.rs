//! Interleaved rounds, medians and their spread.

use std::time::Duration;

use crate::clock;
use crate::ways::Way;

/// How long a sample lasts at least, if it is not a single call.
const SAMPLE: Duration = Duration::from_millis(4);
/// Where a call takes so long, cold caches matter little.
const LONG: Duration = Duration::from_millis(100);

/// Milliseconds of a call in each round, for each way.
#[derive(Default)]
pub struct Times(Vec<(Way, Vec<f64>)>);

impl Times {
    /// Times of each way over so many rounds. A round has a sample of every way that has not had all of its own, and begins
    /// with another. `time` is that of so many calls, each less the clock's cost.
    pub fn of(
        ways: impl IntoIterator<Item = (Way, usize)>,
        mut time: impl FnMut(Way, u32, Duration) -> Duration,
    ) -> Self {
        let cost = clock::own_cost();
        let mut sampled: Vec<Sampled> = Vec::new();
        for (way, rounds) in ways {
            let calls = calls(|calls| time(way, calls, cost));
            let times = Vec::new();
            sampled.push(Sampled {
                way,
                rounds,
                calls,
                times,
            });
        }
        let rounds = sampled.iter().map(|of| of.rounds).max();
        for round in 0..rounds.unwrap_or(0) {
            let first = round % sampled.len();
            sampled.rotate_left(first);
            for of in sampled.iter_mut().filter(|of| round < of.rounds) {
                let time = time(of.way, of.calls, cost);
                let calls = f64::from(of.calls);
                of.times.push(1_000.0 * time.as_secs_f64() / calls);
            }
            sampled.rotate_right(first);
        }
        sampled.into_iter().map(|of| (of.way, of.times)).collect()
    }

    pub fn add(&mut self, way: Way, times: Vec<f64>) {
        self.0.push((way, times));
    }

    /// Every way with its times.
    pub fn ways(&self) -> impl Iterator<Item = (Way, &[f64])> {
        self.0.iter().map(|(way, times)| (*way, &times[..]))
    }

    /// The time of one way by that of another in the same round.
    pub fn ratios(&self, way: Way, by: Way) -> impl Iterator<Item = f64> {
        let pairs = self.way(way).iter().zip(self.way(by));
        pairs.map(|(time, by)| time / by)
    }

    /// The times of a way, none if it is not measured.
    pub fn way(&self, way: Way) -> &[f64] {
        let found = self.0.iter().find(|(of, _)| *of == way);
        found.map_or(&[], |(_, times)| times)
    }
}

impl FromIterator<(Way, Vec<f64>)> for Times {
    fn from_iter<I: IntoIterator<Item = (Way, Vec<f64>)>>(times: I) -> Self {
        Self(times.into_iter().collect())
    }
}

/// A way in the course of its rounds.
struct Sampled {
    way: Way,
    rounds: usize,
    /// Calls of a sample.
    calls: u32,
    times: Vec<f64>,
}

/// Calls of a sample.
fn calls(mut time: impl FnMut(u32) -> Duration) -> u32 {
    // The first call meets cold caches.
    if time(1) >= LONG {
        return 1;
    }
    let once = time(1).max(Duration::from_nanos(100));
    let calls = SAMPLE.as_nanos() / once.as_nanos();
    u32::try_from(calls).unwrap_or(u32::MAX).clamp(1, 10_000)
}

/// A median, and the quarters below and above it.
#[derive(Clone, Copy, Debug, PartialEq)]
pub struct Spread {
    pub low: f64,
    pub median: f64,
    pub high: f64,
}

impl Spread {
    /// # Panics
    /// If there is no number.
    pub fn of(numbers: impl IntoIterator<Item = f64>) -> Self {
        let mut sorted: Vec<f64> = numbers.into_iter().collect();
        sorted.sort_by(f64::total_cmp);
        Self {
            low: quantile(&sorted, 1),
            median: quantile(&sorted, 2),
            high: quantile(&sorted, 3),
        }
    }
}

/// The number that so many quarters are below, between two where it falls between them.
fn quantile(sorted: &[f64], quarters: usize) -> f64 {
    let scaled = quarters * (sorted.len() - 1);
    let (below, rest) = (scaled / 4, scaled % 4);
    let above = (below + 1).min(sorted.len() - 1);
    #[expect(clippy::cast_precision_loss, reason = "0 to 3")]
    let share = rest as f64 / 4.0;
    sorted[below] * (1.0 - share) + sorted[above] * share
}

#[cfg(test)]
mod tests {
    use std::time::Duration;

    use super::{Spread, Times};
    use crate::ways::Way;

    #[test]
    fn ways_have_their_rounds_in_turn() {
        let mut timed = Vec::new();
        let ways = [(Way::Axioms, 3), (Way::Clausify, 3), (Way::Clauses, 1)];
        let times = Times::of(ways, |way, calls, _| {
            timed.push(way);
            let one = match way {
                Way::Axioms => Duration::from_millis(2),
                Way::Clausify => Duration::from_millis(10),
                _ => Duration::from_secs(2),
            };
            one * calls
        });
        let [axioms, clausify, clauses] = ways.map(|(way, _)| way);
        // Two calls, or one that takes long, say how many a sample has.
        let before = [axioms, axioms, clausify, clausify, clauses];
        let rounds = [
            axioms, clausify, clauses, clausify, axioms, axioms, clausify,
        ];
        assert_eq!(timed, [&before[..], &rounds].concat());
        assert_eq!(times.way(axioms), [2.0; 3]);
        assert_eq!(times.way(clauses), [2_000.0]);
        assert_eq!(times.way(Way::Rust), []);
    }

    #[test]
    fn median_and_quarters() {
        let spread = Spread::of([5.0, 1.0, 3.0, 2.0, 4.0]);
        assert_eq!((spread.low, spread.median, spread.high), (2.0, 3.0, 4.0));
        let spread = Spread::of([4.0, 1.0]);
        assert_eq!((spread.low, spread.median, spread.high), (1.75, 2.5, 3.25));
        let spread = Spread::of([7.0]);
        assert_eq!((spread.low, spread.median, spread.high), (7.0, 7.0, 7.0));
    }
}
