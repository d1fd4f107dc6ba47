//! How much other work the machine had, by Linux's counts of processor time.

use std::fs;

/// Ticks of all processors, and of this process and the children that it waited for.
pub struct Ticks {
    all: u64,
    busy: u64,
    own: u64,
}

impl Ticks {
    /// Up to now; all 0 where they cannot be read.
    pub fn now() -> Self {
        let read = |file: &str| fs::read_to_string(file).unwrap_or_default();
        let (all, busy) = machine(&read("/proc/stat"));
        let own = process(&read("/proc/self/stat"));
        Self { all, busy, own }
    }

    /// The share of all processor time since then that others took.
    #[expect(clippy::cast_precision_loss, reason = "a share of few digits")]
    pub fn others_since(&self, then: &Self) -> f64 {
        let [all, busy, own] = [
            (self.all, then.all),
            (self.busy, then.busy),
            (self.own, then.own),
        ]
        .map(|(now, then)| now.saturating_sub(then));
        busy.saturating_sub(own) as f64 / all.max(1) as f64
    }
}

/// All ticks and those that were not idle, of the line `cpu`: user, nice, system, idle, waiting for a disk, and the rest.
fn machine(stat: &str) -> (u64, u64) {
    let line = stat.lines().next().unwrap_or_default();
    let ticks: Vec<u64> = line
        .split_whitespace()
        .skip(1)
        .take(8)
        .filter_map(|word| word.parse().ok())
        .collect();
    let all = ticks.iter().sum();
    let idle: u64 = ticks.iter().skip(3).take(2).sum();
    (all, all - idle)
}

/// Fields 14 to 17 of a process's line, in user and in system mode, its own and its children's.
fn process(stat: &str) -> u64 {
    // The name, field 2, stands in brackets and may have spaces.
    let Some((_, fields)) = stat.rsplit_once(')') else {
        return 0;
    };
    let fields = fields.split_whitespace().skip(11).take(4);
    fields.filter_map(|word| word.parse::<u64>().ok()).sum()
}

#[cfg(test)]
mod tests {
    use super::{Ticks, machine, process};

    #[test]
    fn ticks_are_read() {
        let stat = "cpu  100 20 30 400 50 6 7 8 9 10\ncpu0 1 1 1 1 1 1 1 1 1 1\n";
        assert_eq!(machine(stat), (621, 171));
        let stat = "77 (a name) R 1 2 3 4 5 6 7 8 9 10 1000 200 30 4 20 0 1 0";
        assert_eq!(process(stat), 1_234);
        assert_eq!((machine(""), process("")), ((0, 0), 0));
    }

    #[test]
    fn others_are_what_is_busy_less_our_own() {
        let then = Ticks {
            all: 1_000,
            busy: 300,
            own: 100,
        };
        let now = Ticks {
            all: 1_200,
            busy: 410,
            own: 190,
        };
        assert!((now.others_since(&then) - 0.1).abs() < 1e-9);
    }
}
