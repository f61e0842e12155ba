//! How often each outcome occurred, and how far a comparison is.

use std::time::{Duration, Instant};

/// The outcomes of one call.
pub struct Tally {
    /// What is counted, as "compiles".
    calls: &'static str,
    /// The numbers that the call may be refused with.
    numbers: &'static [u8],
    accepted: u64,
    /// By number; 0 is not used.
    refused: [u64; 256],
}

impl Tally {
    pub fn new(calls: &'static str, numbers: &'static [u8]) -> Tally {
        Tally {
            calls,
            numbers,
            accepted: 0,
            refused: [0; 256],
        }
    }

    pub fn accept(&mut self) {
        self.accepted += 1;
    }

    pub fn refuse(&mut self, number: u8) {
        self.refused[usize::from(number)] += 1;
    }

    pub fn summary(&self) -> String {
        let times = |number: &u8| self.refused[usize::from(*number)];
        let refused: Vec<String> = self
            .numbers
            .iter()
            .map(|number| format!("{number}: {}", times(number)))
            .collect();
        format!(
            "no difference in {} {}: {} accepted, refused by number {} ({} numbers never)",
            self.accepted + self.refused.iter().sum::<u64>(),
            self.calls,
            self.accepted,
            refused.join(", "),
            self.numbers.iter().filter(|number| times(number) == 0).count(),
        )
    }
}

/// Tells on standard error how far the random cases are.
pub struct Progress {
    what: &'static str,
    count: u64,
    started: Instant,
    shown: Duration,
}

impl Progress {
    pub fn new(what: &'static str, count: u64) -> Progress {
        Progress {
            what,
            count,
            started: Instant::now(),
            shown: Duration::ZERO,
        }
    }

    /// A line each second, and at the end.
    pub fn tell(&mut self, done: u64) {
        let elapsed = self.started.elapsed();
        if elapsed < self.shown + Duration::from_secs(1) && done < self.count {
            return;
        }
        self.shown = elapsed;
        eprintln!(
            "compare: {done} of {} random {}, no difference, {} s",
            self.count,
            self.what,
            elapsed.as_secs()
        );
    }
}
