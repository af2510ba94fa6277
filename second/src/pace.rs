//! The time a start takes: its bound, and word of how far it has come.

use std::sync::atomic::{AtomicU64, Ordering};
use std::time::{Duration, Instant};

/// The seconds between two words of how far the work has come.
const SECONDS_BETWEEN_WORDS: u64 = 300;

/// The clock of one start, shared by all threads.
pub struct Pace {
    began: Instant,
    bound: Option<Duration>,
    words: AtomicU64,
}

impl Pace {
    /// A clock that starts now, with the minutes it may run.
    pub fn start(minutes: Option<u64>) -> Pace {
        let bound = minutes.map(|minutes| Duration::from_secs(minutes.saturating_mul(60)));
        Pace {
            began: Instant::now(),
            bound,
            words: AtomicU64::new(0),
        }
    }

    /// Whether the time is up.
    pub fn is_over(&self) -> bool {
        self.bound
            .is_some_and(|bound| self.began.elapsed() >= bound)
    }

    /// The seconds since the start.
    pub fn seconds(&self) -> f64 {
        self.began.elapsed().as_secs_f64()
    }

    /// Tells on standard error, every so often, how far the work has come.
    pub fn tell(&self, done: u64, differences: u64) {
        let seconds = self.began.elapsed().as_secs();
        let words = self.words.load(Ordering::Relaxed);
        if seconds < (words + 1) * SECONDS_BETWEEN_WORDS {
            return;
        }
        let next = seconds / SECONDS_BETWEEN_WORDS;
        let order = Ordering::Relaxed;
        if self
            .words
            .compare_exchange(words, next, order, order)
            .is_ok()
        {
            let minutes = seconds / 60;
            eprintln!("after {minutes} minutes: {done} jobs begun, differences: {differences}");
        }
    }
}
