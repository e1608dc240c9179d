//! The times of Rust and those of the library.

use crate::sys::shared::{self, Time};
use std::time::{Duration, Instant};

/// How often both clocks are read, to read them at one moment.
const READINGS: usize = 4;

/// The same moment by both clocks. A time that is converted to the other clock and back is the same.
pub(crate) struct Clock {
    instant: Instant,
    /// By the library's clock, from its zero on.
    since_zero: Duration,
}

impl Clock {
    /// The two readings that were closest to each other. A time is never earlier by the library's clock.
    pub(crate) fn new() -> Clock {
        let readings = (0..READINGS).map(|_| {
            let instant = Instant::now();
            let since_zero = since_zero(shared::now());
            let clock = Clock {
                instant,
                since_zero,
            };
            (instant.elapsed(), clock)
        });
        let closest = readings.min_by_key(|(gap, _)| *gap);
        closest.expect("there are readings").1
    }

    /// A time of Rust by the library's clock. Not inlined, since few calls have a time. One before this clock was made is over.
    #[inline(never)]
    pub(crate) fn time(&self, instant: Instant) -> Time {
        let later = instant.saturating_duration_since(self.instant);
        let time = self.since_zero.saturating_add(later);
        Time {
            seconds: i64::try_from(time.as_secs()).unwrap_or(i64::MAX),
            nanoseconds: time.subsec_nanos().into(),
        }
    }

    /// A time of the library by Rust's clock; `None` if it is beyond that.
    pub(crate) fn instant(&self, time: Time) -> Option<Instant> {
        let later = since_zero(time).saturating_sub(self.since_zero);
        self.instant.checked_add(later)
    }
}

fn since_zero(time: Time) -> Duration {
    Duration::new(time.seconds.unsigned_abs(), time.nanoseconds as u32)
}

#[cfg(test)]
mod tests {
    use super::*;

    #[test]
    fn a_time_is_converted_and_back() {
        let clock = Clock::new();
        for nanos in [0, 1, 999_999_999, 1_000_000_000, u64::MAX / 4] {
            let instant = clock.instant + Duration::from_nanos(nanos);
            assert_eq!(clock.instant(clock.time(instant)), Some(instant));
        }
    }

    #[test]
    fn a_time_before_the_clock_is_over() {
        let clock = Clock::new();
        let before = clock.instant.checked_sub(Duration::from_nanos(1));
        let over = clock.time(before.unwrap_or(clock.instant));
        assert_eq!(clock.instant(over), Some(clock.instant));
    }
}
