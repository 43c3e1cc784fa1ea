//! When a file was last changed.

use std::time::{Duration, SystemTime, UNIX_EPOCH};

const NANOSECONDS_PER_SECOND: u32 = 1_000_000_000;

/// A moment, before 1970 or after.
#[derive(Clone, Copy, Debug, PartialEq, Eq)]
pub struct Timestamp {
    /// Whole seconds since 1970, negative before it.
    pub seconds: i64,
    /// Nanoseconds since that second.
    pub nanoseconds: u32,
}

impl Timestamp {
    /// The moment when a second begins.
    pub const fn of_seconds(seconds: i64) -> Timestamp {
        Timestamp {
            seconds,
            nanoseconds: 0,
        }
    }

    /// The same moment as the system tells it, if it can.
    pub fn system_time(self) -> Option<SystemTime> {
        let seconds = Duration::from_secs(self.seconds.unsigned_abs());
        let second = if self.seconds < 0 {
            UNIX_EPOCH.checked_sub(seconds)?
        } else {
            UNIX_EPOCH.checked_add(seconds)?
        };
        second.checked_add(Duration::from_nanos(u64::from(self.nanoseconds)))
    }
}

impl From<SystemTime> for Timestamp {
    fn from(time: SystemTime) -> Timestamp {
        let whole = |part: Duration| i64::try_from(part.as_secs()).unwrap_or(i64::MAX);
        match time.duration_since(UNIX_EPOCH) {
            Ok(since) => Timestamp {
                seconds: whole(since),
                nanoseconds: since.subsec_nanos(),
            },
            // A part of a second before it is the rest of the second before.
            Err(error) => match (whole(error.duration()), error.duration().subsec_nanos()) {
                (seconds, 0) => Timestamp::of_seconds(-seconds),
                (seconds, nanoseconds) => Timestamp {
                    seconds: (-seconds).saturating_sub(1),
                    nanoseconds: NANOSECONDS_PER_SECOND - nanoseconds,
                },
            },
        }
    }
}

#[cfg(test)]
mod tests {
    use super::*;

    #[test]
    fn there_and_back() {
        for (seconds, nanoseconds) in [
            (0, 0),
            (1_700_000_000, 999_999_999),
            (-1, 0),
            (-1, 1),
            (-2_000_000_000, 250_000_000),
        ] {
            let time = Timestamp {
                seconds,
                nanoseconds,
            };
            assert_eq!(time.system_time().map(Timestamp::from), Some(time));
        }
        // What only a damaged or foreign tape tells.
        for seconds in [i64::MIN, i64::MAX] {
            let _ = Timestamp {
                seconds,
                nanoseconds: u32::MAX,
            }
            .system_time();
        }
    }
}
