//! Time: the relay's, in whole seconds of a monotonic clock since the start, and people's.

use std::time::{Instant, SystemTime, UNIX_EPOCH};

/// A clock that never goes back.
pub struct Clock {
    start: Instant,
    ahead: u64,
    for_tests: bool,
}

impl Clock {
    /// A clock at 0. For tests its stamps have the relay's second too.
    pub fn new(for_tests: bool) -> Self {
        Clock {
            start: Instant::now(),
            ahead: 0,
            for_tests,
        }
    }

    /// The seconds since the start, and what tests have added.
    pub fn now(&self) -> u64 {
        self.start.elapsed().as_secs().saturating_add(self.ahead)
    }

    /// The Unix time in seconds, with what tests have added.
    pub fn unix(&self) -> u64 {
        since_1970().saturating_add(self.ahead)
    }

    /// Puts the clock forward, for tests.
    pub fn forward(&mut self, seconds: u64) {
        self.ahead = self.ahead.saturating_add(seconds);
    }

    /// The time of day, for the log.
    pub fn stamp(&self) -> String {
        if self.for_tests {
            format!("{} [{}]", utc(since_1970()), self.now())
        } else {
            utc(since_1970())
        }
    }
}

fn since_1970() -> u64 {
    SystemTime::now().duration_since(UNIX_EPOCH).map_or(0, |time| time.as_secs())
}

/// A date and time of day in UTC, from the seconds since 1970.
pub fn utc(seconds: u64) -> String {
    let (days, of_day) = (seconds / 86400, seconds % 86400);
    let (year, month, day) = date(days);
    let (hour, minute, second) = (of_day / 3600, of_day / 60 % 60, of_day % 60);
    format!("{year:04}-{month:02}-{day:02}T{hour:02}:{minute:02}:{second:02}Z")
}

/// Year, month and day, from the days since 1970.
fn date(mut days: u64) -> (u64, u64, u64) {
    let leap = |year: u64| (year % 4 == 0 && year % 100 != 0) || year % 400 == 0;
    // 400 years always have the same number of days.
    let mut year = 1970 + 400 * (days / 146_097);
    days %= 146_097;
    while days >= 365 + u64::from(leap(year)) {
        days -= 365 + u64::from(leap(year));
        year += 1;
    }
    let february = 28 + u64::from(leap(year));
    let mut month = 1;
    for length in [31, february, 31, 30, 31, 30, 31, 31, 30, 31, 30] {
        if days < length {
            break;
        }
        days -= length;
        month += 1;
    }
    (year, month, days + 1)
}

/// A time span as people read it: minutes and seconds.
pub fn minutes(seconds: u64) -> String {
    format!("{}:{:02}", seconds / 60, seconds % 60)
}

/// How long ago something was: '12 s ago', and from a minute on in minutes and seconds.
pub fn ago(seconds: u64) -> String {
    if seconds < 60 {
        format!("{seconds} s ago")
    } else {
        format!("{} ago", minutes(seconds))
    }
}

/// A long time span: days, hours, minutes and seconds.
pub fn days(seconds: u64) -> String {
    let (hours, minutes) = (seconds / 3600 % 24, seconds / 60 % 60);
    format!("{} days {hours}:{minutes:02}:{:02}", seconds / 86400, seconds % 60)
}

#[cfg(test)]
mod tests {
    use super::*;

    #[test]
    fn starts_at_zero_and_is_put_forward() {
        let mut clock = Clock::new(true);
        let first = clock.now();
        assert!(first < 60);
        clock.forward(300);
        assert!((300..360).contains(&clock.now()));
        clock.forward(u64::MAX);
        assert_eq!(clock.now(), u64::MAX);
        assert!(clock.stamp().ends_with(&format!("[{}]", u64::MAX)));
    }

    #[test]
    fn dates() {
        assert_eq!(utc(0), "1970-01-01T00:00:00Z");
        assert_eq!(utc(951_827_696), "2000-02-29T12:34:56Z");
        assert_eq!(utc(1_798_761_599), "2026-12-31T23:59:59Z");
        assert_eq!(utc(4_107_542_400), "2100-03-01T00:00:00Z");
        assert_eq!(utc(16_725_225_600), "2500-01-01T00:00:00Z");
    }

    #[test]
    fn spans() {
        assert_eq!(minutes(0), "0:00");
        assert_eq!(minutes(581), "9:41");
        assert_eq!(minutes(3600), "60:00");
        assert_eq!([0, 59, 60, 185].map(ago), ["0 s ago", "59 s ago", "1:00 ago", "3:05 ago"]);
        assert_eq!(days(3 * 86400 + 4 * 3600 + 5 * 60 + 6), "3 days 4:05:06");
    }
}
