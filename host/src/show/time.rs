//! Times of the header as dates.
use std::fmt;

/// A time of the header: tenths of a microsecond since the first day of 1601, UTC; 0 is not set.
#[derive(Clone, Copy, Debug, PartialEq, Eq)]
pub struct Time(pub u64);

const TENTHS: u64 = 10_000_000;
const DAY: u64 = 86_400 * TENTHS;
const FOUR_CENTURIES: u64 = 146_097;

impl Time {
    /// Year, month and day.
    pub fn date(self) -> (u64, u64, u64) {
        let days = self.0 / DAY;
        // 1601 begins four centuries of one fixed length, which are counted off first.
        let first = 1601 + days / FOUR_CENTURIES * 400;
        let mut left = days % FOUR_CENTURIES;
        let mut year = first;
        while left >= days_of(year) {
            left -= days_of(year);
            year += 1;
        }
        let mut month = 1;
        while left >= days_in(year, month) {
            left -= days_in(year, month);
            month += 1;
        }
        (year, month, left + 1)
    }
}

fn leap(year: u64) -> bool {
    year % 4 == 0 && (year % 100 != 0 || year % 400 == 0)
}

fn days_of(year: u64) -> u64 {
    365 + u64::from(leap(year))
}

fn days_in(year: u64, month: u64) -> u64 {
    match month {
        2 => 28 + u64::from(leap(year)),
        4 | 6 | 9 | 11 => 30,
        _ => 31,
    }
}

impl fmt::Display for Time {
    fn fmt(&self, f: &mut fmt::Formatter<'_>) -> fmt::Result {
        if self.0 == 0 {
            return f.write_str("not set");
        }
        let (year, month, day) = self.date();
        let seconds = self.0 % DAY / TENTHS;
        let (hour, minute, second) = (seconds / 3600, seconds / 60 % 60, seconds % 60);
        write!(f, "{:04}-{:02}-{:02} ", year, month, day)?;
        write!(f, "{:02}:{:02}:{:02}.{:07} UTC", hour, minute, second, self.0 % TENTHS)
    }
}

#[cfg(test)]
mod tests {
    use super::*;

    #[test]
    fn times_are_dates() {
        assert_eq!(Time(0).to_string(), "not set");
        assert_eq!(Time(1).to_string(), "1601-01-01 00:00:00.0000001 UTC");
        // The start of 1970, and the time that MS-SHLLINK prints for its example.
        assert_eq!(Time(116_444_736_000_000_000).to_string(), "1970-01-01 00:00:00.0000000 UTC");
        assert!(Time(0x01C9_1515_F2EE_E9D0).to_string().starts_with("2008-09-12 20:27:17."));
        assert_eq!(Time(u64::MAX).to_string(), "60056-05-28 05:36:10.9551615 UTC");
    }

    #[test]
    fn days_follow_each_other() {
        let mut last = Time(0).date();
        for day in 1..2 * FOUR_CENTURIES + 1 {
            let (year, month, date) = Time(day * DAY).date();
            let next = if date > 1 {
                (year, month, date - 1)
            } else if month > 1 {
                (year, month - 1, days_in(year, month - 1))
            } else {
                (year - 1, 12, 31)
            };
            assert_eq!(last, next);
            last = (year, month, date);
        }
        assert_eq!(last, (2401, 1, 1));
    }
}
