//! Times as `hh:mm:ss.mmm`.

use std::fmt::{self, Display};
use std::ops::RangeInclusive;

/// Milliseconds as hours, minutes, seconds and thousandths.
#[derive(Clone, Copy, Debug, PartialEq, Eq)]
pub struct Clock(pub u64);

impl Display for Clock {
    fn fmt(&self, f: &mut fmt::Formatter) -> fmt::Result {
        let (seconds, thousandths) = (self.0 / 1000, self.0 % 1000);
        let (minutes, second) = (seconds / 60, seconds % 60);
        let (hour, minute) = (minutes / 60, minutes % 60);
        write!(f, "{hour:02}:{minute:02}:{second:02}.{thousandths:03}")
    }
}

/// A tick's time, rounded up to a millisecond, as `hh:mm:ss.mmm`.
pub fn clock_of(scale: u32, tick: u64) -> Clock {
    Clock(captions::milliseconds(scale, tick).unwrap_or(0))
}

/// Milliseconds from whole milliseconds, `mm:ss.mmm` or `hh:mm:ss.mmm`.
pub fn parse_ms(text: &str) -> Option<u32> {
    let ms = parse_clock(text).or_else(|| digits(text, 1..=10));
    ms?.try_into().ok()
}

/// Milliseconds from `mm:ss.mmm`, or from that behind two or more digits of hours and a colon.
pub fn parse_clock(text: &str) -> Option<u64> {
    let (clock, thousandths) = text.split_once('.')?;
    let mut parts = clock.rsplit(':');
    let mut sixty = || digits(parts.next()?, 2..=2).filter(|&number| number < 60);
    let (seconds, minutes) = (sixty()?, sixty()?);
    let hours = parts
        .next()
        .map_or(Some(0), |hours| digits(hours, 2..=usize::MAX));
    let below = (minutes * 60 + seconds) * 1000 + digits(thousandths, 3..=3)?;
    let ms = hours?.saturating_mul(3_600_000).saturating_add(below);
    parts.next().is_none().then_some(ms)
}

/// A number of so many decimal digits; the largest, where it is larger.
fn digits(text: &str, length: RangeInclusive<usize>) -> Option<u64> {
    let plain = text.bytes().all(|byte| byte.is_ascii_digit());
    (plain && length.contains(&text.len())).then(|| text.parse().unwrap_or(u64::MAX))
}

#[cfg(test)]
mod tests {
    use super::*;

    #[test]
    fn times_have_two_digits_of_hours_or_more() {
        assert_eq!(Clock(0).to_string(), "00:00:00.000");
        assert_eq!(Clock(359_999_999).to_string(), "99:59:59.999");
        assert_eq!(Clock(360_000_000).to_string(), "100:00:00.000");
        assert_eq!(clock_of(1500, 499), Clock(333));
    }

    #[test]
    fn times_are_taken_as_numbers_or_as_they_are_shown() {
        assert_eq!(parse_ms("0"), Some(0));
        assert_eq!(parse_ms("4294967295"), Some(u32::MAX));
        assert_eq!(parse_ms("00:00.001"), Some(1));
        assert_eq!(parse_ms("99:59:59.999"), Some(359_999_999));
        assert_eq!(parse_ms("0100:00:00.000"), Some(360_000_000));
        assert_eq!(parse_ms("00000000000000000000000:01.000"), None);
        assert_eq!(parse_ms("00000000000000000000000:00:01.000"), Some(1000));
        assert_eq!(
            parse_clock(&format!("{}:00:01.000", "9".repeat(99))),
            Some(u64::MAX)
        );
        for bad in [
            "",
            "-1",
            "+1",
            "1e3",
            "4294967296",
            "1:00.000",
            "00:60.000",
            "60:00.000",
            "00:00.00",
            "00:00.0000",
            "0:00:00.000",
            "00:00:00:00.000",
            "00.000",
            "00:00:00",
            " 1",
            "1 ",
            "٣",
            "2000:00:00.000",
            "999999:00:00.000",
        ] {
            assert_eq!(parse_ms(bad), None, "{bad:?}");
        }
    }
}
