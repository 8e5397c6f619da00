//! Where a time stands in a picture.

use std::iter::successors;

use crate::time::Clock;

/// Units a second, within the bounds.
const SECOND: f64 = 80.0;
/// The width of the shortest timeline.
const NARROWEST: f64 = 1000.0;
/// The width of the longest.
const WIDEST: f64 = 15_900.0;
/// The units between two times of the axis, at least.
const APART: f64 = 110.0;

/// Distances of times that are easy to read, in milliseconds, up to 100 hours.
const STEPS: [u64; 26] = [
    1,
    2,
    5,
    10,
    20,
    50,
    100,
    200,
    500,
    1000,
    2000,
    5000,
    10_000,
    15_000,
    30_000,
    60_000,
    120_000,
    300_000,
    600_000,
    1_200_000,
    1_800_000,
    3_600_000,
    7_200_000,
    18_000_000,
    36_000_000,
    360_000_000,
];

/// A timeline as a width.
#[derive(Clone, Copy, Debug)]
pub struct Axis {
    /// Where it begins.
    pub left: f64,
    /// How wide it is.
    pub width: f64,
    /// How long it is, in milliseconds.
    total: f64,
}

impl Axis {
    /// A timeline of so many milliseconds, from a place on.
    pub fn new(left: f64, ms: f64) -> Self {
        let total = ms.max(1.0);
        let width = (total / 1000.0 * SECOND).clamp(NARROWEST, WIDEST);
        Axis { left, width, total }
    }

    /// Where a time stands.
    pub fn x(&self, ms: f64) -> f64 {
        self.left + ms / self.total * self.width
    }

    /// Where it ends.
    pub fn right(&self) -> f64 {
        self.left + self.width
    }

    /// The times of the axis, each with its place and what is written there.
    pub fn marks(&self) -> impl Iterator<Item = (f64, String)> + '_ {
        let step = self.step();
        let times = successors(Some(0), move |ms: &u64| ms.checked_add(step));
        let times = times.take_while(|&ms| ms as f64 <= self.total);
        times.map(move |ms| {
            let clock = Clock(ms).to_string();
            let whole = step.is_multiple_of(1000);
            let shown = clock.strip_suffix(".000").filter(|_| whole);
            (self.x(ms as f64), shown.unwrap_or(&clock).to_string())
        })
    }

    /// The distance of two times of the axis, in milliseconds.
    fn step(&self) -> u64 {
        let longer = successors(STEPS.last().copied(), |step| step.checked_mul(10));
        let mut steps = STEPS.into_iter().chain(longer);
        let fits = |&step: &u64| step as f64 / self.total * self.width >= APART;
        steps.find(fits).unwrap_or(u64::MAX)
    }
}

#[cfg(test)]
mod tests {
    use super::*;

    #[test]
    fn widths_have_bounds() {
        for (ms, width) in [(0.0, 1e3), (3e3, 1e3), (60e3, 4800.0), (1e18, 15_900.0)] {
            let axis = Axis::new(24.0, ms);
            assert_eq!((axis.width, axis.x(0.0)), (width, 24.0));
            let marks = axis.marks().count();
            assert!((1..=150).contains(&marks), "{ms}: {marks}");
        }
    }

    #[test]
    fn whole_seconds_stand_without_thousandths() {
        let text = |ms| Axis::new(0.0, ms).marks().nth(1).map(|mark| mark.1);
        assert_eq!(text(3000.0).as_deref(), Some("00:00:00.500"));
        assert_eq!(text(60_000.0).as_deref(), Some("00:00:02"));
        assert_eq!(text(10_800_000.0).as_deref(), Some("00:02:00"));
    }
}
