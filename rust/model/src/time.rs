//! Milliseconds and ticks.

/// The largest time.
pub const MOST_MS: u64 = 359_999_999;
/// The largest scale, in ticks a second.
pub const MOST_SCALE: u32 = 1_000_000;
/// The largest tick of a timeline.
pub const MOST_TICK: u64 = u32::MAX as u64;

/// The tick of `ms`, rounded down.
pub fn tick(scale: u32, ms: u32) -> u64 {
    u64::from(ms) * u64::from(scale) / 1000
}

/// The milliseconds of `tick`, rounded up. The scale is not 0.
pub fn milliseconds(scale: u32, tick: u64) -> u64 {
    (tick * 1000).div_ceil(u64::from(scale))
}

pub fn is_scale(scale: u32) -> bool {
    (1..=MOST_SCALE).contains(&scale)
}

/// Whether T may be the end of a timeline at this scale.
pub fn is_timeline(scale: u32, t: u32) -> bool {
    (1..=MOST_MS).contains(&u64::from(t)) && (1..=MOST_TICK).contains(&tick(scale, t))
}
