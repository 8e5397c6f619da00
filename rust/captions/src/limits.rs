//! Sizes and limits.

/// The bytes of a cue record.
pub const RECORD_BYTES: usize = 24;
/// The bytes of a record of a sample table.
pub const ROW_BYTES: usize = 8;
/// The most cues in a list.
pub const MOST_CUES: usize = 1024;
/// The most samples in a track.
pub const MOST_SAMPLES: usize = 65_536;
/// The largest ID of a cue.
pub const LARGEST_ID: u32 = 2_147_483_647;
/// The longest identifier or settings, in bytes.
pub const LONGEST_LINE: usize = 255;
/// The longest payload, in bytes.
pub const LONGEST_PAYLOAD: usize = 4095;
/// The largest scale, in ticks a second.
pub const LARGEST_SCALE: u32 = 1_000_000;
/// The largest time in milliseconds, 99:59:59.999.
pub const LARGEST_MS: u32 = 359_999_999;
