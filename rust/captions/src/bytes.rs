//! Parts of bytes.

use std::ops::Range;

/// The big-endian number of two bytes at `at`.
pub(crate) fn be16(bytes: &[u8], at: usize) -> u16 {
    u16::from_be_bytes([bytes[at], bytes[at + 1]])
}

/// The big-endian number of four bytes at `at`.
pub(crate) fn be32(bytes: &[u8], at: usize) -> u32 {
    u32::from_be_bytes([bytes[at], bytes[at + 1], bytes[at + 2], bytes[at + 3]])
}

/// A text that stands somewhere in bytes. It is looked at again only in a debug build.
///
/// # Safety
///
/// The range's bytes are UTF-8.
#[inline]
pub(crate) unsafe fn text(bytes: &[u8], range: Range<usize>) -> &str {
    let part = &bytes[range];
    debug_assert!(std::str::from_utf8(part).is_ok());
    // SAFETY: as the caller says.
    unsafe { std::str::from_utf8_unchecked(part) }
}
