//! The rules of texts, lengths aside, and the tag profile.

use crate::refusal::judged;
use crate::{ffi, Refusal};

/// Judges a text by the rule of identifiers and settings, length aside: UTF-8 without zero
/// byte, CR, LF or `-->`. Refused: 6, place 0.
#[inline]
pub fn judge_identifier(text: &[u8]) -> Result<(), Refusal> {
    // SAFETY: pointer and length of a slice.
    judged(unsafe { ffi::captions_wvtt_judge_identifier(text.as_ptr(), text.len()) })
}

/// Judges a text by the rule of payloads, length aside: UTF-8 without zero byte or `-->`, no
/// line of it empty. Refused: 6, place 0.
#[inline]
pub fn judge_payload(text: &[u8]) -> Result<(), Refusal> {
    // SAFETY: pointer and length of a slice.
    judged(unsafe { ffi::captions_wvtt_judge_payload(text.as_ptr(), text.len()) })
}

/// Judges a payload by the tag profile: the tags `b`, `i`, `u`, `c`, `v`, `lang` and `ruby`, and `rt`
/// directly inside `ruby`, each with its own end tag and at most 16 open at once; timestamps
/// `hh:mm:ss.mmm` that rise; the escapes `&amp;`, `&lt;`, `&gt;`, `&nbsp;`, `&lrm;` and `&rlm;`.
///
/// Refused: 9, place 0, for more than [`LONGEST_PAYLOAD`] bytes; 6, place 0, as by
/// [`judge_payload`]; 21, whose place is the first byte that no text of the profile could have
/// there, or the length of a text that ends too early.
///
/// ```
/// use captions::wvtt::judge_profile;
/// use captions::Reason;
///
/// judge_profile(b"<v Fred>Hi, <i>Bill</i>.</v>")?;
/// let refused = judge_profile(b"<b>Hi, <i>Bill</b></i>").unwrap_err();
/// // An end tag of the innermost that is open, which is `i`.
/// assert_eq!((refused.reason, refused.place), (Reason::OutsideProfile, 16));
/// # Ok::<(), captions::Refusal>(())
/// ```
///
/// [`LONGEST_PAYLOAD`]: crate::limits::LONGEST_PAYLOAD
#[inline]
pub fn judge_profile(text: &[u8]) -> Result<(), Refusal> {
    // SAFETY: pointer and length of a slice.
    judged(unsafe { ffi::captions_wvtt_judge_profile(text.as_ptr(), text.len()) })
}

/// Judges a text as a `vttC` body: UTF-8 from `WEBVTT` on, not ending in CR or LF. Refused: 6,
/// place 0.
#[inline]
pub fn judge_configuration(text: &[u8]) -> Result<(), Refusal> {
    // SAFETY: pointer and length of a slice.
    judged(unsafe { ffi::captions_wvtt_judge_configuration(text.as_ptr(), text.len()) })
}

/// Judges a text as a `vlab` body: UTF-8 not ending in CR or LF. Refused: 6, place 0.
#[inline]
pub fn judge_label(text: &[u8]) -> Result<(), Refusal> {
    // SAFETY: pointer and length of a slice.
    judged(unsafe { ffi::captions_wvtt_judge_label(text.as_ptr(), text.len()) })
}
