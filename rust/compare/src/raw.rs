//! Calls of the static library that the safe functions do not make, or hide.

use captions::ffi::*;
use captions_harness::Refusal;

/// Configuration and label as strings, if they are.
pub fn strings<'a>(
    configuration: &'a [u8],
    label: Option<&'a [u8]>,
) -> Option<(&'a str, Option<&'a str>)> {
    let configuration = std::str::from_utf8(configuration).ok()?;
    let label = label.map(std::str::from_utf8).transpose().ok()?;
    Some((configuration, label))
}

fn written(answer: CaptionsWritten) -> Result<usize, Refusal> {
    let CaptionsRefusal {
        number,
        place,
        offset,
    } = answer.refusal;
    let refusal = Refusal {
        number,
        place,
        offset,
    };
    if number == 0 {
        return Ok(answer.bytes);
    }
    assert_eq!(answer.bytes, 0, "what an answer leaves free is 0");
    Err(refusal)
}

pub fn entry_room(configuration: &[u8], label: Option<&[u8]>) -> Result<usize, Refusal> {
    let text = label.unwrap_or_default();
    // SAFETY: pointers and lengths of slices.
    written(unsafe {
        captions_wvtt_entry_room(
            configuration.as_ptr(),
            configuration.len(),
            label.is_some(),
            text.as_ptr(),
            text.len(),
        )
    })
}

pub fn write_entry(
    configuration: &[u8],
    label: Option<&[u8]>,
    index: u16,
    entry: &mut [u8],
) -> Result<usize, Refusal> {
    let text = label.unwrap_or_default();
    // SAFETY: pointers and lengths of slices; the mutable one overlaps nothing.
    written(unsafe {
        captions_wvtt_write_entry(
            configuration.as_ptr(),
            configuration.len(),
            label.is_some(),
            text.as_ptr(),
            text.len(),
            index,
            entry.as_mut_ptr(),
            entry.len(),
        )
    })
}

pub fn settings_room(settings: CaptionsSettings, region: &[u8]) -> Result<usize, Refusal> {
    // SAFETY: pointer and length of a slice.
    written(unsafe { captions_wvtt_settings_room(settings, region.as_ptr(), region.len()) })
}

pub fn write_settings(
    settings: CaptionsSettings,
    region: &[u8],
    text: &mut [u8],
) -> Result<usize, Refusal> {
    let (at, len) = (text.as_mut_ptr(), text.len());
    // SAFETY: pointers and lengths of slices; the mutable one overlaps nothing.
    written(unsafe {
        captions_wvtt_write_settings(settings, region.as_ptr(), region.len(), at, len)
    })
}

pub fn read_sample(entry: &[u8], sample: &[u8]) -> CaptionsTx3gSample {
    // SAFETY: pointers and lengths of slices.
    unsafe { captions_tx3g_read_sample(entry.as_ptr(), entry.len(), sample.as_ptr(), sample.len()) }
}

pub fn next_modifier(sample: &[u8], from: usize) -> CaptionsModifier {
    // SAFETY: pointer and length of a slice.
    unsafe { captions_tx3g_next_modifier(sample.as_ptr(), sample.len(), from) }
}

/// The modifiers from a place on, up to the end or a refusal.
pub fn modifiers(sample: &[u8], mut from: usize) -> Vec<CaptionsModifier> {
    let mut found = Vec::new();
    loop {
        let next = next_modifier(sample, from);
        if !next.found {
            return found;
        }
        from = next.next;
        found.push(next);
    }
}

/// The body of a modifier's box, which ends where the next box begins. It is as long as its
/// content, so that its size tells where it begins.
pub fn body<'a>(sample: &'a [u8], modifier: &CaptionsModifier) -> &'a [u8] {
    let length = match &modifier.kind.to_be_bytes() {
        b"styl" => 2 + 12 * modifier.first as usize,
        b"krok" => 6 + 8 * modifier.second as usize,
        b"href" => {
            let url = modifier.end - modifier.from;
            6 + url + modifier.alternative_end - modifier.alternative_from
        }
        b"tbox" => 8,
        b"twrp" => 1,
        _ => 4,
    };
    &sample[modifier.next - length..modifier.next]
}
