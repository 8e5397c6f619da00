//! Reads a WebVTT sample of one cue, then a 3GPP text sample of two runs.

use std::error::Error;

use captions::{tx3g, wvtt};

const WVTT_SAMPLE: &[u8] = b"\0\0\0\x1Evttc\0\0\0\x0Cvsid\0\0\0\x07\0\0\0\x0ApaylHi";

/// Its only font is 1, of size 12.
const TX3G_ENTRY: &[u8] = b"\0\0\0\x40tx3g\0\0\0\0\0\0\0\x01\0\0\0\0\0\xFF\0\0\0\0\
    \0\0\0\0\0\x3C\x01\x90\0\0\0\0\0\x01\0\x0C\xFF\xFF\xFF\xFF\0\0\0\x12ftab\0\x01\0\x01\x05Serif";
/// The first two characters are bold.
const TX3G_SAMPLE: &[u8] =
    b"\0\x05Hello\0\0\0\x16styl\0\x01\0\0\0\x02\0\x01\x01\x0C\xFF\xFF\xFF\xFF";

fn main() -> Result<(), Box<dyn Error>> {
    for cue in wvtt::Sample::read(WVTT_SAMPLE)?.cues() {
        println!("{:?} {}", cue.id, cue.payload);
    }
    let entry = tx3g::Entry::read(TX3G_ENTRY)?;
    for font in entry.fonts() {
        println!("font {} {}", font.id, String::from_utf8_lossy(font.name));
    }
    let sample = tx3g::Sample::read(TX3G_ENTRY, TX3G_SAMPLE)?;
    println!("{} in {:?}", sample.text(), sample.text_box());
    for run in sample.runs() {
        println!("{:?} bold {}", run.range, run.style.bold());
    }
    Ok(())
}
