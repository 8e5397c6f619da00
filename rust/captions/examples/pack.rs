//! Packs a list of two cues and prints duration and size of each sample.

use std::error::Error;

use captions::wvtt::{self, Track};
use captions::{CueList, ListedCue};

/// Ticks a second.
const SCALE: u32 = 1000;
/// The timeline in milliseconds.
const T: u32 = 3000;

fn main() -> Result<(), Box<dyn Error>> {
    let mut list = CueList::new();
    for (start_ms, end_ms, payload) in [(0, 1500, "Good morning."), (1000, 2500, "Is it?")] {
        list.push_auto(ListedCue {
            start_ms,
            end_ms,
            payload,
            ..Default::default()
        })?;
    }
    let track = Track::pack(SCALE, T, &list)?;
    for sample in track.samples() {
        println!("{} {}", sample.duration, sample.bytes().len());
    }
    let entry = wvtt::entry_to_vec("WEBVTT", Some("source"), 1)?;
    println!("entry {}", entry.len());
    Ok(())
}
