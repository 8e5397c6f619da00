//! Random inputs, good and damaged, for every operation.

mod boxes;
mod cue_list;
mod damage;
mod profile;
mod profile_edits;
mod program;
mod settings;
mod text;
mod track;
mod tx3g;
mod tx3g_track;
mod vtt;
mod vtt_parts;
mod wvtt;

pub use boxes::{box_of, step_input};
pub use cue_list::{list, CueList};
pub use damage::{damage_boxes, damage_bytes};
pub use profile::{profile_text, shown_time, tagged_text, TELLING};
pub use profile_edits::{continuations, every_damage, every_edit, short_tagged_texts};
pub use program::{program_input, ProgramInput};
pub use settings::{
    good_settings_text, settings_record, settings_text, SettingsRecord, TELLING_IN_SETTINGS,
};
pub use text::{any_text, bad_text, identifier, payload, tx3g_text};
pub use track::{check_input, packed, unpack_input, Track};
pub use tx3g::{run_input, sample_for, tx3g_entry, tx3g_input};
pub use tx3g_track::{tx3g_track, zero_durations, Tx3gTrack};
pub use vtt::{damage_file, vtt_file};
pub use vtt_parts::{vtt_parts, VttParts};
pub use wvtt::{configuration, entry_parts, wvtt_entry, wvtt_sample, EntryParts};

use crate::random::Random;

/// The room of an output for a result of `need` bytes: exact, short, long, or none.
pub fn room(random: &mut Random, need: usize) -> usize {
    match random.below(10) {
        0..=2 => need,
        3 => need.saturating_sub(1),
        4 => random.below(need + 1),
        5 => need + 1,
        _ => need + random.below(200),
    }
}

/// Places in so many bytes from which to walk on: their start, any, and past their end.
pub fn places(random: &mut Random, len: usize) -> [usize; 3] {
    let past = random.pick(&[len, len + 1, usize::MAX - 7, usize::MAX]);
    [0, random.below(len + 1), past]
}
