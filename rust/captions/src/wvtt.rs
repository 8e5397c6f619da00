//! WebVTT: texts, settings, samples, sample entries and tracks.

mod entry;
mod pack;
mod sample;
mod settings;
mod texts;
mod track;

pub use entry::{entry_room, entry_to_vec, write_entry, Entry};
pub use pack::{
    check, judge_track, pack, pack_room, pack_to_vecs, unpack, unpack_room, unpack_to_vecs, Packed,
    Unpacked,
};
pub use sample::{judge_sample, next_cue, Cue, CueAt, Cues, Sample};
pub use settings::{
    read_settings, settings_room, settings_to_string, write_settings, Align, Line, LineAlign,
    Position, PositionAlign, Settings, Vertical,
};
pub use texts::{judge_configuration, judge_identifier, judge_label, judge_payload, judge_profile};
pub use track::{Track, TrackRef, TrackSample, TrackSamples};
