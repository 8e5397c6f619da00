//! 3GPP text: sample entries, samples, their styles and modifiers, and tracks as cues.

mod convert;
mod entry;
mod modifier;
mod parts;
mod sample;
mod text;

pub use convert::{convert, convert_into, convert_room, Converted, ConvertedSizes, DroppedBoxes};
pub use entry::{font_at, Entry, Font, FontAt, Fonts};
pub use modifier::{next_modifier, Modifier, Modifiers};
pub use parts::{Colour, KaraokeEntry, Records, Style, StyleRecord, TextBox};
pub use sample::{next_run, style, text_box, Run, RunAt, Runs, Sample, TextBoxAt};
pub use text::{count_characters, Chars, Text};
