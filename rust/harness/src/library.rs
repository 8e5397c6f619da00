//! What an implementation offers.

use captions_model::boxes::BoxAt;
use captions_model::lasting::Dropped;
use captions_model::pack::Packed;
use captions_model::runs::{Run, RunAt};
use captions_model::settings::Settings;
use captions_model::tx3g::{Converted, Fields, Font, Modifier};
use captions_model::unpack::Unpacked;
use captions_model::vtt::Read as VttRead;
use captions_model::wvtt::{Cue, Entry};
use captions_model::{Fault, Refusal, Span, Who};

/// An answer, or none where the implementation does not offer the operation.
pub type Offered<T> = Option<T>;

/// What is found, and where to look for the next; or none at the end.
pub type Next<T> = Option<(T, usize)>;

/// Where the text box in force stands, its eight bytes, and what they say.
#[derive(Clone, Copy, Debug, PartialEq, Eq)]
pub struct TextBoxAt {
    pub who: Who,
    pub offset: usize,
    pub bytes: [u8; 8],
    /// Top, left, bottom, right.
    pub sides: [i16; 4],
}

/// What a `tx3g` sample holds, and where.
#[derive(Clone, Copy, Debug, PartialEq, Eq)]
pub struct Tx3gSample {
    pub characters: usize,
    pub utf16: bool,
    /// The text without the mark of UTF-16.
    pub text: Span,
    /// Where the modifier boxes begin.
    pub modifiers: usize,
    /// How many styles there are, and where the first stands; 0 and 0 without `styl`.
    pub styles: usize,
    pub styles_from: usize,
    /// Whether there is a `blnk`.
    pub retired_blinking: bool,
}

/// What [`Library::next_run`] is asked beside the sample.
#[derive(Clone, Copy, Debug, PartialEq, Eq)]
pub struct RunInput {
    pub styles: usize,
    pub styles_from: usize,
    pub k: usize,
    pub characters: usize,
}

/// An implementation of the captions library. Every operation may be left out.
#[allow(unused_variables)]
pub trait Library {
    /// The big-endian 16-bit field at `at`, which lies in the bytes.
    fn be16(&self, bytes: &[u8], at: usize) -> Offered<u16> {
        None
    }

    /// The big-endian 32-bit field at `at`, which lies in the bytes.
    fn be32(&self, bytes: &[u8], at: usize) -> Offered<u32> {
        None
    }

    /// The tick of a time. The scale is 1 to 1,000,000, the time at most 359,999,999.
    fn tick(&self, scale: u32, ms: u32) -> Offered<u64> {
        None
    }

    /// The milliseconds of a tick. The scale is 1 to 1,000,000, the tick below 2^48.
    fn milliseconds(&self, scale: u32, tick: u64) -> Offered<u64> {
        None
    }

    /// Judges a text as UTF-8. A bad text has place 0, here and below.
    fn judge_utf8(&self, text: &[u8]) -> Offered<Result<(), Refusal>> {
        None
    }

    /// Judges a text by the rule of identifiers and settings, length aside.
    fn judge_identifier(&self, text: &[u8]) -> Offered<Result<(), Refusal>> {
        None
    }

    /// Judges a text by the rule of payloads, length aside.
    fn judge_payload(&self, text: &[u8]) -> Offered<Result<(), Refusal>> {
        None
    }

    /// Judges a payload by its length, its rule and the tag profile.
    fn judge_profile(&self, text: &[u8]) -> Offered<Result<(), Refusal>> {
        None
    }

    /// Reads a settings text, and where its region's name stands; an empty part where it has none.
    fn read_settings(&self, text: &[u8]) -> Offered<Result<(Settings, Span), Refusal>> {
        None
    }

    /// The length of settings and a region's name as a text.
    fn settings_room(&self, settings: &Settings, region: &[u8]) -> Offered<Result<usize, Refusal>> {
        None
    }

    /// Writes settings and a region's name as a text, and gives its length.
    fn write_settings(
        &self,
        settings: &Settings,
        region: &[u8],
        text: &mut [u8],
    ) -> Offered<Result<usize, Refusal>> {
        None
    }

    /// Judges a text as a `vttC` body.
    fn judge_configuration(&self, text: &[u8]) -> Offered<Result<(), Refusal>> {
        None
    }

    /// Judges a text as a `vlab` body.
    fn judge_label(&self, text: &[u8]) -> Offered<Result<(), Refusal>> {
        None
    }

    /// The character count of a `tx3g` text.
    fn characters(&self, text: &[u8]) -> Offered<Result<usize, Refusal>> {
        None
    }

    /// The box at `at`, which is at most the length; the container ends with the bytes.
    fn box_step(&self, bytes: &[u8], at: usize) -> Offered<Result<BoxAt, Refusal>> {
        None
    }

    /// Judges a WebVTT sample.
    fn judge_sample(&self, sample: &[u8]) -> Offered<Result<(), Refusal>> {
        None
    }

    /// Judges a WebVTT sample; gives the cues of a good one from left to right. The start of an
    /// empty text is free.
    fn cues(&self, sample: &[u8]) -> Offered<Result<Vec<Cue>, Refusal>> {
        None
    }

    /// The first cue of any bytes from a place on, and where to look for the next.
    fn next_cue(&self, sample: &[u8], from: usize) -> Offered<Result<Next<Cue>, Refusal>> {
        None
    }

    /// Judges a `wvtt` sample entry and reads it.
    fn read_wvtt_entry(&self, entry: &[u8]) -> Offered<Result<Entry, Refusal>> {
        None
    }

    /// The length of a `wvtt` sample entry with a configuration and, if it is given, a label.
    fn wvtt_entry_room(
        &self,
        configuration: &[u8],
        label: Option<&[u8]>,
    ) -> Offered<Result<usize, Refusal>> {
        None
    }

    /// Writes such an entry with a data reference index, and gives its length.
    fn write_wvtt_entry(
        &self,
        configuration: &[u8],
        label: Option<&[u8]>,
        index: u16,
        entry: &mut [u8],
    ) -> Offered<Result<usize, Refusal>> {
        None
    }

    /// Judges a cue list as packing does, without the room of outputs.
    fn judge_list(
        &self,
        scale: u32,
        t: u32,
        records: &[u8],
        pool: &[u8],
    ) -> Offered<Result<(), Refusal>> {
        None
    }

    /// What packing answers given room for everything.
    fn pack_room(
        &self,
        scale: u32,
        t: u32,
        records: &[u8],
        pool: &[u8],
    ) -> Offered<Result<Packed, Refusal>> {
        None
    }

    /// Packs a cue list into a table and samples.
    fn pack(
        &self,
        scale: u32,
        t: u32,
        records: &[u8],
        pool: &[u8],
        table: &mut [u8],
        samples: &mut [u8],
    ) -> Offered<Result<Packed, Refusal>> {
        None
    }

    /// Judges a track.
    fn judge_track(&self, table: &[u8], samples: &[u8]) -> Offered<Result<(), Refusal>> {
        None
    }

    /// What unpacking answers given room for everything.
    fn unpack_room(
        &self,
        scale: u32,
        table: &[u8],
        samples: &[u8],
    ) -> Offered<Result<Unpacked, Refusal>> {
        None
    }

    /// Unpacks a track into records and a pool.
    fn unpack(
        &self,
        scale: u32,
        table: &[u8],
        samples: &[u8],
        records: &mut [u8],
        pool: &mut [u8],
    ) -> Offered<Result<Unpacked, Refusal>> {
        None
    }

    /// What dropping the samples of duration 0 answers given room for everything.
    fn drop_zero_durations_room(
        &self,
        table: &[u8],
        samples: &[u8],
    ) -> Offered<Result<Dropped, Refusal>> {
        None
    }

    /// Copies a table and its samples without those of duration 0.
    fn drop_zero_durations(
        &self,
        table: &[u8],
        samples: &[u8],
        table_out: &mut [u8],
        samples_out: &mut [u8],
    ) -> Offered<Result<Dropped, Refusal>> {
        None
    }

    /// Checks a track against a cue list.
    fn check(
        &self,
        scale: u32,
        t: u32,
        records: &[u8],
        pool: &[u8],
        table: &[u8],
        samples: &[u8],
    ) -> Offered<Result<(), Fault>> {
        None
    }

    /// What reading a WebVTT file answers given room for everything.
    fn read_vtt_room(&self, file: &[u8]) -> Offered<Result<VttRead, Refusal>> {
        None
    }

    /// Reads a WebVTT file into records and a pool.
    fn read_vtt(
        &self,
        file: &[u8],
        records: &mut [u8],
        pool: &mut [u8],
    ) -> Offered<Result<VttRead, Refusal>> {
        None
    }

    /// What writing a WebVTT file answers given room for everything.
    fn write_vtt_room(
        &self,
        configuration: &[u8],
        records: &[u8],
        pool: &[u8],
    ) -> Offered<Result<usize, Fault>> {
        None
    }

    /// Writes a configuration and a cue list as a WebVTT file, and gives its length.
    fn write_vtt(
        &self,
        configuration: &[u8],
        records: &[u8],
        pool: &[u8],
        file: &mut [u8],
    ) -> Offered<Result<usize, Fault>> {
        None
    }

    /// Judges a `tx3g` sample entry and reads it.
    fn read_tx3g_entry(&self, entry: &[u8]) -> Offered<Result<Fields, Refusal>> {
        None
    }

    /// The fonts of a `tx3g` sample entry in order.
    fn fonts(&self, entry: &[u8]) -> Offered<Result<Vec<Font>, Refusal>> {
        None
    }

    /// The font that stands at a byte of any bytes, or none.
    fn font_at(&self, entry: &[u8], at: usize) -> Offered<Option<Font>> {
        None
    }

    /// Judges a `tx3g` entry and sample, and reads the sample.
    fn read_tx3g_sample(&self, entry: &[u8], sample: &[u8]) -> Offered<Result<Tx3gSample, Fault>> {
        None
    }

    /// The runs of a sample of one style each, from the first character to the last.
    fn runs(&self, entry: &[u8], sample: &[u8]) -> Offered<Result<Vec<Run>, Fault>> {
        None
    }

    /// The run from a character on, of any bytes and any numbers; or none.
    fn next_run(&self, sample: &[u8], input: RunInput) -> Offered<Option<RunAt>> {
        None
    }

    /// Judges a `tx3g` entry and sample; gives the modifiers of a good one from left to right,
    /// other boxes passed over. The start of an empty part is free.
    fn modifiers(&self, entry: &[u8], sample: &[u8]) -> Offered<Result<Vec<Modifier>, Fault>> {
        None
    }

    /// The first modifier of any bytes from a place on, and where to look for the next.
    fn next_modifier(
        &self,
        sample: &[u8],
        from: usize,
    ) -> Offered<Result<Next<Modifier>, Refusal>> {
        None
    }

    /// The twelve bytes of the style of character `k`.
    fn style(&self, entry: &[u8], sample: &[u8], k: usize) -> Offered<Result<[u8; 12], Fault>> {
        None
    }

    /// The text box in force.
    fn text_box(&self, entry: &[u8], sample: &[u8]) -> Offered<Result<TextBoxAt, Fault>> {
        None
    }

    /// What converting a `tx3g` track answers given room for everything.
    fn convert_tx3g_room(
        &self,
        scale: u32,
        entry: &[u8],
        table: &[u8],
        samples: &[u8],
    ) -> Offered<Result<Converted, Fault>> {
        None
    }

    /// Converts a `tx3g` track into records and a pool.
    fn convert_tx3g(
        &self,
        scale: u32,
        entry: &[u8],
        table: &[u8],
        samples: &[u8],
        records: &mut [u8],
        pool: &mut [u8],
    ) -> Offered<Result<Converted, Fault>> {
        None
    }

    /// The program's output for standard input and its two files, none for a missing file.
    fn program(
        &self,
        input: &[u8],
        records: Option<&[u8]>,
        pool: Option<&[u8]>,
    ) -> Offered<Vec<u8>> {
        None
    }
}
