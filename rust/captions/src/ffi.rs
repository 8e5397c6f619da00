//! The static library as it is: the declarations of `include/captions.h`, which says what each
//! means. The safe functions of this crate stand over these.
//!
//! Bytes are a pointer and a length; where the length is 0 the pointer may be null. An output
//! overlaps nothing else that is lent. Number 0 says that nothing is wrong; what an answer
//! leaves free is 0.

#![allow(missing_docs)]

#[repr(C)]
#[derive(Clone, Copy, Debug, PartialEq, Eq)]
pub struct CaptionsRefusal {
    pub number: u32,
    pub place: usize,
    pub offset: usize,
}

#[repr(C)]
#[derive(Clone, Copy, Debug, PartialEq, Eq)]
pub struct CaptionsStep {
    pub refusal: CaptionsRefusal,
    pub found: bool,
    pub kind: u32,
    pub body: usize,
    pub next: usize,
}

#[repr(C)]
#[derive(Clone, Copy, Debug, PartialEq, Eq)]
pub struct CaptionsCue {
    pub refusal: CaptionsRefusal,
    pub found: bool,
    pub named: bool,
    pub id: u32,
    pub identifier_from: usize,
    pub identifier_end: usize,
    pub settings_from: usize,
    pub settings_end: usize,
    pub payload_from: usize,
    pub payload_end: usize,
    pub next: usize,
}

#[repr(C)]
#[derive(Clone, Copy, Debug, PartialEq, Eq)]
pub struct CaptionsWvttEntry {
    pub refusal: CaptionsRefusal,
    pub data_reference_index: u32,
    pub labelled: bool,
    pub configuration_from: usize,
    pub configuration_end: usize,
    pub label_from: usize,
    pub label_end: usize,
}

#[repr(C)]
#[derive(Clone, Copy, Debug, PartialEq, Eq)]
pub struct CaptionsWritten {
    pub refusal: CaptionsRefusal,
    pub bytes: usize,
}

#[repr(C)]
#[derive(Clone, Copy, Debug, PartialEq, Eq)]
pub struct CaptionsSettings {
    pub vertical: u8,
    pub line: u8,
    pub line_align: u8,
    pub position: u8,
    pub position_align: u8,
    pub align: u8,
    pub line_number: i16,
    pub line_percent: u16,
    pub position_percent: u16,
    pub size: u16,
}

#[repr(C)]
#[derive(Clone, Copy, Debug, PartialEq, Eq)]
pub struct CaptionsSettingsRead {
    pub refusal: CaptionsRefusal,
    pub settings: CaptionsSettings,
    pub region_from: usize,
    pub region_end: usize,
}

#[repr(C)]
#[derive(Clone, Copy, Debug, PartialEq, Eq)]
pub struct CaptionsPacked {
    pub refusal: CaptionsRefusal,
    pub samples: usize,
    pub table_bytes: usize,
    pub sample_bytes: usize,
}

#[repr(C)]
#[derive(Clone, Copy, Debug, PartialEq, Eq)]
pub struct CaptionsUnpacked {
    pub refusal: CaptionsRefusal,
    pub record_bytes: usize,
    pub pool_bytes: usize,
    pub t: u32,
}

#[repr(C)]
#[derive(Clone, Copy, Debug, PartialEq, Eq)]
pub struct CaptionsChecked {
    pub refusal: CaptionsRefusal,
    pub who: u32,
}

#[repr(C)]
#[derive(Clone, Copy, Debug, PartialEq, Eq)]
pub struct CaptionsDropped {
    pub refusal: CaptionsRefusal,
    pub samples: usize,
    pub table_bytes: usize,
    pub sample_bytes: usize,
}

#[repr(C)]
#[derive(Clone, Copy, Debug, PartialEq, Eq)]
pub struct CaptionsVttRead {
    pub refusal: CaptionsRefusal,
    pub cues: usize,
    pub record_bytes: usize,
    pub pool_bytes: usize,
}

#[repr(C)]
#[derive(Clone, Copy, Debug, PartialEq, Eq)]
pub struct CaptionsVttWritten {
    pub refusal: CaptionsRefusal,
    pub who: u32,
    pub bytes: usize,
}

#[repr(C)]
#[derive(Clone, Copy, Debug, PartialEq, Eq)]
pub struct CaptionsTx3gEntry {
    pub refusal: CaptionsRefusal,
    pub data_reference_index: u32,
    pub display_flags: u32,
    pub horizontal: i32,
    pub vertical: i32,
    pub background_red: u32,
    pub background_green: u32,
    pub background_blue: u32,
    pub background_alpha: u32,
    pub top: i32,
    pub left: i32,
    pub bottom: i32,
    pub right: i32,
    pub font: u32,
    pub face: u32,
    pub size: u32,
    pub red: u32,
    pub green: u32,
    pub blue: u32,
    pub alpha: u32,
    pub fonts: usize,
    pub fonts_from: usize,
}

#[repr(C)]
#[derive(Clone, Copy, Debug, PartialEq, Eq)]
pub struct CaptionsFont {
    pub found: bool,
    pub id: u32,
    pub name_from: usize,
    pub name_end: usize,
}

#[repr(C)]
#[derive(Clone, Copy, Debug, PartialEq, Eq)]
pub struct CaptionsCount {
    pub refusal: CaptionsRefusal,
    pub characters: usize,
}

#[repr(C)]
#[derive(Clone, Copy, Debug, PartialEq, Eq)]
pub struct CaptionsTx3gSample {
    pub refusal: CaptionsRefusal,
    pub who: u32,
    pub characters: usize,
    pub utf16: bool,
    pub text_from: usize,
    pub text_end: usize,
    pub modifiers: usize,
    pub styles: usize,
    pub styles_from: usize,
    pub retired_blinking: bool,
}

#[repr(C)]
#[derive(Clone, Copy, Debug, PartialEq, Eq)]
pub struct CaptionsStyle {
    pub refusal: CaptionsRefusal,
    pub who: u32,
    pub start: u32,
    pub end: u32,
    pub font: u32,
    pub face: u32,
    pub size: u32,
    pub red: u32,
    pub green: u32,
    pub blue: u32,
    pub alpha: u32,
}

#[repr(C)]
#[derive(Clone, Copy, Debug, PartialEq, Eq)]
pub struct CaptionsRun {
    pub found: bool,
    pub styled: bool,
    pub from: usize,
    pub end: usize,
    pub font: u32,
    pub face: u32,
    pub size: u32,
    pub red: u32,
    pub green: u32,
    pub blue: u32,
    pub alpha: u32,
    pub styles: usize,
    pub styles_from: usize,
}

#[repr(C)]
#[derive(Clone, Copy, Debug, PartialEq, Eq)]
pub struct CaptionsTextBox {
    pub refusal: CaptionsRefusal,
    pub who: u32,
    pub in_sample: bool,
    pub from: usize,
    pub top: i32,
    pub left: i32,
    pub bottom: i32,
    pub right: i32,
}

#[repr(C)]
#[derive(Clone, Copy, Debug, PartialEq, Eq)]
pub struct CaptionsModifier {
    pub refusal: CaptionsRefusal,
    pub found: bool,
    pub kind: u32,
    pub first: u32,
    pub second: u32,
    pub third: u32,
    pub fourth: u32,
    pub from: usize,
    pub end: usize,
    pub alternative_from: usize,
    pub alternative_end: usize,
    pub next: usize,
}

#[repr(C)]
#[derive(Clone, Copy, Debug, PartialEq, Eq)]
pub struct CaptionsTx3gConverted {
    pub refusal: CaptionsRefusal,
    pub who: u32,
    pub cues: usize,
    pub record_bytes: usize,
    pub pool_bytes: usize,
    pub t: u32,
    pub hlit: usize,
    pub retired_blinking: usize,
    pub hclr: usize,
    pub krok: usize,
    pub dlay: usize,
    pub href: usize,
    pub tbox: usize,
    pub twrp: usize,
}

extern "C" {
    pub fn captions_judge_utf8(text: *const u8, text_len: usize) -> CaptionsRefusal;
    pub fn captions_step(bytes: *const u8, bytes_len: usize, at: usize) -> CaptionsStep;
    pub fn captions_tick(scale: u32, ms: u32) -> u64;
    pub fn captions_ms(scale: u32, tick: u64) -> u64;
    pub fn captions_wvtt_judge_identifier(text: *const u8, text_len: usize) -> CaptionsRefusal;
    pub fn captions_wvtt_judge_payload(text: *const u8, text_len: usize) -> CaptionsRefusal;
    pub fn captions_wvtt_judge_profile(text: *const u8, text_len: usize) -> CaptionsRefusal;
    pub fn captions_wvtt_judge_configuration(text: *const u8, text_len: usize) -> CaptionsRefusal;
    pub fn captions_wvtt_judge_label(text: *const u8, text_len: usize) -> CaptionsRefusal;
    pub fn captions_wvtt_judge_sample(sample: *const u8, sample_len: usize) -> CaptionsRefusal;
    pub fn captions_wvtt_next_cue(sample: *const u8, sample_len: usize, from: usize)
        -> CaptionsCue;
    pub fn captions_wvtt_read_entry(entry: *const u8, entry_len: usize) -> CaptionsWvttEntry;
    pub fn captions_wvtt_entry_room(
        configuration: *const u8,
        configuration_len: usize,
        labelled: bool,
        label: *const u8,
        label_len: usize,
    ) -> CaptionsWritten;
    pub fn captions_wvtt_write_entry(
        configuration: *const u8,
        configuration_len: usize,
        labelled: bool,
        label: *const u8,
        label_len: usize,
        data_reference_index: u16,
        entry: *mut u8,
        entry_len: usize,
    ) -> CaptionsWritten;
    pub fn captions_wvtt_read_settings(text: *const u8, text_len: usize) -> CaptionsSettingsRead;
    pub fn captions_wvtt_settings_room(
        settings: CaptionsSettings,
        region: *const u8,
        region_len: usize,
    ) -> CaptionsWritten;
    pub fn captions_wvtt_write_settings(
        settings: CaptionsSettings,
        region: *const u8,
        region_len: usize,
        text: *mut u8,
        text_len: usize,
    ) -> CaptionsWritten;
    pub fn captions_judge_list(
        scale: u32,
        t: u32,
        records: *const u8,
        records_len: usize,
        pool: *const u8,
        pool_len: usize,
    ) -> CaptionsRefusal;
    pub fn captions_wvtt_judge_track(
        table: *const u8,
        table_len: usize,
        samples: *const u8,
        samples_len: usize,
    ) -> CaptionsRefusal;
    pub fn captions_wvtt_pack_room(
        scale: u32,
        t: u32,
        records: *const u8,
        records_len: usize,
        pool: *const u8,
        pool_len: usize,
    ) -> CaptionsPacked;
    pub fn captions_wvtt_pack(
        scale: u32,
        t: u32,
        records: *const u8,
        records_len: usize,
        pool: *const u8,
        pool_len: usize,
        table: *mut u8,
        table_len: usize,
        samples: *mut u8,
        samples_len: usize,
    ) -> CaptionsPacked;
    pub fn captions_wvtt_unpack_room(
        scale: u32,
        table: *const u8,
        table_len: usize,
        samples: *const u8,
        samples_len: usize,
    ) -> CaptionsUnpacked;
    pub fn captions_wvtt_unpack(
        scale: u32,
        table: *const u8,
        table_len: usize,
        samples: *const u8,
        samples_len: usize,
        records: *mut u8,
        records_len: usize,
        pool: *mut u8,
        pool_len: usize,
    ) -> CaptionsUnpacked;
    pub fn captions_wvtt_check(
        scale: u32,
        t: u32,
        records: *const u8,
        records_len: usize,
        pool: *const u8,
        pool_len: usize,
        table: *const u8,
        table_len: usize,
        samples: *const u8,
        samples_len: usize,
    ) -> CaptionsChecked;
    pub fn captions_drop_zero_durations_room(
        table: *const u8,
        table_len: usize,
        samples: *const u8,
        samples_len: usize,
    ) -> CaptionsDropped;
    pub fn captions_drop_zero_durations(
        table: *const u8,
        table_len: usize,
        samples: *const u8,
        samples_len: usize,
        table_out: *mut u8,
        table_out_len: usize,
        samples_out: *mut u8,
        samples_out_len: usize,
    ) -> CaptionsDropped;
    pub fn captions_vtt_read_room(file: *const u8, file_len: usize) -> CaptionsVttRead;
    pub fn captions_vtt_read(
        file: *const u8,
        file_len: usize,
        records: *mut u8,
        records_len: usize,
        pool: *mut u8,
        pool_len: usize,
    ) -> CaptionsVttRead;
    pub fn captions_vtt_write_room(
        configuration: *const u8,
        configuration_len: usize,
        records: *const u8,
        records_len: usize,
        pool: *const u8,
        pool_len: usize,
    ) -> CaptionsVttWritten;
    pub fn captions_vtt_write(
        configuration: *const u8,
        configuration_len: usize,
        records: *const u8,
        records_len: usize,
        pool: *const u8,
        pool_len: usize,
        file: *mut u8,
        file_len: usize,
    ) -> CaptionsVttWritten;
    pub fn captions_tx3g_read_entry(entry: *const u8, entry_len: usize) -> CaptionsTx3gEntry;
    pub fn captions_tx3g_font_at(entry: *const u8, entry_len: usize, at: usize) -> CaptionsFont;
    pub fn captions_tx3g_count_characters(text: *const u8, text_len: usize) -> CaptionsCount;
    pub fn captions_tx3g_read_sample(
        entry: *const u8,
        entry_len: usize,
        sample: *const u8,
        sample_len: usize,
    ) -> CaptionsTx3gSample;
    pub fn captions_tx3g_style(
        entry: *const u8,
        entry_len: usize,
        sample: *const u8,
        sample_len: usize,
        k: usize,
    ) -> CaptionsStyle;
    pub fn captions_tx3g_next_run(
        sample: *const u8,
        sample_len: usize,
        styles: usize,
        styles_from: usize,
        k: usize,
        characters: usize,
    ) -> CaptionsRun;
    pub fn captions_tx3g_text_box(
        entry: *const u8,
        entry_len: usize,
        sample: *const u8,
        sample_len: usize,
    ) -> CaptionsTextBox;
    pub fn captions_tx3g_next_modifier(
        sample: *const u8,
        sample_len: usize,
        from: usize,
    ) -> CaptionsModifier;
    pub fn captions_tx3g_convert_room(
        scale: u32,
        entry: *const u8,
        entry_len: usize,
        table: *const u8,
        table_len: usize,
        samples: *const u8,
        samples_len: usize,
    ) -> CaptionsTx3gConverted;
    pub fn captions_tx3g_convert(
        scale: u32,
        entry: *const u8,
        entry_len: usize,
        table: *const u8,
        table_len: usize,
        samples: *const u8,
        samples_len: usize,
        records: *mut u8,
        records_len: usize,
        pool: *mut u8,
        pool_len: usize,
    ) -> CaptionsTx3gConverted;
}
