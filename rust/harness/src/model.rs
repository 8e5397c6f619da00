//! The model as a library.

use captions_model::boxes::{self, BoxAt};
use captions_model::lasting::{self, Dropped};
use captions_model::pack::{self, Packed};
use captions_model::runs::{self, Run, RunAt};
use captions_model::settings::{self, Settings};
use captions_model::tx3g::{self, Converted, Fields, Font, Modifier};
use captions_model::unpack::{self, Unpacked};
use captions_model::vtt::{self, Read as VttRead};
use captions_model::wvtt::{self, Cue, Entry};
use captions_model::{check, list, profile, program, text, time, track, Fault, Refusal, Span};

use crate::library::{Library, Next, Offered, RunInput, TextBoxAt, Tx3gSample};

/// The plain model.
pub struct Model;

/// The refusal of a text by itself.
fn bad_text(offset: usize) -> Refusal {
    Refusal::bad_text(0, offset)
}

fn judged(fault: Option<usize>) -> Result<(), Refusal> {
    fault.map_or(Ok(()), |offset| Err(bad_text(offset)))
}

fn tx3g_sample(sample: tx3g::Sample) -> Tx3gSample {
    let (styles, styles_from) = sample.style_table();
    Tx3gSample {
        characters: sample.characters,
        utf16: sample.utf16,
        text: sample.text,
        modifiers: sample.modifiers,
        styles,
        styles_from,
        retired_blinking: sample.retired_blinking,
    }
}

impl Library for Model {
    fn be16(&self, bytes: &[u8], at: usize) -> Offered<u16> {
        Some(boxes::be16(bytes, at))
    }

    fn be32(&self, bytes: &[u8], at: usize) -> Offered<u32> {
        Some(boxes::be32(bytes, at))
    }

    fn tick(&self, scale: u32, ms: u32) -> Offered<u64> {
        Some(time::tick(scale, ms))
    }

    fn milliseconds(&self, scale: u32, tick: u64) -> Offered<u64> {
        Some(time::milliseconds(scale, tick))
    }

    fn judge_utf8(&self, text: &[u8]) -> Offered<Result<(), Refusal>> {
        Some(judged(text::utf8_fault(text)))
    }

    fn judge_identifier(&self, text: &[u8]) -> Offered<Result<(), Refusal>> {
        Some(judged(text::identifier_fault(text)))
    }

    fn judge_payload(&self, text: &[u8]) -> Offered<Result<(), Refusal>> {
        Some(judged(text::payload_fault(text)))
    }

    fn judge_profile(&self, text: &[u8]) -> Offered<Result<(), Refusal>> {
        Some(profile::judge_profile(text))
    }

    fn read_settings(&self, text: &[u8]) -> Offered<Result<(Settings, Span), Refusal>> {
        Some(settings::read_settings(text))
    }

    fn settings_room(&self, settings: &Settings, region: &[u8]) -> Offered<Result<usize, Refusal>> {
        Some(settings::settings_room(settings, region))
    }

    fn write_settings(
        &self,
        settings: &Settings,
        region: &[u8],
        text: &mut [u8],
    ) -> Offered<Result<usize, Refusal>> {
        Some(settings::write_settings(settings, region, text))
    }

    fn judge_configuration(&self, text: &[u8]) -> Offered<Result<(), Refusal>> {
        Some(judged(text::configuration_fault(text)))
    }

    fn judge_label(&self, text: &[u8]) -> Offered<Result<(), Refusal>> {
        Some(judged(text::label_fault(text)))
    }

    fn characters(&self, text: &[u8]) -> Offered<Result<usize, Refusal>> {
        Some(text::characters(text).map_err(bad_text))
    }

    fn box_step(&self, bytes: &[u8], at: usize) -> Offered<Result<BoxAt, Refusal>> {
        Some(boxes::step(bytes, at))
    }

    fn judge_sample(&self, sample: &[u8]) -> Offered<Result<(), Refusal>> {
        Some(wvtt::judge_sample(sample))
    }

    fn cues(&self, sample: &[u8]) -> Offered<Result<Vec<Cue>, Refusal>> {
        Some(wvtt::judge_sample(sample).map(|()| wvtt::cues(sample).collect()))
    }

    fn next_cue(&self, sample: &[u8], from: usize) -> Offered<Result<Next<Cue>, Refusal>> {
        Some(wvtt::next_cue(sample, from))
    }

    fn read_wvtt_entry(&self, entry: &[u8]) -> Offered<Result<Entry, Refusal>> {
        Some(wvtt::read_entry(entry))
    }

    fn wvtt_entry_room(
        &self,
        configuration: &[u8],
        label: Option<&[u8]>,
    ) -> Offered<Result<usize, Refusal>> {
        Some(wvtt::entry_room(configuration, label))
    }

    fn write_wvtt_entry(
        &self,
        configuration: &[u8],
        label: Option<&[u8]>,
        index: u16,
        entry: &mut [u8],
    ) -> Offered<Result<usize, Refusal>> {
        Some(wvtt::write_entry(configuration, label, index, entry))
    }

    fn judge_list(
        &self,
        scale: u32,
        t: u32,
        records: &[u8],
        pool: &[u8],
    ) -> Offered<Result<(), Refusal>> {
        Some(list::judge_list(scale, t, records, pool))
    }

    fn pack_room(
        &self,
        scale: u32,
        t: u32,
        records: &[u8],
        pool: &[u8],
    ) -> Offered<Result<Packed, Refusal>> {
        Some(pack::room(scale, t, records, pool))
    }

    fn pack(
        &self,
        scale: u32,
        t: u32,
        records: &[u8],
        pool: &[u8],
        table: &mut [u8],
        samples: &mut [u8],
    ) -> Offered<Result<Packed, Refusal>> {
        Some(pack::pack(scale, t, records, pool, table, samples))
    }

    fn judge_track(&self, table: &[u8], samples: &[u8]) -> Offered<Result<(), Refusal>> {
        Some(track::judge_track(table, samples))
    }

    fn unpack_room(
        &self,
        scale: u32,
        table: &[u8],
        samples: &[u8],
    ) -> Offered<Result<Unpacked, Refusal>> {
        Some(unpack::room(scale, table, samples))
    }

    fn unpack(
        &self,
        scale: u32,
        table: &[u8],
        samples: &[u8],
        records: &mut [u8],
        pool: &mut [u8],
    ) -> Offered<Result<Unpacked, Refusal>> {
        Some(unpack::unpack(scale, table, samples, records, pool))
    }

    fn drop_zero_durations_room(
        &self,
        table: &[u8],
        samples: &[u8],
    ) -> Offered<Result<Dropped, Refusal>> {
        Some(lasting::room(table, samples))
    }

    fn drop_zero_durations(
        &self,
        table: &[u8],
        samples: &[u8],
        table_out: &mut [u8],
        samples_out: &mut [u8],
    ) -> Offered<Result<Dropped, Refusal>> {
        let dropped = lasting::drop_zero_durations(table, samples, table_out, samples_out);
        Some(dropped)
    }

    fn check(
        &self,
        scale: u32,
        t: u32,
        records: &[u8],
        pool: &[u8],
        table: &[u8],
        samples: &[u8],
    ) -> Offered<Result<(), Fault>> {
        Some(check::check(scale, t, records, pool, table, samples))
    }

    fn read_vtt_room(&self, file: &[u8]) -> Offered<Result<VttRead, Refusal>> {
        Some(vtt::room(file))
    }

    fn read_vtt(
        &self,
        file: &[u8],
        records: &mut [u8],
        pool: &mut [u8],
    ) -> Offered<Result<VttRead, Refusal>> {
        Some(vtt::read(file, records, pool))
    }

    fn write_vtt_room(
        &self,
        configuration: &[u8],
        records: &[u8],
        pool: &[u8],
    ) -> Offered<Result<usize, Fault>> {
        Some(vtt::write_room(configuration, records, pool))
    }

    fn write_vtt(
        &self,
        configuration: &[u8],
        records: &[u8],
        pool: &[u8],
        file: &mut [u8],
    ) -> Offered<Result<usize, Fault>> {
        Some(vtt::write(configuration, records, pool, file))
    }

    fn read_tx3g_entry(&self, entry: &[u8]) -> Offered<Result<Fields, Refusal>> {
        Some(tx3g::read_entry(entry).map(|entry| entry.fields()))
    }

    fn fonts(&self, entry: &[u8]) -> Offered<Result<Vec<Font>, Refusal>> {
        Some(tx3g::fonts(entry))
    }

    fn font_at(&self, entry: &[u8], at: usize) -> Offered<Option<Font>> {
        Some(tx3g::font_at(entry, at))
    }

    fn read_tx3g_sample(&self, entry: &[u8], sample: &[u8]) -> Offered<Result<Tx3gSample, Fault>> {
        Some(tx3g::read_sample(entry, sample).map(tx3g_sample))
    }

    fn runs(&self, entry: &[u8], sample: &[u8]) -> Offered<Result<Vec<Run>, Fault>> {
        Some(runs::runs(entry, sample).map(Iterator::collect))
    }

    fn next_run(&self, sample: &[u8], input: RunInput) -> Offered<Option<RunAt>> {
        let RunInput {
            styles,
            styles_from,
            k,
            characters,
        } = input;
        Some(runs::next_run(sample, styles, styles_from, k, characters))
    }

    fn modifiers(&self, entry: &[u8], sample: &[u8]) -> Offered<Result<Vec<Modifier>, Fault>> {
        Some(tx3g::read_sample(entry, sample).map(|_| tx3g::modifiers(sample).collect()))
    }

    fn next_modifier(
        &self,
        sample: &[u8],
        from: usize,
    ) -> Offered<Result<Next<Modifier>, Refusal>> {
        Some(tx3g::next_modifier(sample, from))
    }

    fn style(&self, entry: &[u8], sample: &[u8], k: usize) -> Offered<Result<[u8; 12], Fault>> {
        Some(tx3g::style(entry, sample, k))
    }

    fn text_box(&self, entry: &[u8], sample: &[u8]) -> Offered<Result<TextBoxAt, Fault>> {
        Some(tx3g::text_box(entry, sample).map(|found| {
            let mut bytes = [0; 8];
            bytes.copy_from_slice(found.bytes);
            TextBoxAt {
                who: found.who,
                offset: found.offset,
                bytes,
                sides: found.sides,
            }
        }))
    }

    fn convert_tx3g_room(
        &self,
        scale: u32,
        entry: &[u8],
        table: &[u8],
        samples: &[u8],
    ) -> Offered<Result<Converted, Fault>> {
        Some(tx3g::convert_room(scale, entry, table, samples))
    }

    fn convert_tx3g(
        &self,
        scale: u32,
        entry: &[u8],
        table: &[u8],
        samples: &[u8],
        records: &mut [u8],
        pool: &mut [u8],
    ) -> Offered<Result<Converted, Fault>> {
        Some(tx3g::convert(scale, entry, table, samples, records, pool))
    }

    fn program(
        &self,
        input: &[u8],
        records: Option<&[u8]>,
        pool: Option<&[u8]>,
    ) -> Offered<Vec<u8>> {
        Some(program::answer(input, records, pool))
    }
}
