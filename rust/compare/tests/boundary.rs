//! What is said of every function: no bytes are answered, null or not; what an answer leaves free
//! is 0.

use std::fmt::Debug;
use std::mem::zeroed;
use std::ptr::{null, null_mut};

use captions::ffi::*;
use captions_harness::generate as make;
use captions_harness::random::Random;

const DONE: CaptionsRefusal = refused(0, 0);

const fn refused(number: u32, place: usize) -> CaptionsRefusal {
    CaptionsRefusal {
        number,
        place,
        offset: 0,
    }
}

/// An answer that is all 0.
trait Answer: Copy + PartialEq + Debug {
    fn zero() -> Self;
    /// The same refusal, and all else 0.
    fn refusal_only(&self) -> Self;
    fn refusal(&self) -> CaptionsRefusal;
}

macro_rules! answers {
    ($($name:ident: $($kept:ident),*;)*) => {$(
        impl Answer for $name {
            fn zero() -> Self {
                // SAFETY: numbers and truth values, for which 0 is good.
                unsafe { zeroed() }
            }

            fn refusal_only(&self) -> Self {
                let mut only = Self::zero();
                $(only.$kept = self.$kept;)*
                only
            }

            fn refusal(&self) -> CaptionsRefusal {
                self.refusal
            }
        }
    )*};
}

answers! {
    CaptionsStep: refusal;
    CaptionsCue: refusal;
    CaptionsWvttEntry: refusal;
    CaptionsWritten: refusal;
    CaptionsSettingsRead: refusal;
    CaptionsPacked: refusal;
    CaptionsUnpacked: refusal;
    CaptionsDropped: refusal;
    CaptionsVttRead: refusal;
    CaptionsTx3gEntry: refusal;
    CaptionsCount: refusal;
    CaptionsModifier: refusal;
    CaptionsVttWritten: refusal, who;
    CaptionsChecked: refusal, who;
    CaptionsTx3gSample: refusal, who;
    CaptionsStyle: refusal, who;
    CaptionsTextBox: refusal, who;
    CaptionsTx3gConverted: refusal, who;
}

/// Judged by its refusal alone.
fn is_refusal<A: Answer>(answer: A, number: u32, place: usize) {
    assert_eq!(answer.refusal(), refused(number, place));
    assert_eq!(answer, answer.refusal_only());
}

/// Calls with no bytes through null and through another pointer, and sees that both are alike.
fn both_ways<A: PartialEq + Debug>(ask: impl Fn(*const u8) -> A) -> A {
    let (by_null, by_other) = (ask(null()), ask([0u8; 0].as_ptr()));
    assert_eq!(by_null, by_other);
    by_null
}

#[test]
fn no_text_is_answered() {
    // SAFETY: no bytes.
    unsafe {
        assert_eq!(both_ways(|p| captions_judge_utf8(p, 0)), DONE);
        assert_eq!(both_ways(|p| captions_wvtt_judge_identifier(p, 0)), DONE);
        assert_eq!(both_ways(|p| captions_wvtt_judge_payload(p, 0)), DONE);
        assert_eq!(both_ways(|p| captions_wvtt_judge_profile(p, 0)), DONE);
        let settings = both_ways(|p| captions_wvtt_read_settings(p, 0));
        assert_eq!(settings.refusal, DONE);
        assert_eq!((settings.region_from, settings.region_end), (0, 0));
        let configuration = both_ways(|p| captions_wvtt_judge_configuration(p, 0));
        assert_eq!(configuration, refused(6, 0));
        assert_eq!(both_ways(|p| captions_wvtt_judge_label(p, 0)), DONE);
        let count = both_ways(|p| captions_tx3g_count_characters(p, 0));
        assert_eq!(count, CaptionsCount::zero());
    }
}

#[test]
fn no_sample_and_no_entry_are_answered() {
    // SAFETY: no bytes.
    unsafe {
        let step = both_ways(|p| captions_step(p, 0, 0));
        assert_eq!(step, CaptionsStep::zero());
        let sample = both_ways(|p| captions_wvtt_judge_sample(p, 0));
        assert_eq!(sample, refused(4, 0));
        let cue = both_ways(|p| captions_wvtt_next_cue(p, 0, 0));
        assert_eq!(cue, CaptionsCue::zero());
        is_refusal(both_ways(|p| captions_wvtt_read_entry(p, 0)), 1, 0);
        is_refusal(both_ways(|p| captions_tx3g_read_entry(p, 0)), 1, 0);
        let font = both_ways(|p| captions_tx3g_font_at(p, 0, 0));
        assert!(!font.found && font.id == 0 && font.name_from == 0 && font.name_end == 0);
        let modifier = both_ways(|p| captions_tx3g_next_modifier(p, 0, 0));
        assert_eq!(modifier, CaptionsModifier::zero());
        let run = both_ways(|p| captions_tx3g_next_run(p, 0, 1, 0, 2, 3));
        assert!(run.found && !run.styled && (run.from, run.end) == (2, 3));
        assert_eq!((run.styles, run.styles_from), (0, 0));
        let run = both_ways(|p| captions_tx3g_next_run(p, 0, 1, 0, 3, 3));
        assert!(!run.found && run.end == 0 && run.styles == 0);
    }
}

#[test]
fn no_tx3g_entry_beside_no_sample_is_answered() {
    // SAFETY: no bytes.
    unsafe {
        let sample = both_ways(|p| captions_tx3g_read_sample(p, 0, p, 0));
        is_refusal(sample, 1, 0);
        let style = both_ways(|p| captions_tx3g_style(p, 0, p, 0, 0));
        is_refusal(style, 1, 0);
        let text_box = both_ways(|p| captions_tx3g_text_box(p, 0, p, 0));
        is_refusal(text_box, 1, 0);
        assert_eq!([sample.who, style.who, text_box.who], [1; 3]);
    }
}

#[test]
fn no_list_and_no_track_are_answered() {
    // SAFETY: no bytes.
    unsafe {
        assert_eq!(
            both_ways(|p| captions_judge_list(1000, 1, p, 0, p, 0)),
            DONE
        );
        assert_eq!(both_ways(|p| captions_wvtt_judge_track(p, 0, p, 0)), DONE);
        let room = both_ways(|p| captions_wvtt_pack_room(1000, 1, p, 0, p, 0));
        assert_eq!(room.refusal, DONE);
        assert_eq!(
            (room.samples, room.table_bytes, room.sample_bytes),
            (1, 8, 8)
        );
        let room = both_ways(|p| captions_wvtt_unpack_room(1000, p, 0, p, 0));
        is_refusal(room, 10, 0);
        let checked = both_ways(|p| captions_wvtt_check(1000, 1, p, 0, p, 0, p, 0, p, 0));
        is_refusal(checked, 16, 0);
        assert_eq!(checked.who, 4);
        let room = both_ways(|p| captions_drop_zero_durations_room(p, 0, p, 0));
        assert_eq!(room, CaptionsDropped::zero());
        let none: *mut u8 = null_mut();
        let dropped = both_ways(|p| captions_drop_zero_durations(p, 0, p, 0, none, 0, none, 0));
        assert_eq!(dropped, CaptionsDropped::zero());
    }
}

/// An entry of font 1 and nothing else.
fn bare_entry() -> Vec<u8> {
    let mut entry = b"\0\0\0\x3Btx3g".to_vec();
    entry.extend([0; 38]);
    entry[39] = 1;
    entry.extend(b"\0\0\0\x0Dftab\0\x01\0\x01\0");
    entry
}

#[test]
fn no_tx3g_track_is_answered() {
    let none: *mut u8 = null_mut();
    let entry = bare_entry();
    let (e, e_len) = (entry.as_ptr(), entry.len());
    // SAFETY: no bytes, or a pointer and the length of a slice.
    unsafe {
        let room = |scale| both_ways(|p| captions_tx3g_convert_room(scale, p, 0, p, 0, p, 0));
        is_refusal(room(0), 10, 0);
        is_refusal(room(1), 1, 0);
        assert_eq!([room(0).who, room(1).who], [4, 1]);
        let room = both_ways(|p| captions_tx3g_convert_room(1, e, e_len, p, 0, p, 0));
        is_refusal(room, 10, 0);
        let converted =
            both_ways(|p| captions_tx3g_convert(1, e, e_len, p, 0, p, 0, none, 0, none, 0));
        assert_eq!((converted, room.who), (room, 4));
    }
}

#[test]
fn no_file_is_answered() {
    let none: *mut u8 = null_mut();
    // SAFETY: no bytes, or a pointer and the length of a slice.
    unsafe {
        is_refusal(both_ways(|p| captions_vtt_read_room(p, 0)), 19, 1);
        let read = both_ways(|p| captions_vtt_read(p, 0, none, 0, none, 0));
        is_refusal(read, 19, 1);
        let bare = b"WEBVTT".as_ptr();
        let read = captions_vtt_read(bare, 6, none, 0, none, 0);
        assert_eq!(read, CaptionsVttRead::zero());
    }
}

#[test]
fn no_configuration_and_no_list_are_answered() {
    let none: *mut u8 = null_mut();
    let bare = b"WEBVTT".as_ptr();
    // SAFETY: no bytes, or a pointer and the length of a slice.
    unsafe {
        let room = both_ways(|p| captions_vtt_write_room(p, 0, p, 0, p, 0));
        let written = both_ways(|p| captions_vtt_write(p, 0, p, 0, p, 0, none, 0));
        is_refusal(room, 6, 0);
        assert_eq!((room.who, written), (5, room));
        let room = both_ways(|p| captions_vtt_write_room(bare, 6, p, 0, p, 0));
        assert_eq!((room.refusal, room.who, room.bytes), (DONE, 0, 8));
        let written = both_ways(|p| captions_vtt_write(bare, 6, p, 0, p, 0, none, 0));
        is_refusal(written, 15, 0);
        assert_eq!(written.who, 6);
        let room = both_ways(|p| captions_vtt_write_room(bare, 6, bare, 6, p, 0));
        is_refusal(room, 1, 0);
        assert_eq!(room.who, 3);
    }
}

#[test]
fn no_room_is_answered() {
    let none: *mut u8 = null_mut();
    let (row, sample) = (b"\0\0\0\x01\0\0\0\x08", b"\0\0\0\x08vtte");
    // SAFETY: no bytes, or pointers and lengths of slices.
    unsafe {
        let packed = captions_wvtt_pack(1000, 1, null(), 0, null(), 0, none, 0, none, 0);
        is_refusal(packed, 15, 0);
        let mut table = [0u8; 8];
        let table = table.as_mut_ptr();
        let packed = captions_wvtt_pack(1000, 1, null(), 0, null(), 0, table, 8, none, 0);
        is_refusal(packed, 15, 1);
        let (table, samples) = (row.as_ptr(), sample.as_ptr());
        let unpacked = captions_wvtt_unpack(1000, table, 8, samples, 8, none, 0, none, 0);
        assert_eq!((unpacked.refusal, unpacked.t), (DONE, 1));
        let file = b"WEBVTT\n\n00:00.000 --> 00:01.000\nHi";
        let (file, len) = (file.as_ptr(), file.len());
        is_refusal(captions_vtt_read(file, len, none, 0, none, 0), 15, 0);
        let mut records = [0u8; 24];
        let records = records.as_mut_ptr();
        is_refusal(captions_vtt_read(file, len, records, 24, none, 0), 15, 1);
        let text = b"WEBVTT".as_ptr();
        let entry = captions_wvtt_write_entry(text, 6, false, null(), 0, 1, none, 0);
        is_refusal(entry, 15, 0);
        let room = captions_wvtt_entry_room(text, 6, false, null(), 0);
        assert_eq!((room.refusal, room.bytes), (DONE, 30));
        let room = captions_wvtt_entry_room(text, 6, true, null(), 0);
        assert_eq!((room.refusal, room.bytes), (DONE, 38));
        let room = captions_wvtt_entry_room(null(), 0, false, null(), 0);
        is_refusal(room, 6, 0);
    }
}

/// Settings that are the default need no bytes; others do.
#[test]
fn no_region_and_no_room_for_settings_are_answered() {
    let none: *mut u8 = null_mut();
    // SAFETY: no bytes.
    unsafe {
        let mut settings = captions_wvtt_read_settings(null(), 0).settings;
        let room = both_ways(|p| captions_wvtt_settings_room(settings, p, 0));
        assert_eq!(room, CaptionsWritten::zero());
        let written = both_ways(|p| captions_wvtt_write_settings(settings, p, 0, none, 0));
        assert_eq!(written, CaptionsWritten::zero());
        settings.size = 0;
        let room = both_ways(|p| captions_wvtt_settings_room(settings, p, 0));
        assert_eq!((room.refusal, room.bytes), (DONE, 7));
        let written = both_ways(|p| captions_wvtt_write_settings(settings, p, 0, none, 0));
        is_refusal(written, 15, 0);
        settings.size = 10_001;
        let written = both_ways(|p| captions_wvtt_write_settings(settings, p, 0, none, 0));
        is_refusal(written, 8, 0);
    }
}

#[test]
fn no_room_for_an_old_track_is_answered() {
    let none: *mut u8 = null_mut();
    let (entry, row, sample) = (bare_entry(), b"\0\0\0\x01\0\0\0\x03", b"\0\x01a");
    let (e, e_len, table, samples) = (entry.as_ptr(), 59, row.as_ptr(), sample.as_ptr());
    let mut out = [0u8; 24];
    let out = out.as_mut_ptr();
    // SAFETY: no bytes, or pointers and lengths of slices.
    unsafe {
        let drop = |room, bytes| {
            captions_drop_zero_durations(table, 8, samples, 3, out, room, none, bytes)
        };
        is_refusal(drop(7, 0), 15, 0);
        is_refusal(drop(8, 0), 15, 1);
        let convert =
            |room| captions_tx3g_convert(1000, e, e_len, table, 8, samples, 3, out, room, none, 0);
        is_refusal(convert(23), 15, 0);
        is_refusal(convert(24), 15, 1);
        assert_eq!([convert(23).who, convert(24).who], [6, 6]);
        let room = captions_tx3g_convert_room(1000, e, e_len, table, 8, samples, 3);
        assert_eq!((room.refusal, room.who, room.cues, room.t), (DONE, 0, 1, 1));
        assert_eq!((room.record_bytes, room.pool_bytes), (24, 1));
    }
}

/// Where an entry has no label, its text is not looked at.
#[test]
fn a_text_beside_no_label_is_not_judged() {
    let (text, bad) = (b"WEBVTT", b"\xFF\n");
    // SAFETY: pointers and lengths of slices.
    let room = unsafe { captions_wvtt_entry_room(text.as_ptr(), 6, false, bad.as_ptr(), 2) };
    assert_eq!((room.refusal, room.bytes), (DONE, 30));
}

/// The size of an entry is four bytes. Inputs may overlap, and a refusal looks at none of them.
#[test]
fn an_entry_that_is_too_long_is_refused() {
    let half = 1usize << 31;
    let bytes: Vec<u8> = vec![0; half];
    let (text, none) = (bytes.as_ptr(), null_mut());
    // SAFETY: a pointer and lengths within its slice.
    unsafe {
        let room = captions_wvtt_entry_room(text, half, true, text, half - 32);
        is_refusal(room, 9, 0);
        let written = captions_wvtt_write_entry(text, half, true, text, half, 1, none, 0);
        is_refusal(written, 9, 0);
        // One byte less fits, and the configuration is judged.
        let room = captions_wvtt_entry_room(text, half, true, text, half - 33);
        is_refusal(room, 6, 0);
    }
}

/// A refusal, if the answer is one, leaves all else 0; so does an answer that found nothing.
fn zero_beside_refusal<A: Answer>(answer: A, found: bool) {
    if answer.refusal().number != 0 || !found {
        assert_eq!(answer, answer.refusal_only());
    }
}

#[test]
fn what_an_answer_leaves_free_is_0() {
    let mut random = Random::new(5);
    for _ in 0..5000 {
        free_in_wvtt(&mut random);
        free_in_settings(&mut random);
        free_in_files(&mut random);
        free_in_tx3g(&mut random);
        free_in_old_tracks(&mut random);
    }
}

fn free_in_wvtt(random: &mut Random) {
    let sample = make::wvtt_sample(random);
    let (at, len) = (sample.as_ptr(), sample.len());
    let from = random.below(len + 2);
    let entry = make::wvtt_entry(random);
    // SAFETY: pointers and lengths of slices.
    unsafe {
        let step = captions_step(at, len, from);
        zero_beside_refusal(step, step.found);
        let cue = captions_wvtt_next_cue(at, len, 0);
        zero_beside_refusal(cue, cue.found);
        let read = captions_wvtt_read_entry(entry.as_ptr(), entry.len());
        zero_beside_refusal(read, true);
        assert!(read.labelled || (read.label_from, read.label_end) == (0, 0));
    }
    let make::CueList {
        scale,
        t,
        records,
        pool,
    } = make::list(random);
    let (list, pool, pool_len) = (records.as_ptr(), pool.as_ptr(), pool.len());
    let (other, make::Track { table, samples }) = make::unpack_input(random);
    let (row, samples_at) = (table.as_ptr(), samples.as_ptr());
    // SAFETY: pointers and lengths of slices.
    unsafe {
        let room = captions_wvtt_pack_room(scale, t, list, records.len(), pool, pool_len);
        zero_beside_refusal(room, true);
        let room = captions_wvtt_unpack_room(other, row, table.len(), samples_at, samples.len());
        zero_beside_refusal(room, true);
    }
}

fn free_in_settings(random: &mut Random) {
    let text = make::settings_text(random);
    let (at, len) = (text.as_ptr(), text.len());
    let mut out = vec![0; random.below(60)];
    let (out, out_len) = (out.as_mut_ptr(), out.len());
    // SAFETY: pointers and lengths of slices.
    unsafe {
        let read = captions_wvtt_read_settings(at, len);
        zero_beside_refusal(read, true);
        let settings = read.settings;
        assert!(settings.line == 1 || settings.line_number == 0);
        assert!(settings.line == 2 || settings.line_percent == 0);
        assert!(settings.position == 1 || settings.position_percent == 0);
        assert!(
            read.region_from < read.region_end || (read.region_from, read.region_end) == (0, 0)
        );
        let room = captions_wvtt_settings_room(settings, at, len);
        zero_beside_refusal(room, true);
        let written = captions_wvtt_write_settings(settings, at, len, out, out_len);
        zero_beside_refusal(written, true);
    }
}

fn free_in_files(random: &mut Random) {
    let file = make::vtt_file(random);
    let (at, len) = (file.as_ptr(), file.len());
    let mut records = vec![0; random.below(100)];
    let (out, out_len) = (records.as_mut_ptr(), records.len());
    // SAFETY: pointers and lengths of slices.
    unsafe {
        zero_beside_refusal(captions_vtt_read_room(at, len), true);
        let read = captions_vtt_read(at, len, out, out_len, null_mut(), 0);
        zero_beside_refusal(read, true);
    }
    let parts = make::vtt_parts(random);
    let [text, list, pool] = parts.inputs();
    let (at, len) = (text.as_ptr(), text.len());
    let (list, list_len, pool, pool_len) = (list.as_ptr(), list.len(), pool.as_ptr(), pool.len());
    // SAFETY: pointers and lengths of slices.
    unsafe {
        let room = captions_vtt_write_room(at, len, list, list_len, pool, pool_len);
        let written = captions_vtt_write(at, len, list, list_len, pool, pool_len, out, out_len);
        for answer in [room, written] {
            zero_beside_refusal(answer, true);
            assert_eq!(answer.refusal.number == 0, answer.who == 0);
        }
    }
}

fn free_in_tx3g(random: &mut Random) {
    let (entry, sample) = make::tx3g_input(random);
    let (e, e_len, s, s_len) = (entry.as_ptr(), entry.len(), sample.as_ptr(), sample.len());
    let from = random.below(s_len + 2);
    // SAFETY: pointers and lengths of slices.
    unsafe {
        zero_beside_refusal(captions_tx3g_read_entry(e, e_len), true);
        zero_beside_refusal(captions_tx3g_read_sample(e, e_len, s, s_len), true);
        zero_beside_refusal(captions_tx3g_style(e, e_len, s, s_len, from), true);
        zero_beside_refusal(captions_tx3g_text_box(e, e_len, s, s_len), true);
        zero_beside_refusal(captions_tx3g_count_characters(s, s_len), true);
        let modifier = captions_tx3g_next_modifier(s, s_len, from);
        zero_beside_refusal(modifier, modifier.found);
        let read = captions_tx3g_read_sample(e, e_len, s, s_len);
        assert!(
            read.refusal.number != 0 || read.who == 0,
            "nobody is at fault"
        );
        let font = captions_tx3g_font_at(s, s_len, from);
        assert!(font.found || (font.id, font.name_from, font.name_end) == (0, 0, 0));
        let run = captions_tx3g_next_run(s, s_len, 3, from, random.below(9), 6);
        let look = [run.font, run.face, run.size, run.red, run.green, run.blue];
        assert!(run.styled || (look, run.alpha) == ([0; 6], 0));
        assert!(run.found || (run.from, run.end, run.styles, run.styles_from) == (0, 0, 0, 0));
    }
}

fn free_in_old_tracks(random: &mut Random) {
    let make::Tx3gTrack {
        scale,
        entry,
        track: make::Track { table, samples },
    } = make::tx3g_track(random);
    let (e, e_len) = (entry.as_ptr(), entry.len());
    let (t, t_len, s, s_len) = (table.as_ptr(), table.len(), samples.as_ptr(), samples.len());
    let mut out = vec![0; random.below(100)];
    let (out, out_len, none) = (out.as_mut_ptr(), out.len(), null_mut());
    // SAFETY: pointers and lengths of slices.
    unsafe {
        let room = captions_tx3g_convert_room(scale, e, e_len, t, t_len, s, s_len);
        let made =
            captions_tx3g_convert(scale, e, e_len, t, t_len, s, s_len, out, out_len, none, 0);
        for answer in [room, made] {
            zero_beside_refusal(answer, true);
            assert_eq!(answer.refusal.number == 0, answer.who == 0);
        }
        let room = captions_drop_zero_durations_room(t, t_len, s, s_len);
        zero_beside_refusal(room, true);
        let made = captions_drop_zero_durations(t, t_len, s, s_len, out, out_len, none, 0);
        zero_beside_refusal(made, true);
    }
}
