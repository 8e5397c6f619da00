//! The random inputs reach every number, and wrong libraries are found.

use captions_harness::{
    differential, Counts, Entry, Fault, Font, Library, Model, Modifier, Offered, Packed, Refusal,
    Run, RunAt, RunInput, TextBoxAt, Tx3gSample, Unpacked, VttRead, Who,
};
use captions_model::{list, text};

const ROUNDS: u64 = 72_000;

fn compared() -> Counts {
    differential(&Model, &Model, 2, ROUNDS).unwrap_or_else(|d| panic!("{d}"))
}

fn assert_reached(counts: &Counts, operation: &'static str, numbers: &[u32]) {
    for &number in numbers {
        let times = counts.compared.get(&(operation, number));
        assert!(times.is_some(), "{operation} never gives {number}");
    }
}

#[test]
fn every_number_is_reached() {
    let counts = compared();
    print!("{counts}");
    assert_eq!(counts.total_skipped(), 0);
    let reached = |operation, numbers: &[u32]| assert_reached(&counts, operation, numbers);
    reached("judge_profile", &[0, 6, 9, 21]);
    reached("read_settings", &[0, 6, 9, 20]);
    reached("settings_room", &[0, 8]);
    reached("write_settings", &[0, 8, 15]);
    reached("read_written_settings", &[0]);
    reached("box_step", &[0, 1, 2]);
    reached("judge_sample", &[0, 1, 2, 3, 4, 5, 6, 8, 9]);
    reached("next_cue", &[0, 1, 2]);
    reached("read_wvtt_entry", &[0, 1, 2, 3, 4, 6]);
    reached("wvtt_entry_room", &[0, 6]);
    reached("write_wvtt_entry", &[0, 6, 15]);
    reached("judge_list", &[0, 1, 6, 8, 9, 10, 11, 12]);
    reached("pack_room", &[0, 1, 6, 8, 9, 10, 11, 12]);
    reached("pack", &[0, 1, 6, 8, 9, 10, 11, 12, 15]);
    reached("judge_track", &[0, 1, 2, 3, 4, 5, 6, 8, 9, 10]);
    let unpacking = [0, 1, 2, 3, 4, 5, 6, 8, 9, 10, 11, 12, 13, 14, 17];
    reached("unpack_room", &unpacking);
    reached("unpack", &unpacking);
    reached("unpack", &[15]);
    reached("check", &[0, 1, 2, 3, 4, 5, 6, 8, 9, 10, 11, 12, 16]);
    reached("read_tx3g_entry", &[0, 1, 2, 3, 4, 7, 8, 9]);
    reached("fonts", &[0, 1, 2, 3, 4, 7, 8, 9]);
    reached("font_at", &[0]);
    reached("read_tx3g_sample", &[0, 1, 2, 3, 4, 6, 7, 8, 9]);
    reached("runs", &[0, 1, 2, 3, 4, 6, 7, 8, 9]);
    reached("next_run", &[0]);
    reached("next_modifier", &[0, 1, 2]);
    reached("program", &[0, 1, 6, 8, 9, 10, 11, 12, 15]);
    reached("read_vtt", &[0, 6, 9, 10, 11, 15, 18, 19]);
    reached("write_vtt_room", &[0, 1, 6, 8, 9, 10, 11, 12]);
    reached("write_vtt", &[0, 1, 6, 8, 9, 10, 11, 12, 15]);
    reached("read_written_vtt", &[0, 19]);
    reached("convert_tx3g_room", &[0, 1, 2, 3, 4, 6, 7, 8, 9, 10]);
    reached("convert_tx3g", &[0, 1, 2, 3, 4, 6, 7, 8, 9, 10, 15]);
    reached("converted_vtt", &[0]);
    reached("drop_zero_durations_room", &[0, 1, 2, 4, 9]);
    reached("drop_zero_durations", &[0, 1, 2, 4, 9, 15]);
}

/// Wherever a text is judged, texts are bad at the first offsets and at so many in all.
#[test]
fn many_offsets_are_reached() {
    let counts = compared();
    print!("{counts}");
    let reached = |operation: &'static str, least: usize| {
        let offsets = &counts.offsets[operation];
        let first = (0..4).all(|at| offsets.contains(&at));
        assert!(first && offsets.len() >= least, "{operation}: {offsets:?}");
    };
    reached("judge_utf8", 100);
    reached("judge_identifier", 100);
    reached("judge_payload", 100);
    reached("judge_profile", 60);
    reached("read_settings", 60);
    reached("judge_configuration", 60);
    reached("judge_label", 100);
    reached("characters", 60);
    reached("judge_sample", 60);
    reached("cues", 60);
    reached("read_wvtt_entry", 30);
    reached("write_wvtt_entry", 30);
    reached("judge_list", 30);
    reached("pack", 30);
    reached("judge_track", 30);
    reached("unpack", 30);
    reached("check", 30);
    reached("read_vtt", 30);
    reached("write_vtt", 30);
    reached("read_tx3g_sample", 30);
    reached("style", 30);
    reached("text_box", 30);
    reached("modifiers", 30);
    reached("convert_tx3g", 20);
}

/// That a wrong library is found, and at which operation.
fn assert_found(wrong: &dyn Library, operation: &str) {
    let found = differential(&Model, wrong, 7, ROUNDS);
    let found = found.expect_err("the wrong library passed");
    assert_eq!(found.operation, operation, "{found}");
}

/// Packs well but clears the rest of the table.
struct ClearsTheRest;

impl Library for ClearsTheRest {
    fn pack(
        &self,
        scale: u32,
        t: u32,
        records: &[u8],
        pool: &[u8],
        table: &mut [u8],
        samples: &mut [u8],
    ) -> Offered<Result<Packed, Refusal>> {
        let answer = Model.pack(scale, t, records, pool, table, samples)?;
        if let Ok(packed) = answer {
            table[packed.table_bytes..].fill(0);
        }
        Some(answer)
    }
}

/// Unpacks well but writes although it refuses.
struct WritesOnRefusal;

impl Library for WritesOnRefusal {
    fn unpack(
        &self,
        scale: u32,
        table: &[u8],
        samples: &[u8],
        records: &mut [u8],
        pool: &mut [u8],
    ) -> Offered<Result<Unpacked, Refusal>> {
        let answer = Model.unpack(scale, table, samples, records, pool)?;
        if answer.is_err() && !pool.is_empty() {
            pool[0] ^= 1;
        }
        Some(answer)
    }
}

/// Accepts a track that differs only after its first samples.
struct ChecksLess;

impl Library for ChecksLess {
    fn check(
        &self,
        scale: u32,
        t: u32,
        records: &[u8],
        pool: &[u8],
        table: &[u8],
        samples: &[u8],
    ) -> Offered<Result<(), Fault>> {
        let answer = Model.check(scale, t, records, pool, table, samples)?;
        Some(answer.or_else(|fault| {
            if fault.refusal.number == 16 && fault.refusal.place > 2 {
                Ok(())
            } else {
                Err(fault)
            }
        }))
    }
}

/// Lays every fault to the track.
struct BlamesTheTrack;

impl Library for BlamesTheTrack {
    fn check(
        &self,
        scale: u32,
        t: u32,
        records: &[u8],
        pool: &[u8],
        table: &[u8],
        samples: &[u8],
    ) -> Offered<Result<(), Fault>> {
        let answer = Model.check(scale, t, records, pool, table, samples)?;
        let who = Who::Track;
        Some(answer.map_err(|fault| Fault { who, ..fault }))
    }
}

/// Needs more room than it writes.
struct WantsMore;

impl Library for WantsMore {
    fn unpack_room(
        &self,
        scale: u32,
        table: &[u8],
        samples: &[u8],
    ) -> Offered<Result<Unpacked, Refusal>> {
        let answer = Model.unpack_room(scale, table, samples)?;
        Some(answer.map(|room| Unpacked {
            pool_bytes: room.pool_bytes + 1,
            ..room
        }))
    }
}

/// Writes the data reference index with its bytes swapped.
struct SwapsTheIndex;

impl Library for SwapsTheIndex {
    fn write_wvtt_entry(
        &self,
        configuration: &[u8],
        label: Option<&[u8]>,
        index: u16,
        entry: &mut [u8],
    ) -> Offered<Result<usize, Refusal>> {
        Model.write_wvtt_entry(configuration, label, index.swap_bytes(), entry)
    }
}

/// Takes an empty label for none.
struct NoEmptyLabel;

impl Library for NoEmptyLabel {
    fn read_wvtt_entry(&self, entry: &[u8]) -> Offered<Result<Entry, Refusal>> {
        let answer = Model.read_wvtt_entry(entry)?;
        Some(answer.map(|read| Entry {
            label: read.label.filter(|label| !label.is_empty()),
            ..read
        }))
    }
}

/// Reads a text box without its sign.
struct NoSigns;

impl Library for NoSigns {
    fn text_box(&self, entry: &[u8], sample: &[u8]) -> Offered<Result<TextBoxAt, Fault>> {
        let answer = Model.text_box(entry, sample)?;
        Some(answer.map(|found| TextBoxAt {
            sides: found.sides.map(|side| side & i16::MAX),
            ..found
        }))
    }
}

/// Gives the fonts by their IDs.
struct SortsFonts;

impl Library for SortsFonts {
    fn fonts(&self, entry: &[u8]) -> Offered<Result<Vec<Font>, Refusal>> {
        let mut answer = Model.fonts(entry)?;
        if let Ok(fonts) = &mut answer {
            fonts.sort_by_key(|font| font.id);
        }
        Some(answer)
    }
}

/// Cuts a run of the default style where a style begins that holds no character.
struct CutsAtEmptyStyles;

impl Library for CutsAtEmptyStyles {
    fn next_run(&self, sample: &[u8], input: RunInput) -> Offered<Option<RunAt>> {
        let answer = Model.next_run(sample, input)?;
        let start = input
            .styles_from
            .checked_add(1)
            .and_then(|at| sample.get(at));
        let start = start.map_or(0, |&byte| usize::from(byte));
        Some(answer.map(|run| {
            let mut range = run.range;
            if run.look.is_none() && range.start < start && start < range.end {
                range.end = start;
            }
            RunAt { range, ..run }
        }))
    }
}

/// Leaves out a last run of the default style.
struct EndsWithTheStyles;

impl Library for EndsWithTheStyles {
    fn runs(&self, entry: &[u8], sample: &[u8]) -> Offered<Result<Vec<Run>, Fault>> {
        let mut answer = Model.runs(entry, sample)?;
        if let Ok(runs) = &mut answer {
            runs.truncate(runs.len().saturating_sub(1).max(1));
        }
        Some(answer)
    }
}

/// Counts bytes.
struct CountsBytes;

impl Library for CountsBytes {
    fn read_tx3g_sample(&self, entry: &[u8], sample: &[u8]) -> Offered<Result<Tx3gSample, Fault>> {
        let answer = Model.read_tx3g_sample(entry, sample)?;
        Some(answer.map(|read| Tx3gSample {
            characters: read.text.len(),
            ..read
        }))
    }
}

/// Tells blinking also by a `blnk` inside another box.
struct BlinksInside;

impl Library for BlinksInside {
    fn read_tx3g_sample(&self, entry: &[u8], sample: &[u8]) -> Offered<Result<Tx3gSample, Fault>> {
        let answer = Model.read_tx3g_sample(entry, sample)?;
        Some(answer.map(|read| Tx3gSample {
            retired_blinking: sample[read.modifiers..].windows(4).any(|b| b == b"blnk"),
            ..read
        }))
    }
}

/// Never tells blinking.
struct NeverBlinks;

impl Library for NeverBlinks {
    fn read_tx3g_sample(&self, entry: &[u8], sample: &[u8]) -> Offered<Result<Tx3gSample, Fault>> {
        let answer = Model.read_tx3g_sample(entry, sample)?;
        Some(answer.map(|read| Tx3gSample {
            retired_blinking: false,
            ..read
        }))
    }
}

/// Hands out a range to blink with.
struct StillBlinks;

impl Library for StillBlinks {
    fn modifiers(&self, entry: &[u8], sample: &[u8]) -> Offered<Result<Vec<Modifier>, Fault>> {
        let read = Model.read_tx3g_sample(entry, sample)?;
        let blinks = read.is_ok_and(|read| read.retired_blinking);
        let range = blinks.then_some(Modifier::Blnk { start: 0, end: 1 });
        let answer = Model.modifiers(entry, sample)?;
        Some(answer.map(|found| found.into_iter().chain(range).collect()))
    }
}

/// Gives every fault of a sample the place 0.
struct NoPlaces;

impl Library for NoPlaces {
    fn judge_sample(&self, sample: &[u8]) -> Offered<Result<(), Refusal>> {
        let answer = Model.judge_sample(sample)?;
        Some(answer.map_err(|r| Refusal { place: 0, ..r }))
    }
}

/// Says only which record has a bad text.
struct NoOffsets;

impl Library for NoOffsets {
    fn judge_list(
        &self,
        scale: u32,
        t: u32,
        records: &[u8],
        pool: &[u8],
    ) -> Offered<Result<(), Refusal>> {
        let answer = Model.judge_list(scale, t, records, pool)?;
        Some(answer.map_err(|r| Refusal { offset: 0, ..r }))
    }
}

/// Gives the offset in a record's last bad text.
struct LastBadText;

impl Library for LastBadText {
    fn pack(
        &self,
        scale: u32,
        t: u32,
        records: &[u8],
        pool: &[u8],
        table: &mut [u8],
        samples: &mut [u8],
    ) -> Offered<Result<Packed, Refusal>> {
        let answer = Model.pack(scale, t, records, pool, table, samples)?;
        Some(answer.map_err(|r| {
            let record = list::records(records).nth(r.place);
            let texts = record.and_then(|record| record.texts(pool));
            let last = texts.and_then(|texts| text::payload_fault(texts.payload));
            let offset = last.filter(|_| r.number == 6).unwrap_or(r.offset);
            Refusal { offset, ..r }
        }))
    }
}

/// Gives the first byte of a character that is not UTF-8, and not the byte that breaks it.
struct StartsOfCharacters;

impl Library for StartsOfCharacters {
    fn judge_utf8(&self, text: &[u8]) -> Offered<Result<(), Refusal>> {
        let judged = std::str::from_utf8(text).map(drop);
        Some(judged.map_err(|error| Refusal::bad_text(0, error.valid_up_to())))
    }
}

/// Counts the offset in a `tx3g` text from the sample's start.
struct CountsFromTheSample;

impl Library for CountsFromTheSample {
    fn read_tx3g_sample(&self, entry: &[u8], sample: &[u8]) -> Offered<Result<Tx3gSample, Fault>> {
        let answer = Model.read_tx3g_sample(entry, sample)?;
        Some(answer.map_err(|fault| {
            let mut refusal = fault.refusal;
            if refusal.number == 6 {
                refusal.offset += 2;
            }
            Fault { refusal, ..fault }
        }))
    }
}

/// Takes a CR for a letter of its line, but before LF.
struct NoCarriageReturns;

impl Library for NoCarriageReturns {
    fn read_vtt_room(&self, file: &[u8]) -> Offered<Result<VttRead, Refusal>> {
        let letter = |(at, &byte): (usize, &u8)| match (byte, file.get(at + 1)) {
            (b'\r', after) if after != Some(&b'\n') => b'r',
            _ => byte,
        };
        let file: Vec<u8> = file.iter().enumerate().map(letter).collect();
        Model.read_vtt_room(&file)
    }
}

/// Counts LF and nothing else for the line.
struct CountsLineFeeds;

impl Library for CountsLineFeeds {
    fn read_vtt_room(&self, file: &[u8]) -> Offered<Result<VttRead, Refusal>> {
        let answer = Model.read_vtt_room(file)?;
        let most = 1 + file.iter().filter(|&&b| b == b'\n').count();
        Some(answer.map_err(|r| Refusal {
            place: r.place.min(most),
            ..r
        }))
    }
}

/// Writes the records where the pool is too short.
struct WritesRecordsFirst;

impl Library for WritesRecordsFirst {
    fn read_vtt(
        &self,
        file: &[u8],
        records: &mut [u8],
        pool: &mut [u8],
    ) -> Offered<Result<VttRead, Refusal>> {
        let answer = Model.read_vtt(file, records, pool)?;
        if answer == Err(Refusal::new(15, 1)) {
            let mut other = vec![0; file.len()];
            Model.read_vtt(file, records, &mut other)?.ok()?;
        }
        Some(answer)
    }
}

/// Counts IDs from 1.
struct CountsFromOne;

impl Library for CountsFromOne {
    fn read_vtt(
        &self,
        file: &[u8],
        records: &mut [u8],
        pool: &mut [u8],
    ) -> Offered<Result<VttRead, Refusal>> {
        let answer = Model.read_vtt(file, records, pool)?;
        let read = answer.map_or(0, |read| read.record_bytes);
        for (id, record) in (1u32..).zip(records[..read].chunks_exact_mut(24)) {
            record[..4].copy_from_slice(&id.to_be_bytes());
        }
        Some(answer)
    }
}

#[test]
fn wrong_libraries_are_found() {
    assert_found(&ClearsTheRest, "pack");
    assert_found(&WritesOnRefusal, "unpack");
    assert_found(&ChecksLess, "check");
    assert_found(&BlamesTheTrack, "check");
    assert_found(&WantsMore, "unpack_room");
    assert_found(&SwapsTheIndex, "write_wvtt_entry");
    assert_found(&NoEmptyLabel, "read_wvtt_entry");
    assert_found(&NoSigns, "text_box");
    assert_found(&SortsFonts, "fonts");
    assert_found(&CutsAtEmptyStyles, "next_run");
    assert_found(&EndsWithTheStyles, "runs");
    assert_found(&CountsBytes, "read_tx3g_sample");
    assert_found(&BlinksInside, "read_tx3g_sample");
    assert_found(&NeverBlinks, "read_tx3g_sample");
    assert_found(&StillBlinks, "modifiers");
    assert_found(&NoPlaces, "judge_sample");
    assert_found(&NoOffsets, "judge_list");
    assert_found(&LastBadText, "pack");
    assert_found(&StartsOfCharacters, "judge_utf8");
    assert_found(&CountsFromTheSample, "read_tx3g_sample");
    assert_found(&NoCarriageReturns, "read_vtt_room");
    assert_found(&CountsLineFeeds, "read_vtt_room");
    assert_found(&WritesRecordsFirst, "read_vtt");
    assert_found(&CountsFromOne, "read_vtt");
}

#[test]
fn a_round_can_be_repeated() {
    let found = differential(&Model, &NoPlaces, 7, ROUNDS).expect_err("places are compared");
    let mut counts = Counts::default();
    let again =
        captions_harness::differential_round(&Model, &NoPlaces, 7, found.round, &mut counts);
    assert_eq!(
        again.expect_err("the same round differs").input,
        found.input
    );
}
