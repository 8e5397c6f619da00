//! The model against slow definitions, on random inputs.

use std::collections::BTreeSet;

use captions_harness::generate::{self, box_of, CueList, Track};
use captions_harness::random::Random;
use captions_model::check::check;
use captions_model::list::{judge_list, records};
use captions_model::runs::{look, next_run, runs, Look, Run};
use captions_model::text::{
    characters, configuration_fault, identifier_fault, label_fault, payload_fault, utf8_fault,
};
use captions_model::time::tick;
use captions_model::track::{judge_track, samples, table_records};
use captions_model::unpack::unpack;
use captions_model::{tx3g, wvtt, Fault, Refusal, Who};

const ROUNDS: u64 = 6000;

fn rounds() -> impl Iterator<Item = Random> {
    (0..ROUNDS).map(Random::new)
}

/// The cues running at a tick: ID and texts.
fn running(list: &CueList, at: u64) -> Vec<(u32, [&[u8]; 3])> {
    let runs = |ms| tick(list.scale, ms);
    records(&list.records)
        .filter(|r| runs(r.start) <= at && at < runs(r.end))
        .map(|r| {
            let texts = r.texts(&list.pool).expect("the list is good");
            (r.id, [texts.identifier, texts.settings, texts.payload])
        })
        .collect()
}

/// Whether a sample holds exactly these cues.
fn holds(sample: &[u8], expected: &[(u32, [&[u8]; 3])]) -> bool {
    let cues: Vec<_> = wvtt::cues(sample)
        .map(|cue| {
            let texts = cue.texts(sample);
            (cue.id, [texts.identifier, texts.settings, texts.payload])
        })
        .collect();
    let expected: Vec<_> = expected
        .iter()
        .map(|&(id, texts)| (Some(id), texts))
        .collect();
    cues == expected
}

/// The check, tick by tick.
fn slow_check(list: &CueList, track: &Track) -> Result<(), Fault> {
    let at_fault = |who| move |refusal| Fault { who, refusal };
    let judged = judge_list(list.scale, list.t, &list.records, &list.pool);
    judged.map_err(at_fault(Who::List))?;
    slow_compare(list, track).map_err(at_fault(Who::Track))
}

fn slow_compare(list: &CueList, track: &Track) -> Result<(), Refusal> {
    judge_track(&track.table, &track.samples)?;
    let last = tick(list.scale, list.t);
    let mut begin = 0;
    let mut count = 0;
    for (index, (duration, sample)) in samples(&track.table, &track.samples).enumerate() {
        let end = begin + u64::from(duration);
        let right = end <= last && (begin..end).all(|at| holds(sample, &running(list, at)));
        if !right {
            return Err(Refusal::new(16, index));
        }
        begin = end;
        count += 1;
    }
    if begin < last {
        return Err(Refusal::new(16, count));
    }
    Ok(())
}

#[test]
fn check_is_right_at_every_tick() {
    let (mut accepted, mut differing) = (0, 0);
    for mut random in rounds() {
        let (list, track) = generate::check_input(&mut random);
        if tick(list.scale, list.t) > 30_000 {
            continue;
        }
        let CueList {
            scale,
            t,
            records,
            pool,
        } = &list;
        let got = check(*scale, *t, records, pool, &track.table, &track.samples);
        assert_eq!(got, slow_check(&list, &track), "{list:?} {track:?}");
        accepted += usize::from(got.is_ok());
        differing += usize::from(got.is_err_and(|fault| fault.refusal.number == 16));
    }
    assert!(accepted > 300 && differing > 100, "{accepted} {differing}");
}

/// Packing by its definition: all cuts, then all cues for each stretch.
fn slow_pack(list: &CueList) -> Track {
    let ticks = |ms| tick(list.scale, ms);
    let mut cuts = BTreeSet::from([0, ticks(list.t)]);
    cuts.extend(records(&list.records).flat_map(|r| [ticks(r.start), ticks(r.end)]));
    let cuts: Vec<u64> = cuts.into_iter().collect();
    let mut track = Track::default();
    for stretch in cuts.windows(2) {
        let cues = running(list, stretch[0]);
        let mut sample: Vec<u8> = cues.iter().flat_map(cue_box).collect();
        if cues.is_empty() {
            sample = box_of(b"vtte", &[]);
        }
        let duration = (stretch[1] - stretch[0]) as u32;
        track.table.extend(duration.to_be_bytes());
        track.table.extend((sample.len() as u32).to_be_bytes());
        track.samples.extend(sample);
    }
    track
}

fn cue_box(&(id, [identifier, settings, payload]): &(u32, [&[u8]; 3])) -> Vec<u8> {
    let mut body = box_of(b"vsid", &id.to_be_bytes());
    if !identifier.is_empty() {
        body.extend(box_of(b"iden", identifier));
    }
    if !settings.is_empty() {
        body.extend(box_of(b"sttg", settings));
    }
    body.extend(box_of(b"payl", payload));
    box_of(b"vttc", &body)
}

#[test]
fn packing_keeps_its_definition() {
    let mut seen = 0;
    for mut random in rounds() {
        let list = generate::list(&mut random);
        if let Some(track) = generate::packed(&list) {
            let slow = slow_pack(&list);
            assert!(track.table == slow.table, "{list:?}");
            assert!(track.samples == slow.samples, "{list:?}");
            seen += 1;
        }
    }
    assert!(seen > 1000);
}

/// A cue found in unpacking: ID, first and last sample, texts.
type Found<'a> = (u32, usize, usize, [&'a [u8]; 3]);

/// The cues of a readable track by their first appearance.
fn slow_join<'a>(table: &'a [u8], bytes: &'a [u8]) -> Result<Vec<Found<'a>>, Refusal> {
    let mut found: Vec<Found> = Vec::new();
    for (index, (_, sample)) in samples(table, bytes).enumerate() {
        let refuse = |number| Err(Refusal::new(number, index));
        let mut order: Vec<usize> = Vec::new();
        for cue in wvtt::cues(sample) {
            let Some(id) = cue.id else { return refuse(17) };
            let texts = cue.texts(sample);
            let texts = [texts.identifier, texts.settings, texts.payload];
            let at = found.iter().position(|f| f.0 == id).unwrap_or(found.len());
            match found.get_mut(at) {
                Some(_) if order.contains(&at) => return refuse(12),
                Some(old) if old.2 + 1 < index => return refuse(13),
                Some(old) if old.3 != texts => return refuse(14),
                Some(_) if order.iter().any(|&earlier| earlier > at) => return refuse(11),
                Some(old) => old.2 = index,
                None if at == 1024 => return refuse(9),
                None => found.push((id, index, index, texts)),
            }
            order.push(at);
        }
    }
    Ok(found)
}

/// T, records and pool by the definition of unpacking.
fn slow_unpack(scale: u32, track: &Track) -> Result<(u32, Vec<u8>, Vec<u8>), Refusal> {
    let refuse = |number, place| Err(Refusal::new(number, place));
    if scale == 0 || scale > 1_000_000 {
        return refuse(10, 0);
    }
    judge_track(&track.table, &track.samples)?;
    let found = slow_join(&track.table, &track.samples)?;
    let durations = samples(&track.table, &track.samples).map(|(duration, _)| duration);
    let begin = |sample| {
        let before: u128 = durations_before(&track.table, sample);
        (before * 1000).div_ceil(u128::from(scale))
    };
    let (mut list, mut pool) = (Vec::new(), Vec::new());
    for (index, (id, first, last, texts)) in found.iter().enumerate() {
        let (start, end) = (begin(*first), begin(last + 1));
        if end > 359_999_999 || start >= end {
            return refuse(10, index);
        }
        let [a, b, c] = texts.map(|text| text.len() as u16);
        for number in [*id, start as u32, end as u32, pool.len() as u32] {
            list.extend(number.to_be_bytes());
        }
        list.extend([a, b, c, 0].iter().flat_map(|len| len.to_be_bytes()));
        pool.extend(texts.concat());
    }
    let t = begin(durations.count());
    let good = (1..=359_999_999).contains(&t) && t * u128::from(scale) / 1000 < 1 << 32;
    if !good {
        return refuse(10, found.len());
    }
    Ok((t as u32, list, pool))
}

/// The sum of the durations before a sample.
fn durations_before(table: &[u8], sample: usize) -> u128 {
    table_records(table)
        .take(sample)
        .map(|(duration, _)| u128::from(duration))
        .sum()
}

#[test]
fn unpacking_keeps_its_definition() {
    let mut seen = 0;
    for mut random in rounds() {
        let (scale, track) = generate::unpack_input(&mut random);
        if track.table.len() > 8 * 5000 {
            continue;
        }
        let (mut list, mut pool) = (vec![0; 1 << 15], vec![0; track.samples.len()]);
        let got = unpack(scale, &track.table, &track.samples, &mut list, &mut pool);
        let got = got.map(|u| {
            (
                u.t,
                list[..u.record_bytes].to_vec(),
                pool[..u.pool_bytes].to_vec(),
            )
        });
        assert_eq!(got, slow_unpack(scale, &track), "{scale} {track:?}");
        seen += usize::from(got.is_ok());
    }
    assert!(seen > 1000);
}

#[test]
fn packing_is_accepted_and_short() {
    let mut seen = 0;
    for mut random in rounds() {
        let list = generate::list(&mut random);
        let Some(track) = generate::packed(&list) else {
            continue;
        };
        let CueList {
            scale,
            t,
            records,
            pool,
        } = &list;
        let got = check(*scale, *t, records, pool, &track.table, &track.samples);
        assert_eq!(got, Ok(()), "{list:?}");
        assert!(track.table.len() / 8 <= 2 * (records.len() / 24) + 1);
        seen += 1;
    }
    assert!(seen > 1000);
}

#[test]
fn unpacking_gives_a_good_list_that_the_check_accepts() {
    let (mut seen, mut accepted) = (0, 0);
    for mut random in rounds() {
        let (scale, Track { table, samples }) = generate::unpack_input(&mut random);
        let (mut list, mut pool) = (vec![0; 1 << 15], vec![0; samples.len()]);
        let Ok(got) = unpack(scale, &table, &samples, &mut list, &mut pool) else {
            continue;
        };
        let (list, pool) = (&list[..got.record_bytes], &pool[..got.pool_bytes]);
        assert_eq!(judge_list(scale, got.t, list, pool), Ok(()));
        if scale <= 1000 {
            assert_eq!(check(scale, got.t, list, pool, &table, &samples), Ok(()));
            accepted += 1;
        }
        seen += 1;
    }
    assert!(seen > 1000 && accepted > 300, "{seen} {accepted}");
}

#[test]
fn an_entry_is_read_as_it_was_written() {
    let mut seen = 0;
    for mut random in rounds() {
        let parts = generate::entry_parts(&mut random);
        let (configuration, label) = (&parts.configuration, parts.label.as_deref());
        let mut out = vec![0; 1 << 13];
        let Ok(size) = wvtt::write_entry(configuration, label, parts.index, &mut out) else {
            continue;
        };
        assert_eq!(wvtt::entry_room(configuration, label), Ok(size));
        let read = wvtt::read_entry(&out[..size]).expect("what is written is good");
        assert_eq!(read.data_reference_index, parts.index);
        assert_eq!(read.configuration.of(&out), configuration);
        assert_eq!(read.label.map(|part| part.of(&out)), label);
        seen += 1;
    }
    assert!(seen > 1000);
}

/// Whether a record that holds a character begins there.
fn begins(sample: &[u8], read: &tx3g::Sample, k: usize) -> bool {
    let records = read.styles.unwrap_or_default().of(sample);
    let at =
        |record: &[u8], at: usize| usize::from(u16::from_be_bytes([record[at], record[at + 1]]));
    let mut records = records.chunks_exact(12);
    records.any(|record| at(record, 0) == k && at(record, 2) > k)
}

/// The runs of a good sample, character by character.
fn slow_runs(entry: &[u8], sample: &[u8], read: &tx3g::Sample) -> Vec<Run> {
    let mut found: Vec<Run> = Vec::new();
    let mut previous: Option<[u8; 12]> = None;
    for k in 0..read.characters {
        let style = tx3g::style(entry, sample, k).expect("k is in the text");
        match found.last_mut() {
            Some(run) if previous == Some(style) && !begins(sample, read, k) => run.end = k + 1,
            _ => found.push(Run {
                from: k,
                end: k + 1,
                look: look(&style),
            }),
        }
        previous = Some(style);
    }
    found
}

/// All runs, one after the other by the places behind them.
fn walked_runs(sample: &[u8], read: &tx3g::Sample, default: Look) -> Vec<Run> {
    let (mut styles, mut from) = read.style_table();
    let mut found: Vec<Run> = Vec::new();
    let mut k = 0;
    while let Some(run) = next_run(sample, styles, from, k, read.characters) {
        (styles, from, k) = (run.styles, run.styles_from, run.range.end);
        found.push(Run {
            from: run.range.start,
            end: run.range.end,
            look: run.look.unwrap_or(default),
        });
    }
    found
}

#[test]
fn runs_keep_their_definition() {
    let (mut seen, mut several) = (0, 0);
    for mut random in rounds() {
        let (entry, sample) = generate::tx3g_input(&mut random);
        let Ok(read) = tx3g::read_sample(&entry, &sample) else {
            continue;
        };
        let default = tx3g::read_entry(&entry).expect("a good entry").style();
        let all: Vec<Run> = runs(&entry, &sample).expect("a good sample").collect();
        assert_eq!(all, slow_runs(&entry, &sample, &read), "{sample:x?}");
        assert_eq!(all, walked_runs(&sample, &read, look(&default)));
        seen += 1;
        several += usize::from(all.len() > 2);
    }
    assert!(seen > 1000 && several > 200, "{seen} {several}");
}

/// The class of a byte, as the rules name them.
fn class(byte: u8) -> u8 {
    match byte {
        0x00..=0x7F => 0,
        0x80..=0x8F => 1,
        0x90..=0x9F => 2,
        0xA0..=0xBF => 3,
        0xC2..=0xDF => 4,
        0xE0 => 5,
        0xE1..=0xEC | 0xEE..=0xEF => 6,
        0xED => 7,
        0xF0 => 8,
        0xF1..=0xF3 => 9,
        0xF4 => 10,
        _ => 11,
    }
}

/// UTF-8 by byte classes, one character at a time.
fn slow_utf8(text: &[u8]) -> bool {
    let mut rest = text;
    while let Some((&first, after)) = rest.split_first() {
        let (more, second): (usize, &[u8]) = match class(first) {
            0 => (0, &[]),
            4 => (1, &[1, 2, 3]),
            5 => (2, &[3]),
            6 => (2, &[1, 2, 3]),
            7 => (2, &[1, 2]),
            8 => (3, &[2, 3]),
            9 => (3, &[1, 2, 3]),
            10 => (3, &[1]),
            _ => return false,
        };
        let Some(tail) = after.get(..more) else {
            return false;
        };
        let good = |(at, &byte): (usize, &u8)| {
            let allowed: &[u8] = if at == 0 { second } else { &[1, 2, 3] };
            allowed.contains(&class(byte))
        };
        if !tail.iter().enumerate().all(good) {
            return false;
        }
        rest = &after[more..];
    }
    true
}

fn slow_identifier(text: &[u8]) -> bool {
    let arrow = (0..text.len()).any(|at| text[at..].starts_with(b"-->"));
    slow_utf8(text) && !arrow && !text.iter().any(|b| [0, 10, 13].contains(b))
}

fn slow_payload(text: &[u8]) -> bool {
    let line_end = |b: Option<&u8>| b == Some(&10) || b == Some(&13);
    for at in 0..text.len() {
        let after = text.get(at + 1);
        let empty_line = match text[at] {
            10 => line_end(after),
            13 => after == Some(&13),
            _ => false,
        };
        if empty_line || text[at] == 0 || text[at..].starts_with(b"-->") {
            return false;
        }
    }
    slow_utf8(text) && !line_end(text.first()) && !line_end(text.last())
}

fn slow_configuration(text: &[u8]) -> bool {
    text.starts_with(b"WEBVTT") && slow_label(text)
}

fn slow_label(text: &[u8]) -> bool {
    slow_utf8(text) && !text.ends_with(b"\r") && !text.ends_with(b"\n")
}

/// A `tx3g` text by the standard library's decoders.
fn slow_tx3g(text: &[u8]) -> bool {
    let Some(bytes) = text.strip_prefix(b"\xFE\xFF") else {
        return slow_utf8(text);
    };
    let units: Vec<u16> = bytes
        .chunks_exact(2)
        .map(|unit| u16::from_be_bytes([unit[0], unit[1]]))
        .collect();
    bytes.len().is_multiple_of(2) && String::from_utf16(&units).is_ok()
}

/// Of these one makes a text right, if any continuation does: the rest of a character and a
/// letter, the rest of `WEBVTT`, or the rest of a mark, a unit or a pair.
const CONTINUATIONS: [&[u8]; 17] = [
    b"",
    b"x",
    b"\x80x",
    b"\x80\x80x",
    b"\xA0\x80x",
    b"\x80\x80\x80x",
    b"\x90\x80\x80x",
    b"WEBVTT",
    b"EBVTT",
    b"BVTT",
    b"VTT",
    b"TT",
    b"T",
    b"\xFF",
    b"\0",
    b"\xDC\0",
    b"\0\xDC\0",
];

/// Where a text is bad, by the definition: at the first byte after which no continuation is
/// right, or at its end.
fn slow_fault(text: &[u8], rule: fn(&[u8]) -> bool) -> Option<usize> {
    let could_be_right = |start: &[u8]| {
        let mut ends = CONTINUATIONS.iter();
        ends.any(|end| rule(&[start, end].concat()))
    };
    let bad = (0..text.len()).find(|&at| !could_be_right(&text[..=at]));
    (!rule(text)).then(|| bad.unwrap_or(text.len()))
}

fn compare_text(text: &[u8]) {
    let compare = |name: &str, fault: Option<usize>, rule: fn(&[u8]) -> bool| {
        assert_eq!(fault, slow_fault(text, rule), "{name} {text:x?}");
    };
    compare("UTF-8", utf8_fault(text), slow_utf8);
    compare("identifier", identifier_fault(text), slow_identifier);
    compare("payload", payload_fault(text), slow_payload);
    compare(
        "configuration",
        configuration_fault(text),
        slow_configuration,
    );
    compare("label", label_fault(text), slow_label);
    compare("tx3g", characters(text).err(), slow_tx3g);
}

/// Texts of a length that the slow definition is not too slow for.
const SHORT: usize = 200;

#[test]
fn texts_keep_the_rules() {
    for mut random in (0..40_000).map(Random::new) {
        let texts = [
            generate::any_text(&mut random),
            generate::configuration(&mut random),
            generate::tx3g_text(&mut random),
        ];
        let short = texts.iter().filter(|text| text.len() < SHORT);
        short.for_each(|text| compare_text(text));
    }
}

/// The ends of every class and the bytes with a meaning, in all short orders.
#[test]
fn short_texts_keep_the_rules() {
    let bytes = [
        0x00, 0x0A, 0x0D, b'-', b'>', 0x7F, 0x80, 0x8F, 0x90, 0x9F, 0xA0, 0xBF, 0xC0, 0xC1, 0xC2,
        0xDF, 0xE0, 0xE1, 0xEC, 0xED, 0xEE, 0xEF, 0xF0, 0xF1, 0xF3, 0xF4, 0xF5, 0xFF,
    ];
    compare_text(&[]);
    for a in 0..=255 {
        (0..=255).for_each(|b| compare_text(&[a, b]));
    }
    for a in bytes {
        for b in bytes {
            for c in bytes {
                compare_text(&[a, b, c]);
                bytes.iter().for_each(|&d| compare_text(&[a, b, c, d]));
            }
        }
    }
}

/// All short orders of units at the ends of the surrogates, whole and with an odd byte.
#[test]
fn short_utf16_keeps_the_rules() {
    let bytes = [0x00, 0x41, 0xD7, 0xD8, 0xDB, 0xDC, 0xDF, 0xE0, 0xFF];
    for a in bytes {
        for b in bytes {
            compare_text(&[0xFE, 0xFF, a]);
            compare_text(&[0xFE, 0xFF, a, 0, b]);
            for c in bytes {
                compare_text(&[0xFE, 0xFF, a, 0, b, 0xFF, c]);
                compare_text(&[0xFE, 0xFF, a, b, c, a]);
                compare_text(&[0xFE, 0xFF, 0, 0x41, a, 0, b, 0, c, 0]);
            }
        }
    }
}
