//! The cases of the rules.

use captions_model::check::check;
use captions_model::list::{judge_list, Record};
use captions_model::pack::pack;
use captions_model::program::answer;
use captions_model::runs::{next_run, runs, Run, RunAt};
use captions_model::text::{
    characters, configuration_fault, identifier_fault, label_fault, payload_fault, utf8_fault,
};
use captions_model::track::{judge_track, samples, table_records};
use captions_model::tx3g;
use captions_model::unpack::unpack;
use captions_model::wvtt::{cues, entry_room, judge_entry, judge_sample, read_entry, write_entry};
use captions_model::{Fault, Refusal, Span, Who};

/// Records with empty texts: ID, start, end.
fn list(cues: &[(u32, u32, u32)]) -> Vec<u8> {
    let record = |&(id, start, end): &(u32, u32, u32)| Record {
        id,
        start,
        end,
        ..Record::default()
    };
    cues.iter().flat_map(|cue| record(cue).to_bytes()).collect()
}

/// Table and samples of a list that packs.
fn packed(scale: u32, t: u32, list: &[u8], pool: &[u8]) -> (Vec<u8>, Vec<u8>) {
    let (mut table, mut samples) = (vec![0; 1 << 15], vec![0; 1 << 20]);
    let packed = pack(scale, t, list, pool, &mut table, &mut samples).expect("the list packs");
    assert_eq!(packed.samples as usize * 8, packed.table_bytes);
    table.truncate(packed.table_bytes);
    samples.truncate(packed.sample_bytes);
    (table, samples)
}

/// The check's refusal of the track.
fn in_track(refusal: Refusal) -> Result<(), Fault> {
    Err(Fault {
        who: Who::Track,
        refusal,
    })
}

fn durations(table: &[u8]) -> Vec<u32> {
    table_records(table).map(|(duration, _)| duration).collect()
}

/// The records and T of a track.
fn unpacked(scale: u32, table: &[u8], samples: &[u8]) -> Result<(Vec<u8>, u32), Refusal> {
    let (mut records, mut pool) = (vec![0; 1 << 15], vec![0; 1 << 20]);
    let unpacked = unpack(scale, table, samples, &mut records, &mut pool)?;
    records.truncate(unpacked.record_bytes);
    Ok((records, unpacked.t))
}

#[test]
fn overlapping_cues() {
    let list = list(&[
        (1, 11_000, 12_500),
        (2, 13_000, 18_000),
        (3, 17_000, 20_000),
    ]);
    let (table, bytes) = packed(1000, 20_000, &list, &[]);
    assert_eq!(durations(&table), [11_000, 1500, 500, 4000, 1000, 2000]);
    let shown: Vec<Vec<u32>> = samples(&table, &bytes)
        .map(|(_, sample)| cues(sample).filter_map(|cue| cue.id).collect())
        .collect();
    assert_eq!(
        shown,
        [vec![], vec![1], vec![], vec![2], vec![2, 3], vec![3]]
    );
}

#[test]
fn durations_are_not_rounded_by_themselves() {
    let list = list(&[(1, 0, 333), (2, 333, 666), (3, 666, 999)]);
    let (table, bytes) = packed(1500, 999, &list, &[]);
    assert_eq!(durations(&table), [499, 500, 499]);
    assert_eq!(unpacked(1500, &table, &bytes), Ok((list, 999)));
}

#[test]
fn a_cue_lasts_a_tick() {
    let refused = Refusal::new(10, 0);
    assert_eq!(
        judge_list(25, 1000, &list(&[(1, 41, 79)]), &[]),
        Err(refused)
    );
    let (table, _) = packed(25, 1000, &list(&[(1, 41, 80)]), &[]);
    assert_eq!(durations(&table), [1, 1, 23]);
}

#[test]
fn no_cues() {
    let (table, bytes) = packed(1000, 1000, &[], &[]);
    assert_eq!(durations(&table), [1000]);
    assert_eq!(bytes, b"\x00\x00\x00\x08vtte");
}

#[test]
fn one_cue() {
    let record = Record {
        id: 7,
        end: 1000,
        payload_len: 2,
        ..Record::default()
    }
    .to_bytes();
    let (table, bytes) = packed(90_000, 1000, &record, b"Hi");
    let sample = b"\x00\x00\x00\x1Evttc\x00\x00\x00\x0Cvsid\x00\x00\x00\x07\x00\x00\x00\x0ApaylHi";
    assert_eq!(bytes, sample);
    assert_eq!(table, [0, 1, 0x5F, 0x90, 0, 0, 0, 0x1E]);
    let output = answer(b"90000 1000\n", Some(&record), Some(b"Hi"));
    assert_eq!(output, b"90000 30\n");
}

#[test]
fn character_counts() {
    assert_eq!(characters(b""), Ok(0));
    assert_eq!(characters(b"\xC3\xA9"), Ok(1));
    assert_eq!(characters(b"\xFE\xFF\xD8\x3D\xDE\x00"), Ok(1));
    assert_eq!(characters(b"\xFE\xFF"), Ok(0));
}

#[test]
fn utf8_is_bad_at_the_byte_that_breaks_it() {
    let faults: [(&[u8], usize); 20] = [
        (b"\x80", 0),
        (b"\xC0\x80", 0),
        (b"\xC1", 0),
        (b"\xF5\x80\x80\x80", 0),
        (b"\xFE\xFF", 0),
        (b"\xC3\x0A", 1),
        (b"\xC3\xC3\xA9", 1),
        (b"\xE0\x80", 1),
        (b"\xE0\x9F\xBF", 1),
        (b"\xED\xA0\x80", 1),
        (b"\xF0\x80", 1),
        (b"\xF0\x8F\xBF\xBF", 1),
        (b"\xF4\x90\x80\x80", 1),
        (b"\xE2\x82a", 2),
        (b"\xF0\x9Fa", 2),
        (b"\xF0\x9F\x98a", 3),
        (b"ab\xE2\x82\xAC\xFF\x80", 5),
        (b"\xC3", 1),
        (b"a\xE2\x82", 3),
        (b"a\xF0\x9F\x98", 4),
    ];
    for (text, fault) in faults {
        assert_eq!(utf8_fault(text), Some(fault), "{text:x?}");
        assert_eq!(identifier_fault(text), Some(fault), "{text:x?}");
        assert_eq!(payload_fault(text), Some(fault), "{text:x?}");
        assert_eq!(label_fault(text), Some(fault), "{text:x?}");
    }
    assert_eq!(utf8_fault("a\0\r\n\n-->\u{10FFFF}".as_bytes()), None);
}

#[test]
fn identifiers_are_bad_at() {
    let faults: [(&[u8], Option<usize>); 9] = [
        (b"", None),
        (b"a--b->", None),
        (b"\0", Some(0)),
        (b"ab\r", Some(2)),
        (b"ab\n", Some(2)),
        (b"-->", Some(2)),
        (b"a--->", Some(4)),
        (b"a-->\xFF", Some(3)),
        (b"\xFF-->", Some(0)),
    ];
    for (text, fault) in faults {
        assert_eq!(identifier_fault(text), fault, "{text:x?}");
    }
}

#[test]
fn payloads_are_bad_at() {
    let faults: [(&[u8], Option<usize>); 17] = [
        (b"", None),
        (b"a\nb\rc\r\nd", None),
        (b"a\0", Some(1)),
        (b"a-->", Some(3)),
        (b"\na", Some(0)),
        (b"\r\na", Some(0)),
        (b"\n", Some(0)),
        (b"a\n\nb", Some(2)),
        (b"a\n\rb", Some(2)),
        (b"a\r\rb", Some(2)),
        (b"a\r\n\nb", Some(3)),
        (b"a\r\n\rb", Some(3)),
        (b"a\n", Some(2)),
        (b"a\r", Some(2)),
        (b"a\r\n", Some(3)),
        (b"a\xFFb\n", Some(1)),
        (b"a\n\xC3", Some(3)),
    ];
    for (text, fault) in faults {
        assert_eq!(payload_fault(text), fault, "{text:x?}");
    }
}

#[test]
fn configurations_and_labels_are_bad_at() {
    let faults: [(&[u8], Option<usize>, Option<usize>); 10] = [
        (b"", Some(0), None),
        (b"WEBVTT", None, None),
        (b"WEBVTT\n\n-->\0", None, None),
        (b"WEB", Some(3), None),
        (b"WEBvtt", Some(3), None),
        (b"WEB\n", Some(3), Some(4)),
        (b"WEBVTT\n", Some(7), Some(7)),
        (b"WEBVTT\r\n", Some(8), Some(8)),
        (b"\xEF\xBB\xBFWEBVTT", Some(0), None),
        (b"WEBVTT\xC3\n", Some(7), Some(7)),
    ];
    for (text, configuration, label) in faults {
        assert_eq!(configuration_fault(text), configuration, "{text:x?}");
        assert_eq!(label_fault(text), label, "{text:x?}");
    }
}

#[test]
fn tx3g_texts_are_bad_at() {
    let faults: [(&[u8], usize); 15] = [
        (b"\xFE", 1),
        (b"\xFEA", 1),
        (b"\xFE\xFE\xFF", 1),
        (b"\xFF\xFE", 0),
        (b"a\xFE\xFF", 1),
        (b"\xE0\x80", 1),
        (b"\xFE\xFF\x00", 3),
        (b"\xFE\xFF\xD8", 3),
        (b"\xFE\xFF\xD8\x3D", 4),
        (b"\xFE\xFF\xD8\x3D\xDE", 5),
        (b"\xFE\xFF\xD8\x3D\x00\x41", 4),
        (b"\xFE\xFF\xD8\x3D\xD8\x3D\xDE\x00", 4),
        (b"\xFE\xFF\x00\x41\xDC\x00", 4),
        (b"\xFE\xFF\xDC", 2),
        (b"\xFE\xFF\xD8\x3D\xDE\x00\xDE\x00", 6),
    ];
    for (text, fault) in faults {
        assert_eq!(characters(text), Err(fault), "{text:x?}");
    }
}

/// A record and the pool of its texts.
fn with_texts(identifier: &[u8], settings: &[u8], payload: &[u8]) -> (Vec<u8>, Vec<u8>) {
    let record = Record {
        id: 1,
        end: 10,
        identifier_len: identifier.len() as u16,
        settings_len: settings.len() as u16,
        payload_len: payload.len() as u16,
        ..Record::default()
    };
    let pool = [identifier, settings, payload].concat();
    (record.to_bytes().to_vec(), pool)
}

#[test]
fn the_first_bad_text_of_a_record_counts() {
    let judged = |identifier: &[u8], settings: &[u8], payload: &[u8]| {
        let (record, pool) = with_texts(identifier, settings, payload);
        let records = [list(&[(0, 0, 10)]), record].concat();
        judge_list(1000, 10, &records, &pool).expect_err("a text is bad")
    };
    assert_eq!(judged(b"abc\n", b"\xFF", b"\0"), Refusal::bad_text(1, 3));
    assert_eq!(judged(b"abc", b"line\xFF", b"\0"), Refusal::bad_text(1, 4));
    assert_eq!(judged(b"abc", b"line", b"a\n"), Refusal::bad_text(1, 2));
}

#[test]
fn a_bad_text_has_its_place_and_its_offset() {
    let sample = b"\0\0\0\x1Fvttc\0\0\0\x0Cvsid\0\0\0\x07\0\0\0\x0BpaylHi\xFF";
    assert_eq!(judge_sample(sample), Err(Refusal::bad_text(20, 2)));
    let empty = b"\0\0\0\x08vtte";
    let bytes = [&empty[..], sample].concat();
    let table = b"\0\0\0\x01\0\0\0\x08\0\0\0\x01\0\0\0\x1F";
    let refused = Refusal::bad_text(1, 2);
    assert_eq!(judge_track(table, &bytes), Err(refused));
    assert_eq!(unpacked(1000, table, &bytes), Err(refused));
    assert_eq!(check(1000, 2, &[], &[], table, &bytes), in_track(refused));
    let entry = b"\0\0\0\x1Ewvtt\0\0\0\0\0\0\0\x01\0\0\0\x0EvttCWEBVTX";
    assert_eq!(judge_entry(entry), Err(Refusal::bad_text(16, 5)));
}

/// A `tx3g` entry with font 1.
fn tx3g_entry() -> Vec<u8> {
    let mut entry = [b"\0\0\0\x3Btx3g", &[0; 38][..]].concat();
    entry[39] = 1;
    entry.extend(b"\0\0\0\x0Dftab\0\x01\0\x01\0");
    entry
}

#[test]
fn a_bad_tx3g_text_counts_from_its_first_byte() {
    let entry = tx3g_entry();
    let refused = Fault {
        who: Who::Sample,
        refusal: Refusal::bad_text(0, 4),
    };
    let sample = b"\0\x06\xFE\xFF\xD8\x3D\0A";
    assert_eq!(tx3g::read_sample(&entry, sample), Err(refused));
    assert_eq!(tx3g::style(&entry, sample, 0), Err(refused));
    assert_eq!(tx3g::text_box(&entry, sample), Err(refused));
    let read = tx3g::read_sample(&entry, b"\0\x02Hi");
    assert_eq!(read.map(|sample| sample.characters), Ok(2));
}

#[test]
fn limits() {
    let named = |len: u16| {
        Record {
            end: 1,
            identifier_len: len,
            ..Record::default()
        }
        .to_bytes()
    };
    assert_eq!(judge_list(1000, 1, &named(255), &[b'i'; 300]), Ok(()));
    let refused = Refusal::new(9, 0);
    assert_eq!(judge_list(1000, 1, &named(256), &[b'i'; 300]), Err(refused));
    let many = |count: u32| list(&(0..count).map(|id| (id, 0, 1)).collect::<Vec<_>>());
    assert_eq!(judge_list(1000, 1, &many(1024), &[]), Ok(()));
    assert_eq!(judge_list(1000, 1, &many(1025), &[]), Err(refused));
}

#[test]
fn longest_result() {
    let record = |id: u32| Record {
        id,
        start: id,
        end: 2048 - id,
        payload_len: 4095,
        ..Record::default()
    };
    let list: Vec<u8> = (0..1024).flat_map(|id| record(id).to_bytes()).collect();
    let (mut table, mut bytes) = (vec![0; 8 * 2049], vec![0; 16]);
    let refused = pack(1000, 2048, &list, &[b'p'; 4095], &mut table, &mut bytes);
    assert_eq!(refused, Err(Refusal::new(15, 1)));
    let refused = pack(
        1000,
        2048,
        &list,
        &[b'p'; 4095],
        &mut table[..2046 * 8],
        &mut bytes,
    );
    assert_eq!(refused, Err(Refusal::new(15, 0)));
    assert!(table.iter().chain(&bytes).all(|&b| b == 0));
}

#[test]
fn ids_after_an_empty_sample_are_not_joined() {
    let cue = &b"\x00\x00\x00\x1Cvttc\x00\x00\x00\x0Cvsid\x00\x00\x00\x07\x00\x00\x00\x08payl"[..];
    let empty = &b"\x00\x00\x00\x08vtte"[..];
    let bytes = [cue, empty, cue].concat();
    let table = [
        0, 0, 0, 1, 0, 0, 0, 28, 0, 0, 0, 1, 0, 0, 0, 8, 0, 0, 0, 1, 0, 0, 0, 28,
    ];
    assert_eq!(judge_sample(cue), Ok(()));
    assert_eq!(unpacked(1000, &table, &bytes), Err(Refusal::new(13, 2)));
    let list = list(&[(7, 0, 3)]);
    let refused = in_track(Refusal::new(16, 1));
    assert_eq!(check(1000, 3, &list, &[], &table, &bytes), refused);
}

#[test]
fn a_sample_over_a_cut_differs() {
    let list = list(&[(7, 0, 2)]);
    let (table, bytes) = packed(1000, 3, &list, &[]);
    assert_eq!(check(1000, 3, &list, &[], &table, &bytes), Ok(()));
    let mut longer = table.clone();
    longer[3] = 3;
    longer[11] = 1;
    let refused = in_track(Refusal::new(16, 0));
    assert_eq!(check(1000, 3, &list, &[], &longer, &bytes), refused);
    let refused = in_track(Refusal::new(16, 1));
    assert_eq!(
        check(1000, 3, &list, &[], &table[..8], &bytes[..28]),
        refused
    );
}

#[test]
fn the_check_says_who_is_at_fault() {
    let list = list(&[(7, 0, 2)]);
    let (table, bytes) = packed(1000, 3, &list, &[]);
    let who = |t, table: &[u8], bytes: &[u8]| {
        let fault = check(1000, t, &list, &[], table, bytes);
        fault.expect_err("it is refused").who
    };
    assert_eq!(who(1, &table, &bytes), Who::List);
    assert_eq!(who(1, &table[1..], &bytes), Who::List);
    assert_eq!(who(3, &table[1..], &bytes), Who::Track);
    assert_eq!(who(4, &table, &bytes), Who::Track);
}

#[test]
fn rooms_are_what_is_written() {
    let list = list(&[(7, 0, 2), (8, 1, 3)]);
    let (table, bytes) = packed(1000, 4, &list, &[]);
    let room = captions_model::pack::room(1000, 4, &list, &[]).expect("it packs");
    assert_eq!(room.samples, 4);
    assert_eq!(
        (room.table_bytes, room.sample_bytes),
        (table.len(), bytes.len())
    );
    let room = captions_model::unpack::room(1000, &table, &bytes).expect("it unpacks");
    assert_eq!((room.record_bytes, room.pool_bytes, room.t), (48, 0, 4));
    let refused = captions_model::unpack::room(0, &table, &bytes);
    assert_eq!(refused, Err(Refusal::new(10, 0)));
}

#[test]
fn an_entry_is_written_as_it_is_read() {
    let mut out = [0xA5; 50];
    let size = write_entry(b"WEBVTT", Some(b"la"), 0x0102, &mut out).expect("it is good");
    let entry = b"\0\0\0\x28wvtt\0\0\0\0\0\0\x01\x02\0\0\0\x0EvttCWEBVTT\0\0\0\x0Avlabla";
    assert_eq!(&out[..size], entry);
    assert!(out[size..].iter().all(|&b| b == 0xA5));
    let read = read_entry(entry).expect("it is good");
    assert_eq!(read.data_reference_index, 0x0102);
    assert_eq!(read.configuration.of(entry), b"WEBVTT");
    assert_eq!(read.label.map(|label| label.of(entry)), Some(&b"la"[..]));
    assert_eq!(entry_room(b"WEBVTT", None), Ok(30));
    assert_eq!(entry_room(b"WEBVTT", Some(b"")), Ok(38));
}

#[test]
fn an_entry_is_refused_in_order() {
    let write = |configuration: &[u8], label: &[u8], room: usize| {
        let mut out = vec![0; room];
        write_entry(configuration, Some(label), 1, &mut out)
    };
    assert_eq!(write(b"WEB\n", b"\xFF", 0), Err(Refusal::bad_text(0, 3)));
    assert_eq!(write(b"WEBVTT", b"a\n", 0), Err(Refusal::bad_text(1, 2)));
    assert_eq!(write(b"WEBVTT", b"a", 38), Err(Refusal::new(15, 0)));
    assert_eq!(write(b"WEBVTT", b"a", 39), Ok(39));
}

#[test]
fn fonts_stand_one_after_the_other() {
    let mut entry = tx3g_entry();
    entry.truncate(46);
    entry.extend(b"\0\0\0\x15ftab\0\x02\0\x01\x03abc\x01\x02\x02de");
    entry[3] = entry.len() as u8;
    let fields = tx3g::read_entry(&entry).expect("it is good").fields();
    assert_eq!((fields.fonts, fields.fonts_from), (2, 56));
    let fonts = tx3g::fonts(&entry).expect("it is good");
    let fonts: Vec<_> = fonts.iter().map(|f| (f.id, f.name.of(&entry))).collect();
    assert_eq!(fonts, [(1, &b"abc"[..]), (0x0102, b"de")]);
    assert_eq!(tx3g::font_at(&entry, entry.len() - 2), None);
    assert_eq!(tx3g::font_at(&entry, usize::MAX), None);
}

/// A sample of six characters with these styles, all of font 1 and of the sizes 1, 2, …
fn styled(ranges: &[(u8, u8)]) -> Vec<u8> {
    let mut styles = vec![0, ranges.len() as u8];
    for (index, &(start, end)) in ranges.iter().enumerate() {
        styles.extend([0, start, 0, end, 0, 1, 0, index as u8 + 1, 0, 0, 0, 0]);
    }
    let size = [0, 0, 0, 8 + styles.len() as u8];
    [b"\0\x06abcdef", &size[..], b"styl", &styles].concat()
}

#[test]
fn runs_lie_end_to_end() {
    let found = |ranges: &[(u8, u8)]| -> Vec<(usize, usize, u8)> {
        let sample = styled(ranges);
        let all = runs(&tx3g_entry(), &sample).expect("it is good");
        let run = |r: Run| (r.from, r.end, r.look[3]);
        all.map(run).collect()
    };
    assert_eq!(found(&[]), [(0, 6, 0)]);
    assert_eq!(found(&[(0, 6)]), [(0, 6, 1)]);
    assert_eq!(found(&[(2, 2), (4, 4)]), [(0, 6, 0)]);
    assert_eq!(
        found(&[(0, 0), (1, 2), (2, 2), (2, 4), (4, 4)]),
        [(0, 1, 0), (1, 2, 2), (2, 4, 4), (4, 6, 0)]
    );
    assert_eq!(runs(&tx3g_entry(), b"\0\0").map(Iterator::count), Ok(0));
}

#[test]
fn a_run_of_any_arguments() {
    let sample = styled(&[(1, 3), (5, 4), (5, 9)]);
    let from = 18;
    let run = |styles, from, k, characters| {
        next_run(&sample, styles, from, k, characters).map(|run| {
            let RunAt { range, look, .. } = run;
            (range.start, range.end, look.map(|l| l[3]), run.styles)
        })
    };
    assert_eq!(run(3, from, 0, 6), Some((0, 1, None, 3)));
    assert_eq!(run(3, from, 2, 6), Some((2, 3, Some(1), 2)));
    assert_eq!(run(3, from, 3, 6), Some((3, 5, None, 1)));
    assert_eq!(run(3, from, 5, 6), Some((5, 6, Some(3), 0)));
    assert_eq!(run(3, from, 9, 20), Some((9, 20, None, 0)));
    assert_eq!(run(3, from, 6, 6), None);
    assert_eq!(run(usize::MAX, usize::MAX, 0, 6), Some((0, 6, None, 0)));
    let behind = next_run(&sample, 9, from, 1, 6).expect("a run");
    assert_eq!((behind.styles, behind.styles_from), (8, from + 12));
    assert_eq!(behind.range, Span { start: 1, end: 3 });
}
