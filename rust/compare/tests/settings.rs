//! Settings through the proved library: texts damaged in every byte and of all short parts, every
//! value, every record of few values with every room, and what no text gives.

use captions::ffi::*;
use captions::wvtt::{self, read_settings, settings_to_string, write_settings};
use captions::wvtt::{Align, Line, LineAlign, Position, PositionAlign, Settings, Vertical};
use captions::Refusal;
use captions_compare::Proved;
use captions_harness::generate::{self as make, SettingsRecord, TELLING_IN_SETTINGS};
use captions_harness::random::Random;
use captions_harness::{Library, Model};

/// Number, place and offset.
type Answer = (u32, usize, usize);

fn answer<T>(judged: Result<T, Refusal>) -> Answer {
    let refused = |r: Refusal| (r.reason.number(), r.place, r.offset);
    judged.map_or_else(refused, |_| (0, 0, 0))
}

/// Both answers to a text, which are alike but for where an empty region stands.
fn compare(text: &[u8]) -> Answer {
    let read = |library: &dyn Library| {
        let read = library.read_settings(text).expect("it is offered");
        read.map(|(settings, region)| (settings, region.of(text)))
    };
    assert_eq!(read(&Model), read(&Proved), "{}", text.escape_ascii());
    answer(read_settings(text))
}

/// Settings come back from their text.
fn assert_comes_back(settings: &Settings) -> String {
    let text = settings_to_string(settings);
    let text = text.unwrap_or_else(|why| panic!("{why} {settings:?}"));
    assert_eq!(read_settings(text.as_bytes()).as_ref(), Ok(settings));
    text
}

fn is_not_written(settings: &Settings) {
    assert_eq!(answer(wvtt::settings_room(settings)), (8, 0, 0));
    assert_eq!(answer(write_settings(settings, &mut [0; 300])), (8, 0, 0));
    assert_eq!(answer(write_settings(settings, &mut [])), (8, 0, 0));
}

fn short_texts(count: usize) -> impl Iterator<Item = Vec<u8>> {
    let texts = (0..).map(|seed| make::good_settings_text(&mut Random::new(seed)));
    let short = texts.filter(|text| (8..48).contains(&text.len()));
    short.take(count)
}

#[test]
fn every_damage_of_one_byte_is_answered_alike() {
    let (mut read, mut refused) = (0, 0);
    for text in short_texts(300) {
        assert_eq!(compare(&text), (0, 0, 0));
        for damaged in make::every_edit(&text, TELLING_IN_SETTINGS) {
            match compare(&damaged) {
                (0, ..) => read += 1,
                (number, place, offset) => {
                    assert!(matches!(number, 6 | 20));
                    assert_eq!(if number == 6 { place } else { offset }, 0);
                    refused += 1;
                }
            }
        }
    }
    assert!(read > 30_000 && refused > 200_000, "{read} {refused}");
}

/// All texts of up to four of some parts.
#[test]
fn all_short_texts_are_answered_alike() {
    let parts = "line: position: size: align: region: start center , . % - 0 5 100 : x";
    let parts: Vec<&str> = parts.split(' ').chain([" ", "\t", "\u{c}"]).collect();
    let mut texts = vec![String::new()];
    for _ in 0..4 {
        let longer = |text: &String| parts.iter().map(|part| format!("{text}{part}")).collect();
        texts = texts
            .iter()
            .flat_map(|text| -> Vec<String> { longer(text) })
            .collect();
        for text in &texts {
            compare(text.as_bytes());
        }
    }
}

#[test]
fn the_limits_of_lines_are_exact() {
    for number in -33_000..=33_000 {
        for text in [format!("line:{number}"), format!("line:{number},center")] {
            let within = i16::try_from(number).is_ok();
            let expected = if within { (0, 0, 0) } else { (20, 0, 0) };
            assert_eq!(compare(text.as_bytes()), expected, "{text}");
        }
    }
    for digits in [19, 20, 39, 100, 249] {
        let text = format!("line:-{}1", "0".repeat(digits - 1));
        assert_eq!(compare(text.as_bytes()), (0, 0, 0));
        let text = format!("line:{}", "9".repeat(digits));
        assert_eq!(compare(text.as_bytes()), (20, 0, 0));
    }
}

/// In every spelling with at most two decimals.
#[test]
fn the_limits_of_percentages_are_exact() {
    for hundredths in 0..=20_000 {
        let (whole, decimals) = (hundredths / 100, hundredths % 100);
        let mut spelled = vec![format!("{whole}.{decimals:02}%")];
        if decimals % 10 == 0 {
            spelled.push(format!("0{whole}.{}%", decimals / 10));
        }
        if decimals == 0 {
            spelled.push(format!("{whole}%"));
        }
        let number = if hundredths <= 10_000 { 0 } else { 20 };
        for percent in spelled {
            for name in ["size", "line", "position"] {
                let text = format!("{name}:{percent}");
                assert_eq!(compare(text.as_bytes()), (number, 0, 0), "{text}");
            }
        }
    }
    for digits in [3, 5, 10, 20, 40, 240] {
        let text = format!("size:{}%", "9".repeat(digits));
        assert_eq!(compare(text.as_bytes()), (20, 0, 0));
        let text = format!("size:{}100.0%", "0".repeat(digits));
        assert_eq!(compare(text.as_bytes()), (0, 0, 0));
    }
}

#[test]
fn every_value_comes_back() {
    let none = Settings::default();
    for number in i16::MIN..=i16::MAX {
        let line = Line::Number(number);
        let text = assert_comes_back(&Settings { line, ..none });
        assert_eq!(text, format!("line:{number}"));
    }
    for size in 0..=u16::MAX {
        let (line, position) = (Line::Percent(size), Position::Percent(size));
        for settings in [
            Settings { size, ..none },
            Settings { line, ..none },
            Settings { position, ..none },
        ] {
            match size {
                0..=10_000 => drop(assert_comes_back(&settings)),
                _ => is_not_written(&settings),
            }
        }
    }
}

/// Every record of few values, with regions of few lengths.
fn records() -> impl Iterator<Item = Settings<'static>> {
    const LONG: &str = match std::str::from_utf8(&[b'x'; 184]) {
        Ok(name) => name,
        Err(_) => "",
    };
    use {Align::*, PositionAlign::*};
    let verticals = [Vertical::None, Vertical::Rl, Vertical::Lr];
    let lines = [Line::Auto, Line::Number(-5), Line::Percent(1250)];
    let line_aligns = [LineAlign::Start, LineAlign::Center, LineAlign::End];
    let positions = [Position::Auto, Position::Percent(9)];
    let position_aligns = [Auto, LineLeft, PositionAlign::Center, LineRight];
    let aligns = [Start, Align::Center, End, Left, Right];
    let regions = ["", "r", LONG];
    let counts = [3, 3, 3, 2, 4, 2, 5, 3];
    (0..counts.iter().product::<usize>()).map(move |mut index| {
        let [v, l, la, p, pa, s, a, r] = counts.map(|count| {
            let digit = index % count;
            index /= count;
            digit
        });
        Settings {
            vertical: verticals[v],
            line: lines[l],
            line_align: line_aligns[la],
            position: positions[p],
            position_align: position_aligns[pa],
            size: [10_000, 50][s],
            align: aligns[a],
            region: regions[r],
        }
    })
}

#[test]
fn every_record_comes_back_or_is_not_written() {
    let (mut back, mut refused) = (0, 0);
    for settings in records() {
        let beside_auto = settings.line == Line::Auto && settings.line_align != LineAlign::Start
            || settings.position == Position::Auto
                && settings.position_align != PositionAlign::Auto;
        if beside_auto {
            is_not_written(&settings);
            refused += 1;
            continue;
        }
        let bare = Settings {
            region: "",
            ..settings
        };
        let length = assert_comes_back(&bare).len();
        let space = usize::from(length > 0);
        match (settings.region, length + space + 7 + settings.region.len()) {
            ("", _) => {}
            (_, 256..) => {
                is_not_written(&settings);
                refused += 1;
            }
            (_, whole) => assert_eq!(assert_comes_back(&settings).len(), whole),
        }
        back += 1;
    }
    assert!(back > 2000 && refused > 2000, "{back} {refused}");
}

/// With less room nothing is written; with more, nothing behind the text.
#[test]
fn every_room_is_answered() {
    for settings in records().step_by(7) {
        let Ok(text) = settings_to_string(&settings) else {
            continue;
        };
        let need = text.len();
        for room in (0..need.min(40)).chain(need.saturating_sub(3)..need + 4) {
            let mut out = vec![0xA5; room];
            let written = write_settings(&settings, &mut out);
            if room < need {
                assert_eq!(answer(written), (15, 0, 0));
                assert!(out.iter().all(|&byte| byte == 0xA5));
            } else {
                assert_eq!(written, Ok(need));
                assert_eq!(&out[..need], text.as_bytes());
                assert!(out[need..].iter().all(|&byte| byte == 0xA5));
            }
        }
    }
}

/// What was read is written as a text that reads the same and is not longer.
#[test]
fn a_text_is_written_shorter() {
    let mut shorter = 0;
    for seed in 0..60_000 {
        let text = make::settings_text(&mut Random::new(seed));
        if let Ok(settings) = read_settings(&text) {
            let form = assert_comes_back(&settings);
            assert!(form.len() <= text.len(), "{}", text.escape_ascii());
            shorter += usize::from(form.as_bytes() != text);
        }
    }
    assert!(shorter > 10_000, "{shorter}");
}

/// Every byte in a region's name, alone and between letters.
#[test]
fn regions_are_judged_byte_by_byte() {
    let none = SettingsRecord {
        settings: Default::default(),
        region: Vec::new(),
    };
    let room = |region: &[u8]| {
        let room = Proved.settings_room(&none.settings, region);
        assert_eq!(room, Model.settings_room(&none.settings, region));
        room.expect("it is offered").is_ok()
    };
    for byte in 0..=255 {
        let good = byte < 0x80 && !b"\0\t\n\x0C\r ".contains(&byte);
        assert_eq!(room(&[byte]), good, "{byte}");
        assert_eq!(room(&[b'a', byte, b'b']), good, "{byte}");
    }
    for (region, good) in [
        ("--", true),
        ("->", true),
        ("-->", false),
        ("a--->b", false),
    ] {
        assert_eq!(room(region.as_bytes()), good, "{region}");
    }
}

/// The numbers of an empty text as C has them.
fn none() -> CaptionsSettings {
    // SAFETY: no bytes.
    let read = unsafe { captions_wvtt_read_settings([].as_ptr(), 0) };
    assert_eq!(read.refusal.number, 0);
    read.settings
}

/// The number of writing's answer, which is that of the room.
fn written(settings: CaptionsSettings) -> u32 {
    let mut out = [0; 300];
    let (at, len) = (out.as_mut_ptr(), out.len());
    // SAFETY: pointers and lengths of slices.
    unsafe {
        let room = captions_wvtt_settings_room(settings, [].as_ptr(), 0);
        let written = captions_wvtt_write_settings(settings, [].as_ptr(), 0, at, len);
        assert_eq!(room, written);
        room.refusal.number
    }
}

/// Numbers that are in no list are refused, whatever stands beside them.
#[test]
fn numbers_in_no_list_are_refused() {
    type Field = fn(&mut CaptionsSettings) -> &mut u8;
    let fields: [(Field, u8); 6] = [
        (|s| &mut s.vertical, 3),
        (|s| &mut s.line, 3),
        (|s| &mut s.line_align, 3),
        (|s| &mut s.position, 2),
        (|s| &mut s.position_align, 4),
        (|s| &mut s.align, 5),
    ];
    for (line, position) in [(0, 0), (1, 0), (2, 1)] {
        for (field, count) in fields {
            for number in 0..=u8::MAX {
                let mut settings = CaptionsSettings {
                    line,
                    position,
                    ..none()
                };
                *field(&mut settings) = number;
                let beside_auto = settings.line == 0 && settings.line_align > 0
                    || settings.position == 0 && settings.position_align > 0;
                let good = number < count && !beside_auto;
                assert_eq!(written(settings), if good { 0 } else { 8 }, "{settings:?}");
            }
        }
    }
}

/// What stands in fields beside another kind of line or position does not matter.
#[test]
fn other_fields_are_not_looked_at() {
    let most = u16::MAX;
    for (line, position) in [(0, 0), (1, 0), (1, 1), (2, 0), (2, 1)] {
        let settings = CaptionsSettings {
            line,
            position,
            line_number: if line == 1 { -5 } else { i16::MIN },
            line_percent: if line == 2 { 50 } else { most },
            position_percent: if position == 1 { 50 } else { most },
            ..none()
        };
        assert_eq!(written(settings), 0, "{settings:?}");
    }
}

#[test]
fn any_bytes_are_answered_alike() {
    let mut random = Random::new(11);
    for _ in 0..40_000 {
        let len = random.pick(&[3, 20, 90, 255, 256, 1000]);
        let len = random.below(len + 1);
        let text = match random.below(3) {
            0 => random.bytes(len),
            1 => (0..len)
                .map(|_| random.pick(&TELLING_IN_SETTINGS))
                .collect(),
            _ => (0..len).map(|_| random.pick(b"line:5 \tregion")).collect(),
        };
        compare(&text);
    }
    for len in [1 << 16, 1 << 20] {
        assert_eq!(compare(&vec![b' '; len]), (9, 0, 0));
    }
    assert_eq!(compare(&[b' '; 255]), (0, 0, 0));
}

/// Bad and malformed at every offset of a text as long as it may be.
#[test]
fn a_text_is_refused_at_every_offset() {
    let mut text = vec![b' '; 255];
    for at in 0..text.len() {
        text[at] = 0xFF;
        assert_eq!(compare(&text), (6, 0, at));
        text[at] = b'x';
        assert_eq!(compare(&text), (20, at, 0));
        text[at] = b' ';
    }
}
