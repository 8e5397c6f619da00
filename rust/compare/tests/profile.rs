//! The tag profile through the proved library: payloads damaged in every byte, continued, at the
//! limits, and as the converter makes them.

use captions::wvtt::judge_profile;
use captions::{tx3g, Refusal};
use captions_compare::Proved;
use captions_harness::generate::{self as make, Tx3gTrack};
use captions_harness::random::Random;
use captions_harness::{Library, Model};

/// Number, place and offset.
fn answer(judged: Result<(), Refusal>) -> (u32, usize, usize) {
    let refused = |r: Refusal| (r.reason.number(), r.place, r.offset);
    judged.map_or_else(refused, |()| (0, 0, 0))
}

fn is_inside(text: &[u8]) -> bool {
    judge_profile(text).is_ok()
}

/// Both answers, which are alike.
fn compare(text: &[u8]) -> (u32, usize, usize) {
    let shown = || text.escape_ascii().to_string();
    let proved = Proved.judge_profile(text);
    assert_eq!(Model.judge_profile(text), proved, "{}", shown());
    answer(judge_profile(text))
}

#[test]
fn every_damage_of_one_byte_is_answered_alike() {
    let (mut inside, mut outside) = (0, 0);
    for text in make::short_tagged_texts(250) {
        assert_eq!(compare(&text), (0, 0, 0));
        for damaged in make::every_damage(&text) {
            match compare(&damaged) {
                (0, ..) => inside += 1,
                (number, place, offset) => {
                    assert!(matches!(number, 6 | 21));
                    assert_eq!(if number == 6 { place } else { offset }, 0);
                    outside += 1;
                }
            }
        }
    }
    assert!(inside > 20_000 && outside > 200_000, "{inside} {outside}");
}

/// Damages of texts that were damaged before.
#[test]
fn two_damages_are_answered_alike() {
    for text in make::short_tagged_texts(0) {
        for (index, once) in make::every_damage(&text).enumerate() {
            if index % 60 == 0 {
                for twice in make::every_damage(&once) {
                    compare(&twice);
                }
            }
        }
    }
}

/// By yes and no of the proved library alone: up to the place a payload goes on to one in the
/// profile, and with one byte more it does not.
#[test]
fn a_place_is_where_no_text_goes_on() {
    let can_go_on = |text: &[u8]| make::continuations(text).any(|whole| is_inside(&whole));
    let mut seen = [0; 2];
    for text in make::short_tagged_texts(16) {
        for damaged in make::every_damage(&text) {
            let (21, place, _) = answer(judge_profile(&damaged)) else {
                continue;
            };
            let shown = damaged.escape_ascii();
            assert!(can_go_on(&damaged[..place]), "{place} {shown}");
            let ended = place == damaged.len();
            assert!(ended || !can_go_on(&damaged[..=place]), "{place} {shown}");
            seen[usize::from(ended)] += 1;
        }
    }
    assert!(seen.iter().all(|&count| count > 500), "{seen:?}");
}

/// All texts of up to four of some parts.
#[test]
fn all_short_texts_are_answered_alike() {
    let parts = "< > / & ; . b v c lang ruby rt lt amp 0 00:00:01.000 x é";
    let parts: Vec<&str> = parts.split(' ').chain([" ", "\t", "\n"]).collect();
    let mut texts = vec![String::new()];
    for _ in 0..4 {
        let longer = |text: &String| parts.iter().map(|part| format!("{text}{part}")).collect();
        texts = texts
            .iter()
            .flat_map(|text| -> Vec<String> { longer(text) })
            .collect();
        for text in &texts {
            compare(text.as_bytes());
        }
    }
}

/// So many tags of one name, one in another, and their end tags.
fn nested(start: &str, end: &str, levels: usize) -> String {
    format!("{}x{}", start.repeat(levels), end.repeat(levels))
}

#[test]
fn the_limits_are_exact() {
    let judged = |text: &str| compare(text.as_bytes());
    for (start, end) in [
        ("<b>", "</b>"),
        ("<i.a>", "</i>"),
        ("<v A>", "</v>"),
        ("<lang en>", "</lang>"),
        ("<ruby>", "</ruby>"),
    ] {
        assert_eq!(judged(&nested(start, end, 16)), (0, 0, 0));
        let seventeen = nested(start, end, 17);
        assert_eq!(judged(&seventeen), (21, 16 * start.len() + 1, 0));
    }
    assert_eq!(judged(&nested("<ruby><rt>", "</rt></ruby>", 8)), (0, 0, 0));
    let nine = nested("<ruby><rt>", "</rt></ruby>", 9);
    assert_eq!(judged(&nine), (21, 81, 0));
    let deep = "<b>".repeat(16);
    assert_eq!(judged(&format!("{deep}<")), (21, 49, 0));
    assert_eq!(judged(&format!("{deep}<00:00:00.000>")), (21, 62, 0));
    assert_eq!(judged(&"a".repeat(4095)), (0, 0, 0));
    assert_eq!(judged(&"a".repeat(4096)), (9, 0, 0));
    assert_eq!(judged(&"<b>x</b>".repeat(511)), (0, 0, 0));
    assert_eq!(judged(&"<b>x</b>".repeat(512)), (9, 0, 0));
    assert_eq!(judged(&format!("{}<b>", "a".repeat(4092))), (21, 4095, 0));
    assert_eq!(judged(&format!("{}<b>", "a".repeat(4093))), (9, 0, 0));
}

#[test]
fn times_rise() {
    let times = [
        0,
        1,
        9,
        10,
        59,
        99,
        100,
        999,
        1000,
        9999,
        10_000,
        59_999,
        60_000,
        599_999,
        600_000,
        3_599_999,
        3_600_000,
        35_999_999,
        36_000_000,
        359_999_998,
        359_999_999,
    ];
    for first in times {
        for second in times {
            let text = [first, second].map(|time| format!("<{}>", make::shown_time(time)));
            let (number, place, _) = compare(text.concat().as_bytes());
            assert_eq!(number == 0, first < second, "{text:?}");
            assert!(number == 0 || (15..27).contains(&place), "{text:?}");
        }
    }
}

/// Bad and outside at every offset of a payload as long as it may be. `&a` could begin an escape.
#[test]
fn a_payload_is_refused_at_every_offset() {
    let mut text = vec![b'a'; 4095];
    for at in 0..text.len() {
        text[at] = 0xFF;
        assert_eq!(compare(&text), (6, 0, at));
        text[at] = b'&';
        assert_eq!(compare(&text), (21, (at + 2).min(4095), 0));
        text[at] = b'a';
    }
}

#[test]
fn any_bytes_are_answered_alike() {
    let mut random = Random::new(11);
    for _ in 0..20_000 {
        let len = random.pick(&[3, 20, 90, 4095, 4096, 5000]);
        let len = random.below(len + 1);
        let text = match random.below(3) {
            0 => random.bytes(len),
            1 => (0..len).map(|_| random.pick(&make::TELLING)).collect(),
            _ => (0..len).map(|_| random.pick(b"<>/b&;a. ")).collect(),
        };
        compare(&text);
    }
    for len in [1 << 16, 1 << 20] {
        assert_eq!(compare(&vec![b'<'; len]), (9, 0, 0));
    }
}

/// What the converter makes is in the profile.
#[test]
fn converted_payloads_are_inside() {
    let mut cues = 0;
    for seed in 0..2000 {
        let Tx3gTrack {
            scale,
            entry,
            track: make::Track { table, samples },
        } = make::tx3g_track(&mut Random::new(seed));
        let Ok(made) = tx3g::convert(scale, &entry, &table, &samples) else {
            continue;
        };
        for cue in made.list.iter() {
            assert_eq!(compare(cue.payload.as_bytes()), (0, 0, 0));
            cues += 1;
        }
    }
    assert!(cues > 2000, "{cues}");
}
