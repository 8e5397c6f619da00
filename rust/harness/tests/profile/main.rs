//! Random payloads show what there is in the tag profile, wrong judges are found, and a place is
//! the first byte after which no continuation is in the profile.

mod other;

use captions_harness::generate::{
    continuations, every_damage, profile_text, short_tagged_texts, tagged_text,
};
use captions_harness::random::Random;
use captions_harness::{differential, Library, Model};
use captions_model::profile::{judge_profile, profile_fault};

use other::{Flaw, Other};

const ROUNDS: u64 = 72_000;

/// Without a flaw the second judge is the model's equal.
#[test]
fn two_judges_agree() {
    let counts =
        differential(&Model, &Other(Flaw::Nothing), 3, ROUNDS).unwrap_or_else(|d| panic!("{d}"));
    for number in [0, 6, 9, 21] {
        let times = counts.compared[&("judge_profile", number)];
        assert!(times > 100, "{counts}");
    }
}

#[test]
fn wrong_judges_are_found() {
    for flaw in Flaw::ALL {
        let found = differential(&Model, &Other(flaw), 7, ROUNDS);
        let found = found.err().unwrap_or_else(|| panic!("{flaw:?} passed"));
        assert_eq!(found.operation, "judge_profile");
    }
}

#[test]
fn two_judges_agree_on_every_damage() {
    let (mut inside, mut outside) = (0, 0);
    for text in short_tagged_texts(150) {
        for damaged in every_damage(&text) {
            let judged = judge_profile(&damaged);
            let other = Other(Flaw::Nothing).judge_profile(&damaged);
            assert_eq!(other, Some(judged), "{}", damaged.escape_ascii());
            match judged {
                Ok(()) => inside += 1,
                Err(_) => outside += 1,
            }
        }
    }
    assert!(inside > 10_000 && outside > 100_000, "{inside} {outside}");
}

/// Every flaw but those of long texts shows in a short text that is damaged in one byte.
#[test]
fn wrong_judges_are_found_by_damages() {
    let long = [Flaw::SeventeenLevels, Flaw::FifteenLevels, Flaw::LimitLast];
    let texts: Vec<Vec<u8>> = short_tagged_texts(60).collect();
    for flaw in Flaw::ALL.into_iter().filter(|flaw| !long.contains(flaw)) {
        let differs = |text: &Vec<u8>| Other(flaw).judge_profile(text) != Model.judge_profile(text);
        let found = texts
            .iter()
            .any(|text| every_damage(text).any(|damaged| differs(&damaged)));
        assert!(found, "{flaw:?} passed");
    }
}

fn is_inside(text: &[u8]) -> bool {
    profile_fault(text).is_none()
}

/// Whether one of many continuations is in the profile.
fn can_go_on(text: &[u8]) -> bool {
    continuations(text).any(|whole| is_inside(&whole))
}

/// The place by yes and no alone: the first byte with which a text can no longer go on, or its
/// length.
fn place(text: &[u8]) -> Option<usize> {
    let stops = (0..text.len()).find(|&at| !can_go_on(&text[..=at]));
    stops.or_else(|| (!is_inside(text)).then_some(text.len()))
}

/// With every damage of a text in the profile.
#[test]
fn a_place_is_where_no_text_goes_on() {
    let mut places = [0; 2];
    for text in short_tagged_texts(16) {
        assert_eq!(place(&text), None, "{}", text.escape_ascii());
        for damaged in every_damage(&text) {
            let found = profile_fault(&damaged);
            let shown = damaged.escape_ascii();
            match found {
                None => assert!(is_inside(&damaged)),
                Some(at) if at == damaged.len() => {
                    assert!(can_go_on(&damaged), "{shown}");
                    places[0] += 1;
                }
                Some(at) => {
                    assert!(can_go_on(&damaged[..at]), "{at} {shown}");
                    assert!(!can_go_on(&damaged[..=at]), "{at} {shown}");
                    places[1] += 1;
                }
            }
        }
    }
    assert!(places.iter().all(|&seen| seen > 500), "{places:?}");
}

/// All texts of up to five of some parts.
#[test]
fn a_place_is_where_no_text_goes_on_in_short_texts() {
    let parts = [
        "<", "b", ">", "/", "&", "lt", ";", " ", "v", "ruby", "rt", ".", "0",
    ];
    let mut texts = vec![String::new()];
    let mut begin = 0;
    for _ in 0..4 {
        let end = texts.len();
        for index in begin..end {
            let longer = parts.map(|part| format!("{}{part}", texts[index]));
            texts.extend(longer);
        }
        begin = end;
    }
    for text in texts {
        assert_eq!(
            profile_fault(text.as_bytes()),
            place(text.as_bytes()),
            "{text}"
        );
    }
}

/// What random texts are to show, and whether one shows it.
type Kind = (&'static str, fn(&str) -> bool);

/// How many tags are open at the most.
fn depth(text: &str) -> usize {
    let (mut open, mut most) = (0usize, 0);
    for part in text.split('<').skip(1) {
        match part.as_bytes().first() {
            Some(b'/') => open = open.saturating_sub(1),
            Some(b'a'..=b'z') => open += 1,
            _ => {}
        }
        most = most.max(open);
    }
    most
}

const SHOWN: [Kind; 22] = [
    ("16 levels", |t| depth(t) == 16 && is_inside(t.as_bytes())),
    ("17 levels", |t| depth(t) == 17 && fails_at(t, "<")),
    ("ruby with rt", |t| t.contains("<ruby><rt>")),
    ("ruby without rt", |t| t.contains("<ruby></ruby>")),
    ("rt elsewhere", |t| t.contains("<b><rt>")),
    ("a class", |t| t.contains("<c.yellow>")),
    ("three classes", |t| {
        t.contains("<ruby.") && t.contains(".a.b.")
    }),
    ("an escape in an annotation", |t| t.contains("<v &amp;")),
    ("an angle in an annotation", |t| t.contains("<lang <>")),
    ("a tab before an annotation", |t| t.contains("<v\t")),
    ("no annotation", |t| t.contains("<v>") && fails_at(t, "<v")),
    ("a blank annotation", |t| t.contains("<v >")),
    ("another escape", |t| fails_at(t, "&")),
    ("each escape", |t| {
        ["&amp;", "&lt;", "&gt;"].iter().all(|e| t.contains(e))
            && ["&nbsp;", "&lrm;", "&rlm;"].iter().any(|e| t.contains(e))
    }),
    ("eight times that rise", |t| {
        t.matches("<0").count() == 8 && is_inside(t.as_bytes())
    }),
    ("the highest time", |t| t.contains("<99:59:59.999>")),
    ("a time after the highest", |t| {
        fails_at(t, "<99:59:59.999><")
    }),
    ("a time that does not rise", |t| fails_at(t, "<00:00:00.00")),
    ("a line end", |t| {
        t.contains('\n') && is_inside(t.as_bytes())
    }),
    ("other characters", |t| {
        t.contains('\u{1f600}') && t.contains("<b>")
    }),
    ("a text of 4,095 bytes", |t| {
        t.len() == 4095 && is_inside(t.as_bytes())
    }),
    ("a text of 4,096 bytes", |t| t.len() == 4096),
];

/// Whether it is outside directly behind such a part.
fn fails_at(text: &str, part: &str) -> bool {
    let place = profile_fault(text.as_bytes());
    place.is_some_and(|at| text.as_bytes()[..at].ends_with(part.as_bytes()))
}

#[test]
fn texts_show_what_there_is() {
    let texts = (0..30_000).map(|seed| profile_text(&mut Random::new(seed)));
    let texts: Vec<String> = texts
        .filter_map(|text| String::from_utf8(text).ok())
        .collect();
    for (name, shows) in SHOWN {
        assert!(texts.iter().any(|text| shows(text)), "no text with {name}");
    }
}

#[test]
fn tagged_texts_are_inside() {
    for seed in 0..20_000 {
        let text = tagged_text(&mut Random::new(seed));
        assert_eq!(judge_profile(&text), Ok(()), "{}", text.escape_ascii());
    }
}
