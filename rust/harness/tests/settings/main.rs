//! Random settings show what there is, wrong readers and writers are found, and what is written is
//! read as the same, and is the shortest.

mod other;

use captions_harness::generate::{
    every_edit, good_settings_text, settings_record, settings_text, SettingsRecord,
    TELLING_IN_SETTINGS,
};
use captions_harness::random::Random;
use captions_harness::{differential, Library, Model, Refusal};
use captions_model::settings::*;

use other::{Flaw, Other, READING, WRITING};

const ROUNDS: u64 = 72_000;

/// Without a flaw the second reader and writer are the model's equals.
#[test]
fn two_libraries_agree() {
    let counts =
        differential(&Model, &Other(Flaw::Nothing), 3, ROUNDS).unwrap_or_else(|d| panic!("{d}"));
    let numbers: [(&str, &[u32]); 4] = [
        ("read_settings", &[0, 6, 9, 20]),
        ("settings_room", &[0, 8]),
        ("write_settings", &[0, 8, 15]),
        ("read_written_settings", &[0]),
    ];
    for (operation, numbers) in numbers {
        for &number in numbers {
            let times = counts.compared[&(operation, number)];
            assert!(times > 100, "{operation} {number}: {counts}");
        }
    }
}

#[test]
fn wrong_libraries_are_found() {
    for &flaw in READING.iter().chain(WRITING) {
        let found = differential(&Model, &Other(flaw), 7, ROUNDS);
        let found = found.err().unwrap_or_else(|| panic!("{flaw:?} passed"));
        assert!(found.operation.contains("settings"));
    }
}

/// Short texts that show what there is, or do with one byte more, and then so many random ones.
fn short_texts(count: usize) -> impl Iterator<Item = Vec<u8>> {
    let by_hand = [
        "line:-32768,end",
        "line:32767",
        "line:100.00%,center",
        "position:99.99%,line-left",
        "size:100% align:left",
        "region:a:b\tvertical:rl",
        " line:-0 size:0.5%",
        "size:5% siz:6%",
        "line:uto",
        "position:5%,tart",
    ];
    let texts = (0..).map(|seed| good_settings_text(&mut Random::new(seed)));
    let short = texts.filter(|text| (8..48).contains(&text.len()));
    let by_hand = by_hand.into_iter().map(|text| text.as_bytes().to_vec());
    by_hand.chain(short.take(count))
}

fn every_damage(text: &[u8]) -> impl Iterator<Item = Vec<u8>> + '_ {
    every_edit(text, TELLING_IN_SETTINGS)
}

#[test]
fn two_readers_agree_on_every_damage() {
    let (mut read, mut refused) = (0, 0);
    for text in short_texts(150) {
        for damaged in every_damage(&text) {
            let answer = read_settings(&damaged);
            let other = Other(Flaw::Nothing).read_settings(&damaged);
            assert_eq!(other, Some(answer), "{}", damaged.escape_ascii());
            match answer {
                Ok(_) => read += 1,
                Err(_) => refused += 1,
            }
        }
    }
    assert!(read > 10_000 && refused > 100_000, "{read} {refused}");
}

/// Every flaw but that of long texts shows in a short text that is damaged in one byte.
#[test]
fn wrong_readers_are_found_by_damages() {
    let texts: Vec<Vec<u8>> = short_texts(150).collect();
    for &flaw in READING.iter().filter(|&&flaw| flaw != Flaw::LimitLast) {
        let differs = |text: &Vec<u8>| Other(flaw).read_settings(text) != Model.read_settings(text);
        let found = texts
            .iter()
            .any(|text| every_damage(text).any(|damaged| differs(&damaged)));
        assert!(found, "{flaw:?} passed");
    }
}

fn written(record: &SettingsRecord) -> Result<Vec<u8>, Refusal> {
    let SettingsRecord { settings, region } = record;
    let mut text = vec![0; settings_room(settings, region)?];
    let size = write_settings(settings, region, &mut text)?;
    assert_eq!(size, text.len());
    Ok(text)
}

fn read(text: &[u8]) -> Result<SettingsRecord, Refusal> {
    let (settings, region) = read_settings(text)?;
    let region = region.of(text).to_vec();
    Ok(SettingsRecord { settings, region })
}

/// A record comes back from its text.
fn assert_comes_back(record: &SettingsRecord) {
    let text = written(record).unwrap_or_else(|why| panic!("{why:?} {record:?}"));
    assert_eq!(read(&text).as_ref(), Ok(record));
}

/// What is written is read as the same.
#[test]
fn a_record_comes_back() {
    let (mut back, mut refused) = (0, 0);
    for seed in 0..40_000 {
        let record = settings_record(&mut Random::new(seed));
        match written(&record) {
            Ok(_) => {
                assert_comes_back(&record);
                back += 1;
            }
            Err(why) => {
                assert_eq!(why, Refusal::new(8, 0));
                refused += 1;
            }
        }
    }
    assert!(back > 20_000 && refused > 2000, "{back} {refused}");
}

/// Every line number and every percentage, in every place.
#[test]
fn every_value_comes_back() {
    let record = |settings| SettingsRecord {
        settings,
        region: Vec::new(),
    };
    let none = Settings::default();
    for number in i16::MIN..=i16::MAX {
        let line = Line::Number(number);
        assert_comes_back(&record(Settings { line, ..none }));
    }
    for size in 0..=u16::MAX {
        let (line, position) = (Line::Percent(size), Position::Percent(size));
        for settings in [
            Settings { size, ..none },
            Settings { line, ..none },
            Settings { position, ..none },
        ] {
            match size {
                0..=10_000 => assert_comes_back(&record(settings)),
                _ => assert_eq!(written(&record(settings)), Err(Refusal::new(8, 0))),
            }
        }
    }
}

/// What was read is written as a text that reads the same and is not longer; so a record has one
/// form, and no text of it is shorter.
#[test]
fn a_text_is_written_shorter() {
    let (mut same, mut shorter) = (0, 0);
    for seed in 0..60_000 {
        let text = settings_text(&mut Random::new(seed));
        let Ok(record) = read(&text) else {
            continue;
        };
        let form = written(&record).expect("a text gives it");
        assert_eq!(read(&form), Ok(record));
        assert!(form.len() <= text.len(), "{}", text.escape_ascii());
        match form == text {
            true => same += 1,
            false => shorter += 1,
        }
    }
    assert!(same > 4000 && shorter > 10_000, "{same} {shorter}");
}

/// What random texts are to show, and whether one shows it.
type Kind = (&'static str, fn(&str) -> bool);

fn is_read(text: &str) -> bool {
    read_settings(text.as_bytes()).is_ok()
}

/// Whether the first bad setting begins so.
fn fails_at(text: &str, setting: &str) -> bool {
    let refused = read_settings(text.as_bytes()).err();
    let refused = refused.filter(|refused| refused.number == 20);
    refused.is_some_and(|refused| text[refused.place..].starts_with(setting))
}

const SHOWN: [Kind; 18] = [
    ("all six", |t| is_read(t) && t.matches(':').count() >= 6),
    ("nothing but blanks", |t| {
        !t.is_empty() && t.trim_matches([' ', '\t']).is_empty()
    }),
    ("the lowest line", |t| {
        is_read(t) && t.contains("line:-32768")
    }),
    ("the highest line", |t| {
        is_read(t) && t.contains("line:32767")
    }),
    ("a lower line", |t| fails_at(t, "line:-32769")),
    ("a higher line", |t| fails_at(t, "line:32768")),
    ("minus 0", |t| is_read(t) && t.contains("line:-0,end")),
    ("leading zeros", |t| is_read(t) && t.contains("size:00")),
    ("all of it", |t| is_read(t) && t.contains("size:100.00%")),
    ("more than all", |t| fails_at(t, "size:100.01%")),
    ("three decimals", |t| fails_at(t, "position:50.000%")),
    ("auto", |t| fails_at(t, "line:auto")),
    ("a plus sign", |t| fails_at(t, "line:+1")),
    ("a form feed", |t| fails_at(t, "region:\u{c}")),
    ("a colon in a name", |t| {
        is_read(t) && t.contains("region:a:b")
    }),
    ("a name twice", |t| {
        t.matches("align:left").count() == 2 && fails_at(t, "align:left")
    }),
    ("a text of 255 bytes", |t| t.len() == 255 && is_read(t)),
    ("a text of 256 bytes", |t| t.len() == 256),
];

#[test]
fn texts_show_what_there_is() {
    let texts = (0..60_000).map(|seed| settings_text(&mut Random::new(seed)));
    let texts: Vec<String> = texts
        .filter_map(|text| String::from_utf8(text).ok())
        .collect();
    for (name, shows) in SHOWN {
        assert!(texts.iter().any(|text| shows(text)), "no text with {name}");
    }
}

#[test]
fn good_texts_are_read() {
    for seed in 0..20_000 {
        let text = good_settings_text(&mut Random::new(seed));
        assert!(read_settings(&text).is_ok(), "{}", text.escape_ascii());
    }
}
