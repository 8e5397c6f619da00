//! Settings: texts and records, and such as are near to them.

use captions_model::settings::{
    settings_room, write_settings, Line, LineAlign, Position, PositionAlign, Settings, Vertical,
    ALIGNS, LINE_ALIGNS, POSITION_ALIGNS,
};
use captions_model::wvtt::MOST_IDENTIFIER;

use super::text::any_text;
use crate::random::Random;

const NAMES: [&str; 6] = ["vertical", "line", "position", "size", "align", "region"];
#[rustfmt::skip]
const OTHER_NAMES: [&str; 10] = [
    "Line", "lin", "lines", "foo", "", "\u{e9}", "size ", "region:", "position-align", "\u{c}line",
];
#[rustfmt::skip]
const OTHER_VALUES: [&str; 34] = [
    "", "auto", "-", "--1", "+1", "1.5", "-1%", ".5%", "5.%", "50.000%", "100.01%", "101%", "32768",
    "-32769", "65536%", "655.36%", "99999999999999999999", "1,", "5,left", "5%,left", "5%,start",
    "5%,start,end", "5%,auto", "5%,", "5%%", "5", "0x5", "none", "middle", "RL", "rl,", "\u{ff15}",
    "\u{c}", "5\u{c}",
];
#[rustfmt::skip]
const REGIONS: [&str; 9] = [
    "fred", "r1", "a:b", "a,b", "100%", "--", "->", "\u{e9}", "\u{65e5}\u{672c}",
];
const OTHER_REGIONS: [&[u8]; 12] = [
    b" ", b"a b", b"a\tb", b"\t", b"a\x0C", b"\x0C", b"\0", b"a\n", b"\r", b"-->", b"\xFF",
    b"a\xC3",
];
const BLANKS: [&str; 6] = [" ", " ", " ", "\t", "  ", " \t "];

/// Bytes that have a meaning in settings, and some that have none.
pub const TELLING_IN_SETTINGS: [u8; 22] = *b" \t\x0C:,.%-+0159aelnrsA\0\xC3";

/// Settings and the name of a region, empty for none.
#[derive(Clone, Debug, PartialEq, Eq)]
pub struct SettingsRecord {
    pub settings: Settings,
    pub region: Vec<u8>,
}

/// A percentage as it may be written, at most 100.
fn percent(random: &mut Random) -> String {
    let zeros = random.pick(&["", "", "", "0", "00"]);
    let whole = match random.below(4) {
        0 => random.pick(&[0, 1, 99, 100]),
        _ => random.below(101),
    };
    let most = if whole == 100 { 1 } else { 10 };
    let mut digit = || random.below(most);
    let (first, second) = (digit(), digit());
    let decimals = match random.below(3) {
        0 => String::new(),
        1 => format!(".{first}"),
        _ => format!(".{first}{second}"),
    };
    format!("{zeros}{whole}{decimals}%")
}

fn number(random: &mut Random) -> i16 {
    match random.below(3) {
        0 => random.pick(&[0, 1, -1, i16::MIN, i16::MAX, 9, 10, -10]),
        1 => random.below(40) as i16 - 20,
        _ => random.next() as i16,
    }
}

/// A value of a setting.
fn value(random: &mut Random, name: &str) -> String {
    let comma = random.percent(50);
    match name {
        "vertical" => random.pick(&["rl", "lr"]).to_string(),
        "line" => {
            let line = match random.below(6) {
                0 => format!("00{}", random.below(100)),
                1 => random
                    .pick(&["-0", "-00", "-032768", "0000032767"])
                    .to_string(),
                2 | 3 => number(random).to_string(),
                _ => percent(random),
            };
            let align = random.pick(&LINE_ALIGNS).0;
            if comma {
                format!("{line},{align}")
            } else {
                line
            }
        }
        "position" => {
            let position = percent(random);
            let align = random.pick(&POSITION_ALIGNS).0;
            if comma {
                format!("{position},{align}")
            } else {
                position
            }
        }
        "size" => percent(random),
        "align" => random.pick(&ALIGNS).0.to_string(),
        _ => random.pick(&REGIONS).to_string(),
    }
}

/// Settings in any order, so many in a hundred of their parts wrong.
fn made(random: &mut Random, wrong: usize) -> String {
    let mut names = NAMES;
    random.shuffle(&mut names);
    let mut text = random.pick(&["", "", "", " ", "\t "]).to_string();
    for at in 0..random.below(NAMES.len() + 1) {
        let name = match random.percent(wrong) {
            true if random.percent(50) => random.pick(&OTHER_NAMES),
            true => random.pick(&names[..=at]),
            false => names[at],
        };
        let value = match random.percent(wrong) {
            true => random.pick(&OTHER_VALUES).to_string(),
            false => value(random, name),
        };
        let colon = if random.percent(wrong) { "" } else { ":" };
        let blank = random.pick(&BLANKS);
        text += &format!("{name}{colon}{value}{blank}");
    }
    if random.percent(70) {
        text.truncate(text.trim_end_matches([' ', '\t']).len());
    }
    text
}

/// A settings text that is read.
pub fn good_settings_text(random: &mut Random) -> Vec<u8> {
    made(random, 0).into_bytes()
}

/// A settings text to be read: good, near to it, of the written form, as long as it may be, or any
/// text.
pub fn settings_text(random: &mut Random) -> Vec<u8> {
    let mut text = match random.below(20) {
        0..=5 => good_settings_text(random),
        6..=11 => {
            let wrong = random.pick(&[2, 5, 15]);
            made(random, wrong).into_bytes()
        }
        12..=15 => {
            let mut text = good_settings_text(random);
            damage_settings(random, &mut text);
            text
        }
        16 => long_text(random),
        17 | 18 => written(&settings_record(random)).unwrap_or_default(),
        _ => any_text(random),
    };
    if random.percent(8) {
        damage_settings(random, &mut text);
    }
    text
}

/// Changes, takes out or puts in a telling byte, or cuts.
fn damage_settings(random: &mut Random, text: &mut Vec<u8>) {
    let at = random.below(text.len() + 1);
    let byte = random.pick(&TELLING_IN_SETTINGS);
    match random.below(5) {
        0 if at < text.len() => drop(text.remove(at)),
        1 => text.insert(at, byte),
        2 => text.truncate(at),
        _ if at < text.len() => text[at] = byte,
        _ => text.push(byte),
    }
}

/// A text of a length near to the longest: blanks, digits or a region's name in it.
fn long_text(random: &mut Random) -> Vec<u8> {
    let length = MOST_IDENTIFIER + random.below(4) - 2;
    let (before, unit, after) = random.pick(&[
        ("region:", "x", ""),
        ("", " ", "line:1"),
        ("line:", "0", "5"),
        ("size:", "0", "100%"),
        ("align:left region:", "\u{e9}", ""),
        ("line:-", "9", ""),
        ("region:", "x", " x"),
        ("", "\t", ""),
    ]);
    let mut text = before.to_string();
    while text.len() + unit.len() + after.len() <= length {
        text += unit;
    }
    (text + after).into_bytes()
}

/// The text of a record.
fn written(record: &SettingsRecord) -> Option<Vec<u8>> {
    let SettingsRecord { settings, region } = record;
    let mut text = vec![0; settings_room(settings, region).ok()?];
    write_settings(settings, region, &mut text).ok()?;
    Some(text)
}

/// Hundredths, rarely above 100 %.
fn hundredths(random: &mut Random, wrong: usize) -> u16 {
    match random.below(3) {
        _ if random.percent(wrong) => random.pick(&[10_001, 10_010, 10_100, 20_000, u16::MAX]),
        0 => random.pick(&[
            0, 1, 9, 10, 90, 99, 100, 101, 110, 1000, 9900, 9990, 9999, 10_000,
        ]),
        1 => 100 * random.below(101) as u16,
        _ => random.below(10_001) as u16,
    }
}

/// A record to be written, sometimes one that no text gives.
pub fn settings_record(random: &mut Random) -> SettingsRecord {
    let wrong = random.pick(&[0, 0, 10]);
    let (line, line_align) = line(random, wrong);
    let (position, position_align) = position(random, wrong);
    let settings = Settings {
        vertical: random.pick(&[Vertical::None, Vertical::Rl, Vertical::Lr]),
        line,
        line_align,
        position,
        position_align,
        size: match random.below(2) {
            0 => 10_000,
            _ => hundredths(random, wrong),
        },
        align: random.pick(&ALIGNS).1,
    };
    let region = region(random, wrong);
    SettingsRecord { settings, region }
}

fn line(random: &mut Random, wrong: usize) -> (Line, LineAlign) {
    let align = random.pick(&LINE_ALIGNS).1;
    match random.below(3) {
        0 if random.percent(wrong) => (Line::Auto, align),
        0 => (Line::Auto, LineAlign::Start),
        1 => (Line::Number(number(random)), align),
        _ => (Line::Percent(hundredths(random, wrong)), align),
    }
}

fn position(random: &mut Random, wrong: usize) -> (Position, PositionAlign) {
    let align = match random.below(4) {
        0 => PositionAlign::Auto,
        _ => random.pick(&POSITION_ALIGNS).1,
    };
    match random.below(2) {
        0 if random.percent(wrong) => (Position::Auto, align),
        0 => (Position::Auto, PositionAlign::Auto),
        _ => (Position::Percent(hundredths(random, wrong)), align),
    }
}

fn region(random: &mut Random, wrong: usize) -> Vec<u8> {
    match random.below(20) {
        _ if random.percent(wrong) => random.pick(&OTHER_REGIONS).to_vec(),
        0..=7 => Vec::new(),
        8 => vec![b'x'; random.within(170, 256)],
        9 => vec![b'x'; random.within(247, 249)],
        _ => random.pick(&REGIONS).into(),
    }
}
