//! Settings: a text read into a record, and a record written in one form.
//!
//! ```text
//! settings = *blank [ setting *( 1*blank setting ) *blank ]
//! setting  = "vertical:" ( "rl" / "lr" )
//!          / "line:" ( number / percent ) [ "," ( "start" / "center" / "end" ) ]
//!          / "position:" percent [ "," ( "line-left" / "center" / "line-right" ) ]
//!          / "size:" percent
//!          / "align:" ( "start" / "center" / "end" / "left" / "right" )
//!          / "region:" 1*character
//! number   = [ "-" ] 1*DIGIT
//! percent  = 1*DIGIT [ "." 1*2DIGIT ] "%"
//! blank    = space / tab
//! ```
//!
//! A name stands once. A number fits 16 bits, a percentage is at most 100, and a character is any
//! but white space.

use crate::number::{BAD_SETTING, BAD_VALUE, NO_ROOM, PAST_LIMIT};
use crate::text::identifier_fault;
use crate::wvtt::MOST_IDENTIFIER;
use crate::{ensure, ensure_text, refuse, Refusal, Span};

#[derive(Clone, Copy, Debug, Default, PartialEq, Eq)]
pub enum Vertical {
    #[default]
    None,
    Rl,
    Lr,
}

#[derive(Clone, Copy, Debug, Default, PartialEq, Eq)]
pub enum Line {
    #[default]
    Auto,
    Number(i16),
    /// In hundredths.
    Percent(u16),
}

#[derive(Clone, Copy, Debug, Default, PartialEq, Eq)]
pub enum LineAlign {
    #[default]
    Start,
    Center,
    End,
}

#[derive(Clone, Copy, Debug, Default, PartialEq, Eq)]
pub enum Position {
    #[default]
    Auto,
    /// In hundredths.
    Percent(u16),
}

#[derive(Clone, Copy, Debug, Default, PartialEq, Eq)]
pub enum PositionAlign {
    #[default]
    Auto,
    LineLeft,
    Center,
    LineRight,
}

#[derive(Clone, Copy, Debug, Default, PartialEq, Eq)]
pub enum Align {
    Start,
    #[default]
    Center,
    End,
    Left,
    Right,
}

/// What settings say, the region aside. The default is what an empty text says.
#[derive(Clone, Copy, Debug, PartialEq, Eq)]
pub struct Settings {
    pub vertical: Vertical,
    pub line: Line,
    pub line_align: LineAlign,
    pub position: Position,
    pub position_align: PositionAlign,
    /// In hundredths.
    pub size: u16,
    pub align: Align,
}

impl Default for Settings {
    fn default() -> Self {
        Settings {
            vertical: Vertical::default(),
            line: Line::default(),
            line_align: LineAlign::default(),
            position: Position::default(),
            position_align: PositionAlign::default(),
            size: WHOLE,
            align: Align::default(),
        }
    }
}

/// 100 % in hundredths.
const WHOLE: u16 = 10_000;

/// The words that values are written with.
pub const VERTICALS: [(&str, Vertical); 2] = [("rl", Vertical::Rl), ("lr", Vertical::Lr)];
pub const LINE_ALIGNS: [(&str, LineAlign); 3] = [
    ("start", LineAlign::Start),
    ("center", LineAlign::Center),
    ("end", LineAlign::End),
];
pub const POSITION_ALIGNS: [(&str, PositionAlign); 3] = [
    ("line-left", PositionAlign::LineLeft),
    ("center", PositionAlign::Center),
    ("line-right", PositionAlign::LineRight),
];
pub const ALIGNS: [(&str, Align); 5] = [
    ("start", Align::Start),
    ("center", Align::Center),
    ("end", Align::End),
    ("left", Align::Left),
    ("right", Align::Right),
];

/// Reads a text: its length, its rule, then its settings one by one. The region's name is a part
/// of the text, empty where there is none.
pub fn read_settings(text: &[u8]) -> Result<(Settings, Span), Refusal> {
    ensure(text.len() <= MOST_IDENTIFIER, PAST_LIMIT, 0)?;
    ensure_text(identifier_fault(text), 0)?;
    let text = std::str::from_utf8(text).expect("the rule has UTF-8");
    let mut read = Read::default();
    let mut begin = 0;
    for setting in text.split([' ', '\t']) {
        if !setting.is_empty() && read.setting(begin, setting).is_none() {
            return refuse(BAD_SETTING, begin);
        }
        begin += setting.len() + 1;
    }
    Ok((read.settings, read.region))
}

/// What has been read.
#[derive(Default)]
struct Read<'a> {
    names: Vec<&'a str>,
    settings: Settings,
    region: Span,
}

impl<'a> Read<'a> {
    /// Takes the setting that begins at a byte, or gives none.
    fn setting(&mut self, begin: usize, setting: &'a str) -> Option<()> {
        let (name, value) = setting.split_once(':')?;
        if self.names.contains(&name) {
            return None;
        }
        self.names.push(name);
        let settings = &mut self.settings;
        match name {
            "vertical" => settings.vertical = of_word(value, &VERTICALS)?,
            "line" => {
                let (line, align) = with_align(value, &LINE_ALIGNS)?;
                settings.line = number(line)
                    .map(Line::Number)
                    .or_else(|| percent(line).map(Line::Percent))?;
                settings.line_align = align;
            }
            "position" => {
                let (position, align) = with_align(value, &POSITION_ALIGNS)?;
                settings.position = Position::Percent(percent(position)?);
                settings.position_align = align;
            }
            "size" => settings.size = percent(value)?,
            "align" => settings.align = of_word(value, &ALIGNS)?,
            "region" => self.region = region(begin + setting.len(), value)?,
            _ => return None,
        }
        Some(())
    }
}

/// What a word means.
fn of_word<T: Copy>(word: &str, words: &[(&str, T)]) -> Option<T> {
    let known = words.iter().find(|(known, _)| *known == word);
    known.map(|&(_, value)| value)
}

/// A value, and its alignment behind a comma or the default.
fn with_align<'a, T: Copy + Default>(value: &'a str, words: &[(&str, T)]) -> Option<(&'a str, T)> {
    match value.split_once(',') {
        None => Some((value, T::default())),
        Some((value, align)) => Some((value, of_word(align, words)?)),
    }
}

fn number(value: &str) -> Option<i16> {
    let digits = value.strip_prefix('-').unwrap_or(value);
    is_digits(digits).then(|| value.parse().ok())?
}

fn percent(value: &str) -> Option<u16> {
    let value = value.strip_suffix('%')?;
    // A dot has digits behind it.
    let (whole, decimals) = value.split_once('.').unwrap_or((value, "0"));
    if !is_digits(whole) || !is_digits(decimals) || decimals.len() > 2 {
        return None;
    }
    let whole: u16 = whole.parse().ok()?;
    let decimals: u16 = format!("{decimals:0<2}").parse().ok()?;
    let hundredths = whole.checked_mul(100)?.checked_add(decimals)?;
    (hundredths <= WHOLE).then_some(hundredths)
}

fn is_digits(text: &str) -> bool {
    !text.is_empty() && text.bytes().all(|byte| byte.is_ascii_digit())
}

/// Where a name stands that ends at a byte. Of white space only a form feed can be in it.
fn region(end: usize, name: &str) -> Option<Span> {
    let start = end - name.len();
    let good = !name.is_empty() && !name.contains('\x0C');
    good.then_some(Span { start, end })
}

/// The length of a record's text.
pub fn settings_room(settings: &Settings, region: &[u8]) -> Result<usize, Refusal> {
    Ok(form(settings, region)?.len())
}

/// Writes a record at the front of `text` and gives its length.
pub fn write_settings(
    settings: &Settings,
    region: &[u8],
    text: &mut [u8],
) -> Result<usize, Refusal> {
    let form = form(settings, region)?;
    let out = text.get_mut(..form.len());
    out.ok_or(Refusal::new(NO_ROOM, 0))?.copy_from_slice(&form);
    Ok(form.len())
}

/// The one form of a record, if reading it gives the record.
fn form(settings: &Settings, region: &[u8]) -> Result<Vec<u8>, Refusal> {
    let mut form = words(settings).join(" ").into_bytes();
    if !region.is_empty() {
        let space: &[u8] = if form.is_empty() { b"" } else { b" " };
        form.extend([space, b"region:", region].concat());
    }
    match read_settings(&form) {
        Ok((read, name)) if read == *settings && name.of(&form) == region => Ok(form),
        _ => refuse(BAD_VALUE, 0),
    }
}

/// The settings that are not the default, the region aside.
fn words(settings: &Settings) -> Vec<String> {
    let default = Settings::default();
    let line = match settings.line {
        Line::Auto => None,
        Line::Number(number) => Some(number.to_string()),
        Line::Percent(hundredths) => Some(shown(hundredths)),
    };
    let position = match settings.position {
        Position::Auto => None,
        Position::Percent(hundredths) => Some(shown(hundredths)),
    };
    let comma = |align: Option<&str>| align.map_or(String::new(), |align| format!(",{align}"));
    let line_align = comma(word(settings.line_align, &LINE_ALIGNS));
    let position_align = comma(word(settings.position_align, &POSITION_ALIGNS));
    let size = (settings.size != default.size).then(|| shown(settings.size));
    let words = [
        word(settings.vertical, &VERTICALS).map(|word| format!("vertical:{word}")),
        line.map(|line| format!("line:{line}{line_align}")),
        position.map(|position| format!("position:{position}{position_align}")),
        size.map(|size| format!("size:{size}")),
        word(settings.align, &ALIGNS).map(|word| format!("align:{word}")),
    ];
    words.into_iter().flatten().collect()
}

/// The word of a value, none for the default.
fn word<T: Copy + Default + PartialEq>(
    value: T,
    words: &[(&'static str, T)],
) -> Option<&'static str> {
    let found = words.iter().find(|(_, known)| *known == value);
    found.map(|row| row.0).filter(|_| value != T::default())
}

/// A percentage, as short as it can be.
fn shown(hundredths: u16) -> String {
    let decimals = format!(".{:02}", hundredths % 100);
    let decimals = decimals.trim_end_matches('0').trim_end_matches('.');
    format!("{}{decimals}%", hundredths / 100)
}
