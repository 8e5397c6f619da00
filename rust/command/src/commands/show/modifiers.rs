//! Modifiers of a `tx3g` sample.

use captions::tx3g::{KaraokeEntry, Modifier, Records};

use super::json::Json;
use super::lines::quoted;
use super::tx3g::{box_fields, box_words, hex};

/// A modifier in words and in JSON. The characters of a range stand in the runs, and not here.
pub struct Described<'a> {
    /// The type of its box.
    kind: &'static str,
    words: String,
    fields: Vec<(&'static str, Json<'a>)>,
}

impl<'a> Described<'a> {
    /// Describes a modifier; none for styles, which the runs show.
    pub fn of(modifier: Modifier<'a>) -> Option<Self> {
        Some(match modifier {
            Modifier::Highlight { start, end } => ranged("hlit", "highlighted", start, end),
            Modifier::Colour(colour) => single("hclr", "highlight colour ", "colour", hex(colour)),
            Modifier::Karaoke {
                start_time,
                entries,
            } => karaoke(start_time, entries),
            Modifier::Delay(ticks) => Described {
                kind: "dlay",
                words: format!("scrolling delayed by {ticks} ticks"),
                fields: vec![("delay", ticks.into())],
            },
            Modifier::Link {
                start,
                end,
                url,
                alternative,
            } => link(ranged("href", "link", start, end), url, alternative),
            Modifier::TextBox(sides) => Described {
                kind: "tbox",
                words: box_words(sides),
                fields: box_fields(sides),
            },
            Modifier::Wrap(wrap) => wrapped(wrap),
            _ => return None,
        })
    }

    /// Its line.
    pub fn line(&self) -> String {
        format!("{}: {}\n", self.kind, self.words)
    }

    /// Its object.
    pub fn object(self) -> Json<'a> {
        let kind = [("kind", self.kind.into())];
        Json::Object(kind.into_iter().chain(self.fields).collect())
    }
}

/// A modifier of some characters.
fn ranged<'a>(kind: &'static str, what: &str, start: u16, end: u16) -> Described<'a> {
    Described {
        kind,
        words: format!("{what} {start} to {end}"),
        fields: range_fields(start, end),
    }
}

fn range_fields<'a>(start: u16, end: u16) -> Vec<(&'static str, Json<'a>)> {
    vec![
        ("start", u32::from(start).into()),
        ("end", u32::from(end).into()),
    ]
}

/// A modifier of one text.
fn single<'a>(kind: &'static str, what: &str, name: &'static str, text: String) -> Described<'a> {
    Described {
        kind,
        words: format!("{what}{text}"),
        fields: vec![(name, text.into())],
    }
}

fn wrapped<'a>(wrap: bool) -> Described<'a> {
    let not = if wrap { "" } else { "not " };
    Described {
        kind: "twrp",
        words: format!("lines are {not}wrapped"),
        fields: vec![("wrap", wrap.into())],
    }
}

fn link<'a>(range: Described<'a>, url: &'a [u8], alternative: &'a [u8]) -> Described<'a> {
    let words = format!(
        "{}, URL {}, alternative text {}",
        range.words,
        quoted(url),
        quoted(alternative)
    );
    let mut fields = range.fields;
    fields.push(("url", Json::lossy(url)));
    fields.push(("alternative", Json::lossy(alternative)));
    Described {
        kind: range.kind,
        words,
        fields,
    }
}

fn karaoke<'a>(start_time: u32, entries: Records<'_, KaraokeEntry>) -> Described<'a> {
    let until =
        |entry: KaraokeEntry| format!("{} to {} until {}", entry.start, entry.end, entry.end_time);
    let parts: Vec<String> = entries.clone().map(until).collect();
    let object = |entry: KaraokeEntry| {
        let mut fields = range_fields(entry.start, entry.end);
        fields.push(("end_time", entry.end_time.into()));
        Json::Object(fields)
    };
    let words = format!("karaoke from tick {start_time}: {}", parts.join(", "));
    Described {
        kind: "krok",
        words: words.trim_end_matches(": ").into(),
        fields: vec![
            ("start_time", start_time.into()),
            ("entries", Json::array(entries.map(object))),
        ],
    }
}
