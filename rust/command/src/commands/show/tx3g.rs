//! `tx3g` entries and samples, as lines and as JSON.

use captions::tx3g::{text_box, Colour, Entry, Sample, Style, Text, TextBox};
use captions::{Fault, Who};

use super::json::Json;
use super::lines::quoted;
use super::modifiers::Described;
use crate::failure::Failure;
use crate::shown::count;
use crate::words;

/// The display flags with a name of their own.
const FLAGS: [(u32, &str); 6] = [
    (0x20, "scroll in"),
    (0x40, "scroll out"),
    (0x180, "scroll direction"),
    (0x800, "continuous karaoke"),
    (0x2_0000, "vertical text"),
    (0x4_0000, "fill the region"),
];

/// How the scroll direction stands among the display flags.
const DIRECTION: (u32, u32) = (0x180, 7);

/// The face flags with a name.
const FACES: [(u8, &str); 3] = [(1, "bold"), (2, "italic"), (4, "underlined")];

/// The lines of an entry.
pub fn entry_lines(entry: &Entry) -> String {
    let [horizontal, vertical] = justification(entry);
    let fonts = entry.fonts();
    let fonts: String = fonts
        .map(|font| format!("font {} {}\n", font.id, quoted(font.name)))
        .collect();
    format!(
        "tx3g entry, data reference index {}\n\
         display flags {:#010X}{}\n\
         justification {horizontal}, {vertical}\n\
         background {}\n\
         text box {}\n\
         default style {}\n\
         {fonts}",
        entry.data_reference_index,
        entry.display_flags,
        flag_words(entry.display_flags),
        hex(entry.background),
        box_words(entry.text_box),
        style_words(entry, &entry.style),
    )
}

/// The object of an entry.
pub fn entry_object<'a>(entry: &Entry<'a>) -> Json<'a> {
    let [horizontal, vertical] = justification(entry);
    let fonts = entry.fonts().map(|font| {
        Json::Object(vec![
            ("id", u32::from(font.id).into()),
            ("name", Json::lossy(font.name)),
        ])
    });
    Json::Object(vec![
        ("kind", "tx3g".into()),
        (
            "data_reference_index",
            u32::from(entry.data_reference_index).into(),
        ),
        ("display_flags", entry.display_flags.into()),
        ("horizontal_justification", horizontal.into()),
        ("vertical_justification", vertical.into()),
        ("background", hex(entry.background).into()),
        ("text_box", Json::Object(box_fields(entry.text_box))),
        ("default_style", style_object(entry, &entry.style)),
        ("fonts", Json::array(fonts)),
    ])
}

/// A sample beside its entry.
pub struct SampleBeside<'a> {
    entry: Entry<'a>,
    sample: Sample<'a>,
    /// The text box in force, and whether it is the entry's or the sample's.
    text_box: TextBox,
    box_of: Who,
}

impl<'a> SampleBeside<'a> {
    /// Judges both and reads them.
    pub fn read(entry: &'a [u8], sample: &'a [u8]) -> Result<Self, Failure> {
        Self::judged(entry, sample).map_err(|fault| words::tx3g_sample(entry, sample, &fault))
    }

    fn judged(entry: &'a [u8], sample: &'a [u8]) -> Result<Self, Fault> {
        let found = text_box(entry, sample)?;
        let refused = |refusal| Fault {
            who: Who::Entry,
            refusal,
        };
        Ok(SampleBeside {
            entry: Entry::read(entry).map_err(refused)?,
            sample: Sample::read(entry, sample)?,
            text_box: found.sides,
            box_of: found.who,
        })
    }

    /// The lines: text, text box, runs, modifiers, and that retired blinking is present.
    pub fn lines(&self) -> String {
        let runs = self.runs().map(|(from, end, style, text)| {
            let style = style_words(&self.entry, &style);
            format!("{from} to {end} {style} {}\n", quoted(text.as_bytes()))
        });
        let modifiers = self.sample.modifiers().filter_map(Described::of);
        format!(
            "text {}, {}, {}\ntext box {}, of the {}\n{}{}{}",
            quoted(self.sample.text().to_string().as_bytes()),
            count(self.sample.characters(), "character"),
            self.encoding(),
            box_words(self.text_box),
            self.box_of,
            runs.collect::<String>(),
            modifiers
                .map(|modifier| modifier.line())
                .collect::<String>(),
            words::retired_blinking(&self.sample),
        )
    }

    /// The object.
    pub fn object(&self) -> Json<'a> {
        let runs = self.runs().map(|(from, end, style, text)| {
            Json::Object(vec![
                ("start", from.into()),
                ("end", end.into()),
                ("style", style_object(&self.entry, &style)),
                ("text", text.into()),
            ])
        });
        let modifiers = self.sample.modifiers().filter_map(Described::of);
        Json::Object(vec![
            ("bytes", self.sample.bytes().len().into()),
            ("encoding", self.encoding().into()),
            ("text", self.sample.text().to_string().into()),
            ("characters", self.sample.characters().into()),
            ("text_box", Json::Object(box_fields(self.text_box))),
            ("text_box_of", self.box_of.to_string().into()),
            ("runs", Json::array(runs)),
            ("modifiers", Json::array(modifiers.map(Described::object))),
            ("retired_blinking", self.sample.retired_blinking().into()),
        ])
    }

    /// The runs, which lie end to end: characters from and to before, style and text.
    fn runs(&self) -> impl Iterator<Item = (usize, usize, Style, String)> + 'a {
        let mut letters = self.sample.text().chars();
        self.sample.runs().map(move |run| {
            let text = letters.by_ref().take(run.range.len()).collect();
            (run.range.start, run.range.end, run.style, text)
        })
    }

    fn encoding(&self) -> &'static str {
        match self.sample.text() {
            Text::Utf8(_) => "UTF-8",
            Text::Utf16(_) => "UTF-16",
        }
    }
}

/// Where lines stand, horizontally and vertically.
fn justification(entry: &Entry) -> [&'static str; 2] {
    let side = |number, sides: [&'static str; 3]| match number {
        0 => sides[0],
        1 => sides[1],
        _ => sides[2],
    };
    [
        side(entry.horizontal, ["left", "centre", "right"]),
        side(entry.vertical, ["top", "centre", "bottom"]),
    ]
}

/// The display flags that have a name, each behind a comma.
fn flag_words(flags: u32) -> String {
    let (direction, shift) = DIRECTION;
    let set = FLAGS.iter().filter(|(mask, _)| flags & mask != 0);
    let words = set.map(|&(mask, name)| match mask == direction {
        true => format!(", {name} {}", (flags & mask) >> shift),
        false => format!(", {name}"),
    });
    words.collect()
}

/// A style: face, font, size and colour.
fn style_words(entry: &Entry, style: &Style) -> String {
    format!(
        "{}, font {} {}, size {}, {}",
        face_words(style.face),
        style.font,
        quoted(font_name(entry, style)),
        style.size,
        hex(style.colour)
    )
}

/// The flags of a face; `plain` without any, and those without a name as a number.
fn face_words(face: u8) -> String {
    let set = FACES.iter().filter(|(flag, _)| face & flag != 0);
    let mut words: Vec<String> = set.map(|(_, name)| name.to_string()).collect();
    let others = FACES.iter().fold(face, |left, (flag, _)| left & !flag);
    if others != 0 {
        words.push(format!("{others:#04X}"));
    }
    match words.is_empty() {
        true => "plain".into(),
        false => words.join(" "),
    }
}

fn style_object<'a>(entry: &Entry<'a>, style: &Style) -> Json<'a> {
    Json::Object(vec![
        ("bold", style.bold().into()),
        ("italic", style.italic().into()),
        ("underlined", style.underlined().into()),
        ("face", u32::from(style.face).into()),
        ("font", u32::from(style.font).into()),
        ("font_name", Json::lossy(font_name(entry, style))),
        ("size", u32::from(style.size).into()),
        ("colour", hex(style.colour).into()),
    ])
}

/// The name of a style's font, which an entry without fault has.
fn font_name<'a>(entry: &Entry<'a>, style: &Style) -> &'a [u8] {
    let font = entry.fonts().find(|font| font.id == style.font);
    font.map_or(b"", |font| font.name)
}

/// A colour as `#RRGGBBAA`.
pub fn hex(colour: Colour) -> String {
    let Colour {
        red,
        green,
        blue,
        alpha,
    } = colour;
    format!("#{red:02X}{green:02X}{blue:02X}{alpha:02X}")
}

/// The sides of a text box in words.
pub fn box_words(sides: TextBox) -> String {
    let TextBox {
        top,
        left,
        bottom,
        right,
    } = sides;
    format!("top {top}, left {left}, bottom {bottom}, right {right}")
}

/// The sides of a text box by name.
pub fn box_fields<'a>(sides: TextBox) -> Vec<(&'static str, Json<'a>)> {
    vec![
        ("top", Json::Number(sides.top.into())),
        ("left", Json::Number(sides.left.into())),
        ("bottom", Json::Number(sides.bottom.into())),
        ("right", Json::Number(sides.right.into())),
    ]
}
