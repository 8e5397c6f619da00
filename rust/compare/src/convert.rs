//! The proved library's answers as the harness has them.

use std::ops::Range;

use captions::tx3g;
use captions_harness::{Converted, Cue, Dropped, DroppedBoxes, Entry, Fault, Fields, Font, Look};
use captions_harness::{Modifier, Refusal, Run, RunAt, Span, TextBoxAt, Tx3gSample, Who};

pub fn refusal(refusal: captions::Refusal) -> Refusal {
    Refusal {
        number: refusal.reason.number(),
        place: refusal.place,
        offset: refusal.offset,
    }
}

fn who(who: captions::Who) -> Who {
    match who {
        captions::Who::Entry => Who::Entry,
        captions::Who::Sample => Who::Sample,
        captions::Who::List => Who::List,
        captions::Who::Track => Who::Track,
        captions::Who::Configuration => Who::Configuration,
        captions::Who::Output => Who::Output,
        other => panic!("{other} is new"),
    }
}

pub fn fault(fault: captions::Fault) -> Fault {
    Fault {
        who: who(fault.who),
        refusal: refusal(fault.refusal),
    }
}

/// Where a part stands in the bytes it was cut from.
pub fn span(whole: &[u8], part: &[u8]) -> Span {
    let start = part.as_ptr() as usize - whole.as_ptr() as usize;
    let end = start + part.len();
    Span { start, end }
}

fn range(range: Range<usize>) -> Span {
    Span {
        start: range.start,
        end: range.end,
    }
}

pub fn dropped(dropped: captions::Dropped) -> Dropped {
    Dropped {
        samples: dropped.samples,
        table_bytes: dropped.table_bytes,
        sample_bytes: dropped.sample_bytes,
    }
}

pub fn converted(sizes: tx3g::ConvertedSizes) -> Converted {
    let left_out = sizes.dropped;
    Converted {
        cues: sizes.cues,
        record_bytes: sizes.record_bytes,
        pool_bytes: sizes.pool_bytes,
        t: sizes.t,
        dropped: DroppedBoxes {
            hlit: left_out.hlit,
            retired_blinking: left_out.retired_blinking,
            hclr: left_out.hclr,
            krok: left_out.krok,
            dlay: left_out.dlay,
            href: left_out.href,
            tbox: left_out.tbox,
            twrp: left_out.twrp,
        },
    }
}

pub fn cue(sample: &[u8], cue: captions::wvtt::Cue) -> Cue {
    let text = |text: &str| span(sample, text.as_bytes());
    Cue {
        id: cue.id,
        identifier: text(cue.identifier),
        settings: text(cue.settings),
        payload: text(cue.payload),
    }
}

pub fn cue_at(cue: captions::wvtt::CueAt) -> (Cue, usize) {
    let found = Cue {
        id: cue.id,
        identifier: range(cue.identifier),
        settings: range(cue.settings),
        payload: range(cue.payload),
    };
    (found, cue.next)
}

pub fn wvtt_entry(bytes: &[u8], entry: captions::wvtt::Entry) -> Entry {
    let text = |text: &str| span(bytes, text.as_bytes());
    Entry {
        data_reference_index: entry.data_reference_index,
        configuration: text(entry.configuration),
        label: entry.label.map(text),
    }
}

fn colour(colour: tx3g::Colour) -> [u8; 4] {
    [colour.red, colour.green, colour.blue, colour.alpha]
}

fn sides(sides: tx3g::TextBox) -> [i16; 4] {
    [sides.top, sides.left, sides.bottom, sides.right]
}

/// A style's bytes without its range.
fn look(style: tx3g::Style) -> Look {
    let [high, low] = style.font.to_be_bytes();
    let [red, green, blue, alpha] = colour(style.colour);
    [high, low, style.face, style.size, red, green, blue, alpha]
}

/// A style as its record.
pub fn style(record: tx3g::StyleRecord) -> [u8; 12] {
    let mut bytes = [0; 12];
    bytes[0..2].copy_from_slice(&record.start.to_be_bytes());
    bytes[2..4].copy_from_slice(&record.end.to_be_bytes());
    bytes[4..].copy_from_slice(&look(record.style));
    bytes
}

/// An entry's fields. The first font stands three bytes before its name.
pub fn fields(entry: &tx3g::Entry) -> Fields {
    let first = entry.fonts().next().expect("the default font is there");
    Fields {
        data_reference_index: entry.data_reference_index,
        display_flags: entry.display_flags,
        justification: [entry.horizontal, entry.vertical],
        background: colour(entry.background),
        text_box: sides(entry.text_box),
        style: style(tx3g::StyleRecord {
            start: 0,
            end: 0,
            style: entry.style,
        }),
        fonts: entry.fonts().len(),
        fonts_from: span(entry.bytes(), first.name).start - 3,
    }
}

pub fn font(entry: &[u8], font: tx3g::Font) -> Font {
    Font {
        id: font.id,
        name: span(entry, font.name),
    }
}

pub fn font_at(font: tx3g::FontAt) -> Font {
    Font {
        id: font.id,
        name: range(font.name),
    }
}

/// A sample as the static library reads it.
pub fn tx3g_sample(read: captions::ffi::CaptionsTx3gSample) -> Tx3gSample {
    Tx3gSample {
        characters: read.characters,
        utf16: read.utf16,
        text: range(read.text_from..read.text_end),
        modifiers: read.modifiers,
        styles: read.styles,
        styles_from: read.styles_from,
        retired_blinking: read.retired_blinking,
    }
}

/// Where the text of a sample stands.
pub fn text(sample: &tx3g::Sample) -> (bool, Span) {
    match sample.text() {
        tx3g::Text::Utf8(text) => (false, span(sample.bytes(), text.as_bytes())),
        tx3g::Text::Utf16(text) => (true, span(sample.bytes(), text)),
    }
}

pub fn run(run: tx3g::Run) -> Run {
    Run {
        from: run.range.start,
        end: run.range.end,
        look: look(run.style),
    }
}

pub fn run_at(run: tx3g::RunAt) -> RunAt {
    RunAt {
        range: range(run.range),
        look: run.style.map(look),
        styles: run.styles,
        styles_from: run.styles_from,
    }
}

pub fn text_box(entry: &[u8], sample: &[u8], found: tx3g::TextBoxAt) -> TextBoxAt {
    let who = who(found.who);
    let whole = if who == Who::Entry { entry } else { sample };
    let bytes = &whole[found.from..found.from + 8];
    TextBoxAt {
        who,
        offset: found.from,
        bytes: bytes.try_into().expect("eight bytes"),
        sides: sides(found.sides),
    }
}

/// A modifier as the static library finds it.
pub fn modifier(m: &captions::ffi::CaptionsModifier) -> Modifier {
    let (start, end) = (m.first as u16, m.second as u16);
    let records = |count: u32, size: usize| range(m.from..m.from + count as usize * size);
    match &m.kind.to_be_bytes() {
        b"styl" => Modifier::Styl {
            styles: records(m.first, 12),
        },
        b"hlit" => Modifier::Hlit { start, end },
        b"hclr" => Modifier::Hclr {
            rgba: [m.first, m.second, m.third, m.fourth].map(|part| part as u8),
        },
        b"krok" => Modifier::Krok {
            start_time: m.first,
            entries: records(m.second, 8),
        },
        b"dlay" => Modifier::Dlay { delay: m.first },
        b"href" => Modifier::Href {
            start,
            end,
            url: range(m.from..m.end),
            alternative: range(m.alternative_from..m.alternative_end),
        },
        b"tbox" => Modifier::Tbox {
            sides: records(1, 8),
        },
        b"twrp" => Modifier::Twrp {
            wrap: m.first as u8,
        },
        other => panic!("{other:?} is no modifier"),
    }
}

/// A decoded modifier as the bytes of its box's body.
pub fn body(m: tx3g::Modifier) -> Vec<u8> {
    use tx3g::Modifier as Found;
    let two = |start: u16, end: u16| [start.to_be_bytes(), end.to_be_bytes()].concat();
    match m {
        Found::Styles(styles) => {
            let count = (styles.len() as u16).to_be_bytes();
            [count.to_vec(), styles.flat_map(style).collect()].concat()
        }
        Found::Highlight { start, end } => two(start, end),
        Found::Colour(parts) => colour(parts).to_vec(),
        Found::Karaoke {
            start_time,
            entries,
        } => {
            let (time, count) = (start_time.to_be_bytes(), entries.len() as u16);
            let entries = entries
                .flat_map(|e| [&e.end_time.to_be_bytes()[..], &two(e.start, e.end)].concat());
            [
                &time[..],
                &count.to_be_bytes(),
                &entries.collect::<Vec<u8>>(),
            ]
            .concat()
        }
        Found::Delay(time) => time.to_be_bytes().to_vec(),
        Found::Link {
            start,
            end,
            url,
            alternative,
        } => {
            let counted = |text: &[u8]| [&[text.len() as u8], text].concat();
            [two(start, end), counted(url), counted(alternative)].concat()
        }
        Found::TextBox(found) => sides(found).iter().flat_map(|s| s.to_be_bytes()).collect(),
        Found::Wrap(wrap) => vec![u8::from(wrap)],
        other => panic!("{other:?} is new"),
    }
}
