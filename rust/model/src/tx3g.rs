//! 3GPP text: sample entries, samples, styles and text boxes.

mod convert;
mod modifiers;

pub use convert::{convert, convert_room, Converted, DroppedBoxes};
pub use modifiers::{modifiers, next_modifier, Modifier};

use modifiers::read_modifier;

use crate::boxes::{be16, be32, boxes_from};
use crate::number::*;
use crate::wvtt::judge_entry_head;
use crate::{ensure, fault, refuse, text, Fault, Refusal, Span, Who};

/// The bytes of an entry before its boxes.
pub const ENTRY_FIXED: usize = 46;
/// Where an entry's default text box stands.
pub const ENTRY_TEXT_BOX: usize = 26;
/// Where an entry's default style stands.
pub const ENTRY_STYLE: usize = 34;
/// The bytes of a text box.
pub const TEXT_BOX: usize = 8;
/// The bytes of a style.
pub const STYLE: usize = 12;
/// The bytes of a karaoke entry.
pub const KARAOKE: usize = 8;
/// The most fonts in an entry.
pub const MOST_FONTS: usize = 256;

/// The font IDs of an entry in rising order.
pub struct Fonts {
    ids: [u16; MOST_FONTS],
    count: usize,
    /// Where the first font stands.
    from: usize,
}

impl Fonts {
    pub fn ids(&self) -> &[u16] {
        &self.ids[..self.count]
    }

    pub fn contains(&self, id: u16) -> bool {
        self.ids().binary_search(&id).is_ok()
    }
}

/// A good `tx3g` entry.
pub struct Entry<'a> {
    fixed: &'a [u8; ENTRY_FIXED],
    pub fonts: Fonts,
}

/// What an entry says.
#[derive(Clone, Copy, Debug, PartialEq, Eq)]
pub struct Fields {
    pub data_reference_index: u16,
    pub display_flags: u32,
    /// Horizontal and vertical.
    pub justification: [i8; 2],
    /// Red, green, blue and alpha.
    pub background: [u8; 4],
    /// The default text box: top, left, bottom, right.
    pub text_box: [i16; 4],
    /// The default style.
    pub style: [u8; STYLE],
    /// How many fonts there are, and where the first stands.
    pub fonts: usize,
    pub fonts_from: usize,
}

impl Entry<'_> {
    pub fn fields(&self) -> Fields {
        let fixed = self.fixed;
        Fields {
            data_reference_index: be16(fixed, 14),
            display_flags: be32(fixed, 16),
            justification: [fixed[20] as i8, fixed[21] as i8],
            background: array(&fixed[22..]),
            text_box: sides(&fixed[ENTRY_TEXT_BOX..]),
            style: self.style(),
            fonts: self.fonts.count,
            fonts_from: self.fonts.from,
        }
    }

    /// The default style.
    pub fn style(&self) -> [u8; STYLE] {
        array(&self.fixed[ENTRY_STYLE..])
    }
}

/// Judges a `tx3g` entry.
pub fn judge_entry(entry: &[u8]) -> Result<(), Refusal> {
    read_entry(entry).map(drop)
}

/// Reads a `tx3g` entry.
pub fn read_entry(entry: &[u8]) -> Result<Entry<'_>, Refusal> {
    judge_entry_head(entry, b"tx3g", ENTRY_FIXED)?;
    let Some(fixed) = entry.first_chunk::<ENTRY_FIXED>() else {
        return refuse(BYTES_MISSING, 0);
    };
    judge_fixed(fixed)?;
    let mut fonts = None;
    for found in boxes_from(entry, ENTRY_FIXED) {
        let found = found?;
        if &found.kind == b"ftab" {
            ensure(fonts.is_none(), KIND_TWICE, found.place)?;
            let read = read_fonts(found.body.of(entry), found.body.start);
            fonts = Some(read.or_else(|number| refuse(number, found.place))?);
        }
    }
    let Some(fonts) = fonts else {
        return refuse(BOX_MISSING, 0);
    };
    let default_font = be16(fixed, ENTRY_STYLE + 4);
    ensure(fonts.contains(default_font), BAD_VALUE, 0)?;
    Ok(Entry { fixed, fonts })
}

fn judge_fixed(fixed: &[u8; ENTRY_FIXED]) -> Result<(), Refusal> {
    let justified = |b: u8| matches!(b as i8, -1..=1);
    ensure(justified(fixed[20]) && justified(fixed[21]), BAD_VALUE, 0)?;
    let good_box = is_text_box(&fixed[ENTRY_TEXT_BOX..ENTRY_STYLE]);
    ensure(good_box && be32(fixed, ENTRY_STYLE) == 0, BAD_RANGE, 0)
}

/// Reads an `ftab` body that begins at `at`, or gives the number it is refused by.
fn read_fonts(body: &[u8], at: usize) -> Result<Fonts, u32> {
    let (&count, mut rest) = body.split_first_chunk::<2>().ok_or(BYTES_MISSING)?;
    let count = usize::from(u16::from_be_bytes(count));
    let mut ids = [0; MOST_FONTS];
    for index in 0..count {
        let (&[high, low, name], after) = rest.split_first_chunk().ok_or(BYTES_MISSING)?;
        rest = after.get(usize::from(name)..).ok_or(BYTES_MISSING)?;
        if let Some(id) = ids.get_mut(index) {
            *id = u16::from_be_bytes([high, low]);
        }
    }
    if !rest.is_empty() {
        return Err(BAD_SIZE);
    }
    if count > MOST_FONTS {
        return Err(PAST_LIMIT);
    }
    ids[..count].sort_unstable();
    if ids[..count].windows(2).any(|pair| pair[0] == pair[1]) {
        return Err(BAD_VALUE);
    }
    let from = at + 2;
    Ok(Fonts { ids, count, from })
}

/// A font and where its name stands.
#[derive(Clone, Copy, Debug, PartialEq, Eq)]
pub struct Font {
    pub id: u16,
    pub name: Span,
}

/// The font at a byte of any bytes, if it is whole.
pub fn font_at(bytes: &[u8], at: usize) -> Option<Font> {
    let &[high, low, name] = bytes.get(at..)?.first_chunk()?;
    let name = Span {
        start: at + 3,
        end: at + 3 + usize::from(name),
    };
    let id = u16::from_be_bytes([high, low]);
    (name.end <= bytes.len()).then_some(Font { id, name })
}

/// The fonts of an entry in order.
pub fn fonts(entry: &[u8]) -> Result<Vec<Font>, Refusal> {
    let read = read_entry(entry)?;
    let mut at = read.fonts.from;
    let next = |_| {
        let font = font_at(entry, at)?;
        at = font.name.end;
        Some(font)
    };
    Ok((0..read.fonts.count).map_while(next).collect())
}

/// Where the boxes of a sample with a whole text begin.
fn boxes_begin(sample: &[u8]) -> usize {
    2 + usize::from(be16(sample, 0))
}

/// What a good sample holds.
#[derive(Clone, Copy, Debug, PartialEq, Eq)]
pub struct Sample {
    pub characters: usize,
    pub utf16: bool,
    /// The text without the mark of UTF-16.
    pub text: Span,
    /// Where the modifier boxes begin.
    pub modifiers: usize,
    /// The style records, if there is a `styl`.
    pub styles: Option<Span>,
    pub text_box: Option<Span>,
    /// Whether there is a `blnk`.
    pub retired_blinking: bool,
}

impl Sample {
    /// How many styles there are, and where the first stands; 0 and 0 without `styl`.
    pub fn style_table(&self) -> (usize, usize) {
        let styles = self.styles.unwrap_or_default();
        (styles.len() / STYLE, styles.start)
    }

    /// The style records of the sample that it was read from.
    pub(crate) fn style_records<'a>(&self, sample: &'a [u8]) -> &'a [[u8; STYLE]] {
        let styles = self.styles.unwrap_or_default();
        styles.of(sample).as_chunks().0
    }
}

/// The kinds that stand at most once.
const SINGLE_KINDS: [&[u8; 4]; 6] = [b"styl", b"hclr", b"krok", b"dlay", b"tbox", b"twrp"];

/// Judges a sample beside the fonts of its entry, and reads it.
pub fn read_content(fonts: &Fonts, sample: &[u8]) -> Result<Sample, Refusal> {
    let mut read = read_text(sample)?;
    let mut seen = 0u8;
    for found in boxes_from(sample, read.modifiers) {
        let found = found?;
        if let Some(kind) = SINGLE_KINDS.iter().position(|&k| *k == found.kind) {
            ensure(seen & (1 << kind) == 0, KIND_TWICE, found.place)?;
            seen |= 1 << kind;
        }
        let refused = |number| Refusal::new(number, found.place);
        let Some(modifier) = read_modifier(sample, found).map_err(refused)? else {
            continue;
        };
        judge_modifier(fonts, read.characters, sample, &modifier).map_err(refused)?;
        match modifier {
            Modifier::Styl { styles } => read.styles = Some(styles),
            Modifier::Tbox { sides } => read.text_box = Some(sides),
            Modifier::Blnk { .. } => read.retired_blinking = true,
            _ => {}
        }
    }
    Ok(read)
}

/// Judges the text and counts its characters.
fn read_text(sample: &[u8]) -> Result<Sample, Refusal> {
    ensure(sample.len() >= 2, BYTES_MISSING, 0)?;
    let modifiers = boxes_begin(sample);
    let Some(text) = sample.get(2..modifiers) else {
        return refuse(BYTES_MISSING, 0);
    };
    let characters = text::characters(text);
    let utf16 = text.starts_with(b"\xFE\xFF");
    Ok(Sample {
        characters: characters.map_err(|offset| Refusal::bad_text(0, offset))?,
        utf16,
        text: Span {
            start: if utf16 { 4 } else { 2 },
            end: modifiers,
        },
        modifiers,
        styles: None,
        text_box: None,
        retired_blinking: false,
    })
}

fn judge_modifier(
    fonts: &Fonts,
    characters: usize,
    sample: &[u8],
    modifier: &Modifier,
) -> Result<(), u32> {
    match *modifier {
        Modifier::Styl { styles } => judge_styles(fonts, characters, styles.of(sample)),
        Modifier::Krok {
            start_time,
            entries,
        } => judge_karaoke(characters, start_time, entries.of(sample)),
        Modifier::Hlit { start, end }
        | Modifier::Blnk { start, end }
        | Modifier::Href { start, end, .. } => {
            number_unless(is_range(start, end, characters), BAD_RANGE)
        }
        Modifier::Tbox { sides } => number_unless(is_text_box(sides.of(sample)), BAD_RANGE),
        Modifier::Twrp { wrap } => number_unless(wrap <= 1, BAD_VALUE),
        Modifier::Hclr { .. } | Modifier::Dlay { .. } => Ok(()),
    }
}

fn number_unless(good: bool, number: u32) -> Result<(), u32> {
    if good {
        Ok(())
    } else {
        Err(number)
    }
}

fn judge_styles(fonts: &Fonts, characters: usize, styles: &[u8]) -> Result<(), u32> {
    let mut previous_end = 0;
    for style in styles.as_chunks::<STYLE>().0 {
        let (start, end) = style_range(style);
        number_unless(fonts.contains(be16(style, 4)), BAD_VALUE)?;
        let good = start >= previous_end && is_range(start, end, characters);
        number_unless(good, BAD_RANGE)?;
        previous_end = end;
    }
    Ok(())
}

fn judge_karaoke(characters: usize, start_time: u32, entries: &[u8]) -> Result<(), u32> {
    let mut previous = start_time;
    for entry in entries.as_chunks::<KARAOKE>().0 {
        let time = be32(entry, 0);
        let good = time >= previous && is_range(be16(entry, 4), be16(entry, 6), characters);
        number_unless(good, BAD_RANGE)?;
        previous = time;
    }
    Ok(())
}

fn is_range(start: u16, end: u16, characters: usize) -> bool {
    start <= end && usize::from(end) <= characters
}

pub(crate) fn style_range(style: &[u8; STYLE]) -> (u16, u16) {
    (be16(style, 0), be16(style, 2))
}

fn is_text_box(bytes: &[u8]) -> bool {
    let [top, left, bottom, right] = sides(bytes);
    top <= bottom && left <= right
}

/// Top, left, bottom, right.
fn sides(bytes: &[u8]) -> [i16; 4] {
    [0, 2, 4, 6].map(|at| be16(bytes, at) as i16)
}

/// The first `N` of enough bytes.
fn array<const N: usize>(bytes: &[u8]) -> [u8; N] {
    let mut out = [0; N];
    out.copy_from_slice(&bytes[..N]);
    out
}

/// Judges the entry, then the sample.
pub(crate) fn read_both<'a>(entry: &'a [u8], sample: &[u8]) -> Result<(Entry<'a>, Sample), Fault> {
    let entry = read_entry(entry).map_err(fault(Who::Entry))?;
    let sample = read_content(&entry.fonts, sample).map_err(fault(Who::Sample))?;
    Ok((entry, sample))
}

/// Judges entry and sample, and reads the sample.
pub fn read_sample(entry: &[u8], sample: &[u8]) -> Result<Sample, Fault> {
    read_both(entry, sample).map(|(_, read)| read)
}

/// The twelve bytes of the style of character `k`.
pub fn style(entry: &[u8], sample: &[u8], k: usize) -> Result<[u8; STYLE], Fault> {
    let (entry, read) = read_both(entry, sample)?;
    ensure(k < read.characters, BAD_RANGE, 0).map_err(fault(Who::Sample))?;
    let styles = read.style_records(sample);
    // The ends never fall, so the first end past k is the only candidate.
    let at = styles.partition_point(|s| usize::from(style_range(s).1) <= k);
    let found = styles
        .get(at)
        .filter(|s| usize::from(style_range(s).0) <= k);
    Ok(found.copied().unwrap_or_else(|| entry.style()))
}

/// The eight bytes of a text box, where they stand, and its sides.
#[derive(Clone, Copy, Debug, PartialEq, Eq)]
pub struct TextBox<'a> {
    pub who: Who,
    pub offset: usize,
    pub bytes: &'a [u8],
    /// Top, left, bottom, right.
    pub sides: [i16; 4],
}

/// The text box in force.
pub fn text_box<'a>(entry: &'a [u8], sample: &'a [u8]) -> Result<TextBox<'a>, Fault> {
    let (_, read) = read_both(entry, sample)?;
    let (who, whole, offset) = match read.text_box {
        Some(sides) => (Who::Sample, sample, sides.start),
        None => (Who::Entry, entry, ENTRY_TEXT_BOX),
    };
    let bytes = &whole[offset..offset + TEXT_BOX];
    Ok(TextBox {
        who,
        offset,
        bytes,
        sides: sides(bytes),
    })
}
