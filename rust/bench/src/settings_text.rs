//! A reader and a writer of settings written for speed. Names and words are compared in one step,
//! eight bytes to a word. A text of good settings needs no other look: only a region's name can hold
//! what the rule of a line forbids. They allocate nothing.

use captions_model::number::{BAD_SETTING, BAD_VALUE, NO_ROOM, PAST_LIMIT};
use captions_model::settings::{
    Align, Line, LineAlign, Position, PositionAlign, Settings, Vertical,
};
use captions_model::text::identifier_fault;
use captions_model::wvtt::MOST_IDENTIFIER;
use captions_model::{Refusal, Span};

/// 100 % in hundredths.
const WHOLE: u32 = 10_000;

/// A word of at most eight bytes: mask, bytes and length.
struct Word(u64, u64, usize);

const fn word(bytes: &[u8]) -> Word {
    let (mut mask, mut word, mut at) = (0, 0, 0);
    while at < bytes.len() {
        mask |= 0xFF << (8 * at);
        word |= (bytes[at] as u64) << (8 * at);
        at += 1;
    }
    Word(mask, word, bytes.len())
}

impl Word {
    /// Whether the bytes begin with it.
    #[inline]
    fn begins(&self, bytes: u64) -> bool {
        bytes & self.0 == self.1
    }
}

const LINE: Word = word(b"line:");
const SIZE: Word = word(b"size:");
const ALIGN: Word = word(b"align:");
const REGION: Word = word(b"region:");
const VERTICAL: Word = word(b"vertical");
const POSITION: Word = word(b"position");
const START: Word = word(b"start");
const CENTER: Word = word(b"center");
const END: Word = word(b"end");
const LEFT: Word = word(b"left");
const RIGHT: Word = word(b"right");
const LINE_SIDE: Word = word(b"line-");
const RL: Word = word(b"rl");
const LR: Word = word(b"lr");

/// Reads a text.
pub fn read(text: &[u8]) -> Result<(Settings, Span), Refusal> {
    if text.len() > MOST_IDENTIFIER {
        return Err(Refusal::new(PAST_LIMIT, 0));
    }
    let mut reader = Reader {
        text,
        seen: 0,
        settings: Settings::default(),
        region: Span::default(),
    };
    let mut at = skip_blanks(text, 0);
    while at < text.len() {
        match reader.setting(at) {
            Some(end) => at = skip_blanks(text, end),
            None => return refused(text, at),
        }
    }
    Ok((reader.settings, reader.region))
}

/// The rule of a line comes before the settings.
#[cold]
fn refused(text: &[u8], at: usize) -> Result<(Settings, Span), Refusal> {
    match identifier_fault(text) {
        Some(offset) => Err(Refusal::bad_text(0, offset)),
        None => Err(Refusal::new(BAD_SETTING, at)),
    }
}

/// The next eight bytes, with zeros behind the last.
#[inline]
fn bytes_at(text: &[u8], at: usize) -> u64 {
    match text.get(at..).and_then(<[u8]>::first_chunk) {
        Some(bytes) => u64::from_le_bytes(*bytes),
        None => last_bytes(text, at),
    }
}

#[inline]
fn last_bytes(text: &[u8], at: usize) -> u64 {
    let left = text.len().saturating_sub(at);
    let Some(rest) = text.get(at..).filter(|rest| !rest.is_empty()) else {
        return 0;
    };
    if let Some(last) = text.last_chunk() {
        return u64::from_le_bytes(*last) >> (8 * (8 - left));
    }
    if let (Some(first), Some(last)) = (rest.first_chunk(), rest.last_chunk()) {
        let [first, last] = [first, last].map(|four| u64::from(u32::from_le_bytes(*four)));
        return first | last << (8 * (left - 4));
    }
    let all = rest.iter().rev();
    all.fold(0, |word, &byte| word << 8 | u64::from(byte))
}

#[inline]
fn is_blank(byte: u8) -> bool {
    matches!(byte, b' ' | b'\t')
}

const WIDE: usize = 32;
const ONES: u64 = 0x0101_0101_0101_0101;
const HIGH: u64 = ONES << 7;

/// The highest bit of each byte that is zero.
#[inline]
fn zeros(word: u64) -> u64 {
    !(((word & !HIGH) + !HIGH) | word | !HIGH)
}

#[inline]
fn skip_blanks(text: &[u8], at: usize) -> usize {
    let blank = |at: usize| text.get(at).is_some_and(|&byte| is_blank(byte));
    if !blank(at) {
        return at;
    }
    if !blank(at + 1) {
        return at + 1;
    }
    skip_many(text, at + 2)
}

fn skip_many(text: &[u8], mut at: usize) -> usize {
    let all = |chunk: &[u8; WIDE]| chunk.iter().fold(true, |all, &byte| all & is_blank(byte));
    while text[at..].first_chunk().is_some_and(all) {
        at += WIDE;
    }
    loop {
        let bytes = bytes_at(text, at);
        let blanks = zeros(bytes ^ (ONES * 0x20)) | zeros(bytes ^ (ONES * 0x09));
        match blanks ^ HIGH {
            0 => at += 8,
            other => return at + other.trailing_zeros() as usize / 8,
        }
    }
}

struct Reader<'a> {
    text: &'a [u8],
    /// A bit for each name.
    seen: u8,
    settings: Settings,
    region: Span,
}

impl Reader<'_> {
    /// Reads a setting and gives where it ends.
    #[inline]
    fn setting(&mut self, at: usize) -> Option<usize> {
        let bytes = bytes_at(self.text, at);
        let end = match bytes as u8 {
            b'l' if LINE.begins(bytes) => self.once(1).line(at + LINE.2),
            b's' if SIZE.begins(bytes) => self.once(2).size(at + SIZE.2),
            b'a' if ALIGN.begins(bytes) => self.once(4).align(at + ALIGN.2),
            b'p' if POSITION.begins(bytes) => self.once(8).position(at + POSITION.2),
            b'v' if VERTICAL.begins(bytes) => self.once(16).vertical(at + VERTICAL.2),
            b'r' if REGION.begins(bytes) => return self.once(32).region(at + REGION.2),
            _ => None,
        };
        end.filter(|&end| self.text.get(end).is_none_or(|&byte| is_blank(byte)) && self.seen < 64)
    }

    /// Notes a name; beyond all bits, one that was there.
    #[inline]
    fn once(&mut self, name: u8) -> &mut Self {
        self.seen |= name | u8::from(self.seen & name != 0) << 6;
        self
    }

    #[inline]
    fn get(&self, at: usize) -> u8 {
        // No setting holds a zero byte.
        self.text.get(at).copied().unwrap_or(0)
    }

    #[inline]
    fn vertical(&mut self, at: usize) -> Option<usize> {
        let bytes = bytes_at(self.text, at + 1);
        self.settings.vertical = match self.get(at) {
            b':' if RL.begins(bytes) => Vertical::Rl,
            b':' if LR.begins(bytes) => Vertical::Lr,
            _ => return None,
        };
        Some(at + 3)
    }

    #[inline]
    fn line(&mut self, at: usize) -> Option<usize> {
        let minus = self.get(at) == b'-';
        let begin = at + usize::from(minus);
        let (number, end) = self.digits(begin)?;
        let end = match self.get(end) {
            b'%' | b'.' if !minus => {
                let (hundredths, end) = self.percent(number, end)?;
                self.settings.line = Line::Percent(hundredths);
                end
            }
            _ => {
                let number = number as i32;
                let number = if minus { -number } else { number };
                self.settings.line = Line::Number(number.try_into().ok()?);
                end
            }
        };
        if self.get(end) != b',' {
            return Some(end);
        }
        let bytes = bytes_at(self.text, end + 1);
        let (align, length) = match bytes as u8 {
            b's' if START.begins(bytes) => (LineAlign::Start, START.2),
            b'c' if CENTER.begins(bytes) => (LineAlign::Center, CENTER.2),
            b'e' if END.begins(bytes) => (LineAlign::End, END.2),
            _ => return None,
        };
        self.settings.line_align = align;
        Some(end + 1 + length)
    }

    #[inline]
    fn position(&mut self, at: usize) -> Option<usize> {
        if self.get(at) != b':' {
            return None;
        }
        let (number, end) = self.digits(at + 1)?;
        let (hundredths, end) = self.percent(number, end)?;
        self.settings.position = Position::Percent(hundredths);
        if self.get(end) != b',' {
            return Some(end);
        }
        let bytes = bytes_at(self.text, end + 1);
        let side = bytes_at(self.text, end + 1 + LINE_SIDE.2);
        let (align, length) = match bytes as u8 {
            b'c' if CENTER.begins(bytes) => (PositionAlign::Center, CENTER.2),
            b'l' if !LINE_SIDE.begins(bytes) => return None,
            b'l' if LEFT.begins(side) => (PositionAlign::LineLeft, LINE_SIDE.2 + LEFT.2),
            b'l' if RIGHT.begins(side) => (PositionAlign::LineRight, LINE_SIDE.2 + RIGHT.2),
            _ => return None,
        };
        self.settings.position_align = align;
        Some(end + 1 + length)
    }

    #[inline]
    fn size(&mut self, at: usize) -> Option<usize> {
        let (number, end) = self.digits(at)?;
        let (hundredths, end) = self.percent(number, end)?;
        self.settings.size = hundredths;
        Some(end)
    }

    #[inline]
    fn align(&mut self, at: usize) -> Option<usize> {
        let bytes = bytes_at(self.text, at);
        let (align, length) = match bytes as u8 {
            b's' if START.begins(bytes) => (Align::Start, START.2),
            b'c' if CENTER.begins(bytes) => (Align::Center, CENTER.2),
            b'e' if END.begins(bytes) => (Align::End, END.2),
            b'l' if LEFT.begins(bytes) => (Align::Left, LEFT.2),
            b'r' if RIGHT.begins(bytes) => (Align::Right, RIGHT.2),
            _ => return None,
        };
        self.settings.align = align;
        Some(at + length)
    }

    /// A name ends at a blank, which needs no look behind it.
    #[inline]
    fn region(&mut self, at: usize) -> Option<usize> {
        let rest = &self.text[at..];
        let length = plain(rest);
        let length = match rest.get(length) {
            None | Some(b' ' | b'\t') => length,
            Some(_) => odd_name(rest)?,
        };
        self.region = Span {
            start: at,
            end: at + length,
        };
        (length > 0 && self.seen < 64).then_some(at + length)
    }

    /// One or more digits; of numbers past all ranges one is like the other.
    #[inline]
    fn digits(&self, at: usize) -> Option<(u32, usize)> {
        let (mut number, mut end) = (0u32, at);
        while let digit @ 0..=9 = self.get(end).wrapping_sub(b'0') {
            number = (number * 10 + u32::from(digit)).min(10 * WHOLE);
            end += 1;
        }
        (end > at).then_some((number, end))
    }

    /// What stands behind the whole part of a percentage.
    #[inline]
    fn percent(&self, whole: u32, at: usize) -> Option<(u16, usize)> {
        let digit = |at: usize| u32::from(self.get(at).wrapping_sub(b'0'));
        let (hundredths, end) = match self.get(at) {
            b'%' => (whole * 100, at),
            b'.' => match (digit(at + 1), digit(at + 2)) {
                (tenths @ 0..=9, parts @ 0..=9) => (whole * 100 + tenths * 10 + parts, at + 3),
                (tenths @ 0..=9, _) => (whole * 100 + tenths * 10, at + 2),
                _ => return None,
            },
            _ => return None,
        };
        let good = hundredths <= WHOLE && self.get(end) == b'%';
        good.then_some((hundredths as u16, end + 1))
    }
}

/// How many bytes in front are ASCII and neither blank, control nor `>`.
#[inline]
fn plain(text: &[u8]) -> usize {
    let is_plain = |byte: u8| (byte.wrapping_sub(0x21) < 0x5F) & (byte != b'>');
    let all = |chunk: &[u8; WIDE]| chunk.iter().fold(true, |all, &byte| all & is_plain(byte));
    let mut at = 0;
    while text[at..].first_chunk().is_some_and(all) {
        at += WIDE;
    }
    // Of what is left and some bytes before it the last ones can be looked at together.
    if text.len() - at < WIDE && text.last_chunk().is_some_and(all) {
        return text.len();
    }
    loop {
        let bytes = bytes_at(text, at);
        let low = bytes.wrapping_sub(ONES * 0x21) | bytes;
        match (low & HIGH) | zeros(bytes ^ (ONES * u64::from(b'>'))) {
            0 => at += 8,
            other => return at + other.trailing_zeros() as usize / 8,
        }
    }
}

/// The length of a name with other bytes in it, if it is good.
#[cold]
fn odd_name(rest: &[u8]) -> Option<usize> {
    let end = rest.iter().position(|&byte| is_blank(byte));
    let name = &rest[..end.unwrap_or(rest.len())];
    let good = !name.contains(&0x0C) && identifier_fault(name).is_none();
    good.then_some(name.len())
}

/// Writes settings and gives their length.
pub fn write(settings: &Settings, region: &[u8], text: &mut [u8]) -> Result<usize, Refusal> {
    if !is_possible(settings) || !is_name(region) {
        return Err(Refusal::new(BAD_VALUE, 0));
    }
    let mut form = Form {
        bytes: [0; 104],
        length: 0,
    };
    form.put_settings(settings);
    if !region.is_empty() {
        form.put(b" region:\0\0\0\0\0\0\0\0", 8);
    }
    // A blank stands in front of all of them.
    let front = form.bytes[..form.length].get(1..).unwrap_or_default();
    let length = front.len() + region.len();
    if length > MOST_IDENTIFIER {
        return Err(Refusal::new(BAD_VALUE, 0));
    }
    let Some(text) = text.get_mut(..length) else {
        return Err(Refusal::new(NO_ROOM, 0));
    };
    let (before, behind) = text.split_at_mut(front.len());
    before.copy_from_slice(front);
    if !region.is_empty() {
        behind.copy_from_slice(region);
    }
    Ok(length)
}

#[inline]
fn is_possible(settings: &Settings) -> bool {
    let fits = |hundredths: u16| u32::from(hundredths) <= WHOLE;
    let line = match settings.line {
        Line::Auto => settings.line_align == LineAlign::Start,
        Line::Number(_) => true,
        Line::Percent(hundredths) => fits(hundredths),
    };
    let position = match settings.position {
        Position::Auto => settings.position_align == PositionAlign::Auto,
        Position::Percent(hundredths) => fits(hundredths),
    };
    line & position & fits(settings.size)
}

/// Whether a name is empty or one that a text can hold.
#[inline]
fn is_name(region: &[u8]) -> bool {
    region.is_empty() || plain(region) == region.len() || odd_name(region) == Some(region.len())
}

/// Settings, each behind a blank.
struct Form {
    bytes: [u8; 104],
    length: usize,
}

impl Form {
    fn put_settings(&mut self, settings: &Settings) {
        match settings.vertical {
            Vertical::None => {}
            Vertical::Rl => self.put(b" vertical:rl\0\0\0\0", 12),
            Vertical::Lr => self.put(b" vertical:lr\0\0\0\0", 12),
        }
        match settings.line {
            Line::Auto => {}
            Line::Number(number) => self.put_line(signed(number), settings.line_align),
            Line::Percent(hundredths) => self.put_line(percent(hundredths), settings.line_align),
        }
        if let Position::Percent(hundredths) = settings.position {
            self.put(b" position:\0\0\0\0\0\0", 10);
            self.put_short(percent(hundredths));
            match settings.position_align {
                PositionAlign::Auto => {}
                PositionAlign::LineLeft => self.put(b",line-left\0\0\0\0\0\0", 10),
                PositionAlign::Center => self.put(b",center\0\0\0\0\0\0\0\0\0", 7),
                PositionAlign::LineRight => self.put(b",line-right\0\0\0\0\0", 11),
            }
        }
        if u32::from(settings.size) != WHOLE {
            self.put(b" size:\0\0\0\0\0\0\0\0\0\0", 6);
            self.put_short(percent(settings.size));
        }
        match settings.align {
            Align::Center => {}
            Align::Start => self.put(b" align:start\0\0\0\0", 12),
            Align::End => self.put(b" align:end\0\0\0\0\0\0", 10),
            Align::Left => self.put(b" align:left\0\0\0\0\0", 11),
            Align::Right => self.put(b" align:right\0\0\0\0", 12),
        }
    }

    #[inline]
    fn put_line(&mut self, value: (u64, usize), align: LineAlign) {
        self.put(b" line:\0\0\0\0\0\0\0\0\0\0", 6);
        self.put_short(value);
        match align {
            LineAlign::Start => {}
            LineAlign::Center => self.put(b",center\0\0\0\0\0\0\0\0\0", 7),
            LineAlign::End => self.put(b",end\0\0\0\0\0\0\0\0\0\0\0\0", 4),
        }
    }

    /// Puts the first of 16 bytes; the others are written over.
    #[inline]
    fn put(&mut self, bytes: &[u8; 16], length: usize) {
        self.bytes[self.length..][..16].copy_from_slice(bytes);
        self.length += length;
    }

    #[inline]
    fn put_short(&mut self, (bytes, length): (u64, usize)) {
        self.bytes[self.length..][..8].copy_from_slice(&bytes.to_le_bytes());
        self.length += length;
    }
}

/// A character in front of others.
#[inline]
fn before((bytes, length): (u64, usize), character: u8) -> (u64, usize) {
    (bytes << 8 | u64::from(character), length + 1)
}

/// The digits of a number in front of others.
#[inline]
fn number(mut bytes: (u64, usize), mut number: u16) -> (u64, usize) {
    loop {
        bytes = before(bytes, b'0' + (number % 10) as u8);
        number /= 10;
        if number == 0 {
            return bytes;
        }
    }
}

#[inline]
fn signed(line: i16) -> (u64, usize) {
    let digits = number((0, 0), line.unsigned_abs());
    if line < 0 {
        return before(digits, b'-');
    }
    digits
}

#[inline]
fn percent(hundredths: u16) -> (u64, usize) {
    let (whole, rest) = (hundredths / 100, hundredths % 100);
    let mut bytes = (u64::from(b'%'), 1);
    if rest != 0 {
        if !rest.is_multiple_of(10) {
            bytes = before(bytes, b'0' + (rest % 10) as u8);
        }
        bytes = before(before(bytes, b'0' + (rest / 10) as u8), b'.');
    }
    number(bytes, whole)
}

#[cfg(test)]
mod tests {
    use std::path::Path;

    use captions_harness::generate::{every_edit, good_settings_text, TELLING_IN_SETTINGS};
    use captions_harness::random::Random;
    use captions_harness::{differential, run_vectors, Library, Model, Offered, Refusal};
    use captions_model::settings::Settings;
    use captions_model::Span;

    struct Rival;

    impl Library for Rival {
        fn read_settings(&self, text: &[u8]) -> Offered<Result<(Settings, Span), Refusal>> {
            Some(super::read(text))
        }

        fn settings_room(
            &self,
            settings: &Settings,
            region: &[u8],
        ) -> Offered<Result<usize, Refusal>> {
            Some(super::write(settings, region, &mut [0; 255]))
        }

        fn write_settings(
            &self,
            settings: &Settings,
            region: &[u8],
            text: &mut [u8],
        ) -> Offered<Result<usize, Refusal>> {
            Some(super::write(settings, region, text))
        }
    }

    #[test]
    fn the_reader_and_the_writer_are_right() {
        let vectors = Path::new(concat!(env!("CARGO_MANIFEST_DIR"), "/../vectors"));
        let report = run_vectors(&Rival, vectors).expect("the vectors can be read");
        assert_eq!(report.faults(), 0, "\n{report}");
        let counts = differential(&Model, &Rival, 1, 400_000);
        let counts = counts.unwrap_or_else(|d| panic!("{d}"));
        assert!(counts.total() > 50_000, "{counts}");
    }

    #[test]
    fn damaged_texts_are_read_alike() {
        for mut random in (0..100).map(Random::new) {
            let text = good_settings_text(&mut random);
            for damaged in every_edit(&text, TELLING_IN_SETTINGS) {
                let model = Model.read_settings(&damaged);
                assert_eq!(Rival.read_settings(&damaged), model);
            }
        }
        // Every text of three telling bytes behind a name.
        for name in ["line:5", "size:1", "position:1", "region:", "align:end", ""] {
            for number in 0..TELLING_IN_SETTINGS.len().pow(3) {
                let byte = |power: u32| {
                    let at = number / TELLING_IN_SETTINGS.len().pow(power);
                    TELLING_IN_SETTINGS[at % TELLING_IN_SETTINGS.len()]
                };
                let text = [name.as_bytes(), &[0, 1, 2].map(byte)].concat();
                assert_eq!(Rival.read_settings(&text), Model.read_settings(&text));
            }
        }
    }
}
