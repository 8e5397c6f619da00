//! A second judge of the tag profile, with a flaw or without. It calls itself for what a tag holds,
//! and reckons times in milliseconds.

use captions_harness::{Library, Offered, Refusal};
use captions_model::text::payload_fault;

/// What a judge does wrong.
#[derive(Clone, Copy, Debug, PartialEq, Eq)]
pub enum Flaw {
    Nothing,
    SeventeenLevels,
    FifteenLevels,
    EqualTimes,
    AnyTimes,
    TimesRiseInTheirTag,
    TimesJudgedWhole,
    ThreeHourDigits,
    SixtySeconds,
    RtAnywhere,
    RtSomewhereInRuby,
    RubyHoldsRtAlone,
    AnyEndTag,
    EndTagsWithClass,
    NoEndTags,
    NoAnnotation,
    BlankAnnotation,
    EscapesAreBlank,
    AnnotationOnAll,
    NoAngleInAnnotation,
    LinesInAnnotation,
    EmptyClass,
    NoClassOnRuby,
    LineEndsInClass,
    Copyright,
    BareAmpersand,
    NoGreater,
    CapitalNames,
    PlaceOfTheAngle,
    PlaceOfTheWord,
    OffsetForPlace,
    TextLast,
    LimitLast,
}

impl Flaw {
    pub const ALL: [Flaw; 32] = [
        SeventeenLevels,
        FifteenLevels,
        EqualTimes,
        AnyTimes,
        TimesRiseInTheirTag,
        TimesJudgedWhole,
        ThreeHourDigits,
        SixtySeconds,
        RtAnywhere,
        RtSomewhereInRuby,
        RubyHoldsRtAlone,
        AnyEndTag,
        EndTagsWithClass,
        NoEndTags,
        NoAnnotation,
        BlankAnnotation,
        EscapesAreBlank,
        AnnotationOnAll,
        NoAngleInAnnotation,
        LinesInAnnotation,
        EmptyClass,
        NoClassOnRuby,
        LineEndsInClass,
        Copyright,
        BareAmpersand,
        NoGreater,
        CapitalNames,
        PlaceOfTheAngle,
        PlaceOfTheWord,
        OffsetForPlace,
        TextLast,
        LimitLast,
    ];
}

use Flaw::*;

/// A judge with a flaw.
pub struct Other(pub Flaw);

impl Library for Other {
    fn judge_profile(&self, text: &[u8]) -> Offered<Result<(), Refusal>> {
        let limit = (text.len() > 4095).then(|| Refusal::new(9, 0));
        let bad = payload_fault(text).map(|offset| Refusal::bad_text(0, offset));
        let outside = |place| match self.0 {
            OffsetForPlace => Refusal {
                number: 21,
                place: 0,
                offset: place,
            },
            _ => Refusal::new(21, place),
        };
        let outside = Reader::new(text, self.0).fault().map(outside);
        let order = match self.0 {
            TextLast => [limit, outside, bad],
            LimitLast => [bad, outside, limit],
            _ => [limit, bad, outside],
        };
        Some(order.into_iter().flatten().next().map_or(Ok(()), Err))
    }
}

/// What can still be read, and what has been.
struct Reader<'a> {
    text: &'a [u8],
    left: &'a [u8],
    flaw: Flaw,
    last: i64,
    /// Where the part begins that is being read.
    part: usize,
}

/// What is there instead of what may be.
struct Wrong;

type Read<T> = Result<T, Wrong>;

const NAMES: [&str; 8] = ["b", "i", "u", "c", "v", "lang", "ruby", "rt"];

impl<'a> Reader<'a> {
    fn new(text: &'a [u8], flaw: Flaw) -> Self {
        Reader {
            text,
            left: text,
            flaw,
            last: -1,
            part: 0,
        }
    }

    fn has(&self, flaw: Flaw) -> bool {
        self.flaw == flaw
    }

    fn at(&self) -> usize {
        self.text.len() - self.left.len()
    }

    /// Where the text is wrong.
    fn fault(mut self) -> Option<usize> {
        let read = self.content(&[]);
        let whole = read.is_ok() && (self.left.is_empty() || self.has(NoEndTags));
        match self.flaw {
            _ if whole => None,
            PlaceOfTheAngle if self.text.get(self.part) == Some(&b'<') => Some(self.part),
            PlaceOfTheWord if self.text.get(self.part) == Some(&b'&') => Some(self.part + 1),
            _ => Some(self.at()),
        }
    }

    /// Text and tags up to the end or to an end tag of the innermost that is open.
    fn content(&mut self, open: &[&str]) -> Read<()> {
        while let Some(&byte) = self.left.first() {
            self.part = self.at();
            match (byte, self.left.get(1)) {
                (b'<', Some(b'/')) if !open.is_empty() => return Ok(()),
                (b'<', Some(b'0'..=b'9')) => self.timestamp()?,
                (b'<', _) => self.tag(open)?,
                (b'&', _) => self.escape()?,
                (b'>', _) if self.has(NoGreater) => return Err(Wrong),
                _ => self.left = &self.left[1..],
            }
        }
        Ok(())
    }

    fn tag(&mut self, open: &[&str]) -> Read<()> {
        self.take(b"<")?;
        let most = match self.flaw {
            SeventeenLevels => 17,
            FifteenLevels => 15,
            _ => 16,
        };
        if open.len() == most {
            return Err(Wrong);
        }
        let name = self.name(open)?;
        self.classes(name)?;
        self.annotation(name)?;
        self.take(b">")?;
        let last = self.last;
        if self.has(TimesRiseInTheirTag) {
            self.last = -1;
        }
        self.content(&[open, &[name]].concat())?;
        if self.has(TimesRiseInTheirTag) {
            self.last = last;
        }
        self.end_tag(name)
    }

    fn name(&mut self, open: &[&str]) -> Read<&'static str> {
        let in_ruby = match self.flaw {
            RtAnywhere => true,
            RtSomewhereInRuby => open.contains(&"ruby"),
            _ => open.last() == Some(&"ruby"),
        };
        let names = match in_ruby {
            true if self.has(RubyHoldsRtAlone) => &NAMES[7..],
            true => &NAMES[..],
            false => &NAMES[..7],
        };
        if self.has(CapitalNames) && self.left.first() == Some(&b'B') {
            return self.take(b"B").map(|()| "b");
        }
        self.one_of(names)
    }

    fn classes(&mut self, name: &str) -> Read<()> {
        while self.left.starts_with(b".") && !(name == "ruby" && self.has(NoClassOnRuby)) {
            self.left = &self.left[1..];
            let stops: &[u8] = match self.flaw {
                LineEndsInClass => b"\t &<>.",
                _ => b"\t\n\r &<>.",
            };
            let end = self.left.iter().position(|byte| stops.contains(byte));
            let end = end.unwrap_or(self.left.len());
            self.left = &self.left[end..];
            if end == 0 && !self.has(EmptyClass) {
                return Err(Wrong);
            }
        }
        Ok(())
    }

    fn annotation(&mut self, name: &str) -> Read<()> {
        let blank = matches!(self.left.first(), Some(b' ' | b'\t'));
        match (matches!(name, "v" | "lang"), blank) {
            (true, false) if self.has(NoAnnotation) => return Ok(()),
            (true, false) => return Err(Wrong),
            (false, true) if self.has(AnnotationOnAll) => {}
            (false, _) => return Ok(()),
            (true, true) => {}
        }
        let mut seen = self.has(BlankAnnotation);
        loop {
            match self.left.first() {
                Some(b'>') if seen => return Ok(()),
                Some(b'\r' | b'\n') if self.has(LinesInAnnotation) => seen = true,
                Some(b'<') if self.has(NoAngleInAnnotation) => return Err(Wrong),
                Some(b'>' | b'\r' | b'\n') | None => return Err(Wrong),
                Some(b'&') => {
                    self.escape()?;
                    seen |= !self.has(EscapesAreBlank);
                    continue;
                }
                Some(byte) => seen |= !b" \t".contains(byte),
            }
            self.left = &self.left[1..];
        }
    }

    fn end_tag(&mut self, name: &'static str) -> Read<()> {
        if self.has(NoEndTags) && self.left.is_empty() {
            return Ok(());
        }
        self.take(b"</")?;
        match self.flaw {
            AnyEndTag => drop(self.one_of(&NAMES)?),
            _ => self.take(name.as_bytes())?,
        }
        if self.has(EndTagsWithClass) {
            self.classes(name)?;
        }
        self.take(b">")
    }

    fn escape(&mut self) -> Read<()> {
        if self.has(BareAmpersand) && self.left.starts_with(b"& ") {
            return self.take(b"&");
        }
        let escapes = [
            "&amp;", "&lt;", "&gt;", "&nbsp;", "&lrm;", "&rlm;", "&copy;",
        ];
        let count = 6 + usize::from(self.has(Copyright));
        self.one_of(&escapes[..count]).map(drop)
    }

    fn timestamp(&mut self) -> Read<()> {
        let (begin, before) = (self.left, self.last);
        self.take(b"<")?;
        let mut hours = self.digits(0, 2, 9, 3_600_000)?;
        if self.has(ThreeHourDigits) && self.left.first().is_some_and(u8::is_ascii_digit) {
            hours = hours / 3_600_000 * 36_000_000 + self.digits(0, 1, 9, 3_600_000)?;
        }
        self.take(b":")?;
        let minutes = self.digits(hours, 2, 5, 60_000)?;
        self.take(b":")?;
        let most = if self.has(SixtySeconds) { 6 } else { 5 };
        let seconds = self.digits(minutes, 2, most, 1000)?;
        self.take(b".")?;
        let time = self.digits(seconds, 3, 9, 1)?;
        if self.has(TimesJudgedWhole) && time <= before {
            self.left = begin;
            return Err(Wrong);
        }
        self.last = time;
        self.take(b">")
    }

    /// So many digits, the first at most so high, of so many milliseconds, behind a time.
    fn digits(&mut self, time: i64, count: u32, first: i64, unit: i64) -> Read<i64> {
        let mut number = 0;
        for place in (0..count).rev() {
            let digit = match self.left.first() {
                Some(byte @ b'0'..=b'9') => i64::from(byte - b'0'),
                _ => return Err(Wrong),
            };
            let high = place + 1 == count && digit > first;
            number = 10 * number + digit;
            let least = number * 10i64.pow(place) * unit;
            let highest = time + least + 10i64.pow(place) * unit - 1;
            // Of minutes and seconds behind it the highest are 59.
            let late = match self.flaw {
                AnyTimes | TimesJudgedWhole | ThreeHourDigits => false,
                EqualTimes => highest < self.last,
                _ => highest <= self.last,
            };
            if high || late {
                return Err(Wrong);
            }
            self.left = &self.left[1..];
        }
        Ok(time + number * unit)
    }

    /// One of these; else the reader stands at the byte that is wrong.
    fn one_of(&mut self, words: &[&'static str]) -> Read<&'static str> {
        let left = self.left;
        let same = |word: &str| word.bytes().zip(left).take_while(|(a, b)| a == *b).count();
        let most = words.iter().map(|word| same(word)).max();
        self.left = &left[most.unwrap_or(0)..];
        let found = words.iter().find(|word| same(word) == word.len());
        found.copied().ok_or(Wrong)
    }

    fn take(&mut self, word: &'static [u8]) -> Read<()> {
        let same = word.iter().zip(self.left).take_while(|(a, b)| a == b);
        let same = same.count();
        self.left = &self.left[same..];
        if same < word.len() {
            return Err(Wrong);
        }
        Ok(())
    }
}
