//! A second reader and a second writer of settings, with a flaw or without. The reader goes byte by
//! byte, and the writer judges what it writes by its values.

use captions_harness::{Library, Offered, Refusal, Settings, Span};
use captions_model::settings::*;
use captions_model::text::identifier_fault;

/// What a reader or a writer does wrong, with lists of either.
macro_rules! flaws {
    (reading: $($reading:ident)*; writing: $($writing:ident)*) => {
        #[derive(Clone, Copy, Debug, PartialEq, Eq)]
        pub enum Flaw {
            Nothing,
            $($reading,)*
            $($writing,)*
        }

        pub const READING: &[Flaw] = &[$(Flaw::$reading),*];
        pub const WRITING: &[Flaw] = &[$(Flaw::$writing),*];
    };
}

flaws! {
    reading:
    OneHundredthMore ThreeDecimals NoWholeDigits NoDecimals LastDigitLost MinusPercent OneLineLower
    PlusSign NoLeadingZeros AutoTaken EmptyAlign LineAlignAtPosition CapitalWords UnknownPassed
    NameTwice PlaceOfTheFirst PlaceOfTheValue OffsetForPlace FormFeedParts TabsStay
    RegionToTheColon RegionWithFormFeed EmptyRegion RegionFromTheName TextLast LimitLast;
    writing:
    AlignBesideAuto DefaultSize DefaultAlign DefaultLineAlign WrongOrder TwoSpaces SpaceBehind
    ByteMore TrailingZero LastDigitUnwritten PercentAbove BlankInRegion RoomFirst RoomOfTheLongest
    WritesWhatFits ClearsTheRest
}

use Flaw::*;

/// A reader and a writer with a flaw.
pub struct Other(pub Flaw);

impl Library for Other {
    fn read_settings(&self, text: &[u8]) -> Offered<Result<(Settings, Span), Refusal>> {
        let limit = (text.len() > 255).then(|| Refusal::new(9, 0));
        let bad = identifier_fault(text).map(|offset| Refusal::bad_text(0, offset));
        let mut reader = Reader::new(text, self.0);
        let setting = reader.fault().map(|place| match self.0 {
            OffsetForPlace => Refusal {
                number: 20,
                place: 0,
                offset: place,
            },
            _ => Refusal::new(20, place),
        });
        let order = match self.0 {
            TextLast => [limit, setting, bad],
            LimitLast => [bad, setting, limit],
            _ => [limit, bad, setting],
        };
        let read = (reader.settings, reader.region);
        Some(order.into_iter().flatten().next().map_or(Ok(read), Err))
    }

    fn settings_room(&self, settings: &Settings, region: &[u8]) -> Offered<Result<usize, Refusal>> {
        let room = self.form(settings, region).map(|form| form.len());
        Some(room.map(|room| {
            if self.has(RoomOfTheLongest) {
                255
            } else {
                room
            }
        }))
    }

    fn write_settings(
        &self,
        settings: &Settings,
        region: &[u8],
        text: &mut [u8],
    ) -> Offered<Result<usize, Refusal>> {
        if self.has(RoomFirst) && text.is_empty() {
            return Some(Err(Refusal::new(15, 0)));
        }
        let form = match self.form(settings, region) {
            Ok(form) => form,
            Err(refused) => return Some(Err(refused)),
        };
        let fits = form.len().min(text.len());
        if fits == form.len() || self.has(WritesWhatFits) {
            text[..fits].copy_from_slice(&form[..fits]);
        }
        if self.has(ClearsTheRest) {
            text[fits..].fill(0);
        }
        let written = fits == form.len();
        Some(written.then_some(fits).ok_or(Refusal::new(15, 0)))
    }
}

impl Other {
    fn has(&self, flaw: Flaw) -> bool {
        self.0 == flaw
    }

    /// The text of what some text gives.
    fn form(&self, settings: &Settings, region: &[u8]) -> Result<Vec<u8>, Refusal> {
        let longest = 255 + usize::from(self.has(ByteMore));
        let given = self.is_given(settings) && self.is_region(region);
        let form = given.then(|| self.parts(settings, region));
        let form = form.filter(|form| form.len() <= longest);
        form.ok_or(Refusal::new(8, 0))
    }

    fn is_given(&self, settings: &Settings) -> bool {
        let most = 10_000 + u16::from(self.has(PercentAbove));
        let line = match settings.line {
            Line::Auto => self.has(AlignBesideAuto) || settings.line_align == LineAlign::Start,
            Line::Number(_) => true,
            Line::Percent(hundredths) => hundredths <= most,
        };
        let position = match settings.position {
            Position::Auto => settings.position_align == PositionAlign::Auto,
            Position::Percent(hundredths) => hundredths <= most,
        };
        line && position && settings.size <= most
    }

    fn is_region(&self, name: &[u8]) -> bool {
        let blank = name.iter().any(|byte| b" \t\x0C".contains(byte));
        identifier_fault(name).is_none() && (!blank || self.has(BlankInRegion))
    }

    fn parts(&self, settings: &Settings, region: &[u8]) -> Vec<u8> {
        let size = settings.size != 10_000 || self.has(DefaultSize);
        let mut parts = [
            vertical(settings.vertical).map(Vec::from),
            self.line(settings).map(Vec::from),
            self.position(settings).map(Vec::from),
            size.then(|| format!("size:{}", self.percent(settings.size)).into()),
            self.align(settings.align).map(Vec::from),
            (!region.is_empty()).then(|| [b"region:", region].concat()),
        ];
        if self.has(WrongOrder) {
            parts.swap(1, 2);
        }
        let parts: Vec<Vec<u8>> = parts.into_iter().flatten().collect();
        let between: &[u8] = if self.has(TwoSpaces) { b"  " } else { b" " };
        let behind: &[u8] = if self.has(SpaceBehind) { b" " } else { b"" };
        [&parts.join(between), behind].concat()
    }

    fn line(&self, settings: &Settings) -> Option<String> {
        let line = match settings.line {
            Line::Auto => return None,
            Line::Number(number) => number.to_string(),
            Line::Percent(hundredths) => self.percent(hundredths),
        };
        let align = match settings.line_align {
            LineAlign::Start if self.has(DefaultLineAlign) => ",start",
            LineAlign::Start => "",
            LineAlign::Center => ",center",
            LineAlign::End => ",end",
        };
        Some(format!("line:{line}{align}"))
    }

    fn position(&self, settings: &Settings) -> Option<String> {
        let position = match settings.position {
            Position::Auto => return None,
            Position::Percent(hundredths) => self.percent(hundredths),
        };
        let align = match settings.position_align {
            PositionAlign::Auto => "",
            PositionAlign::LineLeft => ",line-left",
            PositionAlign::Center => ",center",
            PositionAlign::LineRight => ",line-right",
        };
        Some(format!("position:{position}{align}"))
    }

    fn align(&self, align: Align) -> Option<&'static str> {
        match align {
            Align::Start => Some("align:start"),
            Align::Center => self.has(DefaultAlign).then_some("align:center"),
            Align::End => Some("align:end"),
            Align::Left => Some("align:left"),
            Align::Right => Some("align:right"),
        }
    }

    fn percent(&self, hundredths: u16) -> String {
        let (whole, tenths, last) = (hundredths / 100, hundredths / 10 % 10, hundredths % 10);
        match (tenths, last) {
            (0, 0) => format!("{whole}%"),
            (_, 0) if self.has(TrailingZero) => format!("{whole}.{tenths}0%"),
            (_, 0) => format!("{whole}.{tenths}%"),
            _ if self.has(LastDigitUnwritten) => format!("{whole}.{tenths}%"),
            _ => format!("{whole}.{tenths}{last}%"),
        }
    }
}

fn vertical(vertical: Vertical) -> Option<&'static str> {
    match vertical {
        Vertical::None => None,
        Vertical::Rl => Some("vertical:rl"),
        Vertical::Lr => Some("vertical:lr"),
    }
}

/// What is read, and where.
struct Reader<'a> {
    text: &'a [u8],
    flaw: Flaw,
    settings: Settings,
    region: Span,
    /// Names, and where they were first.
    names: Vec<(Vec<u8>, usize)>,
}

impl<'a> Reader<'a> {
    fn new(text: &'a [u8], flaw: Flaw) -> Self {
        Reader {
            text,
            flaw,
            settings: Settings::default(),
            region: Span::default(),
            names: Vec::new(),
        }
    }

    fn has(&self, flaw: Flaw) -> bool {
        self.flaw == flaw
    }

    /// Reads all settings, and gives the place of the first that is bad.
    fn fault(&mut self) -> Option<usize> {
        let mut at = 0;
        while at < self.text.len() {
            let left = &self.text[at..];
            let end = left.iter().position(|&byte| self.parts(byte));
            let end = at + end.unwrap_or(left.len());
            if let (true, Err(place)) = (end > at, self.setting(at, end)) {
                return Some(place);
            }
            at = end + 1;
        }
        None
    }

    fn parts(&self, byte: u8) -> bool {
        match byte {
            b' ' => true,
            b'\t' => !self.has(TabsStay),
            b'\x0C' => self.has(FormFeedParts),
            _ => false,
        }
    }

    /// One setting from a byte to before another, or the place that is given for it.
    fn setting(&mut self, begin: usize, end: usize) -> Result<(), usize> {
        let setting = &self.text[begin..end];
        let colon = setting.iter().position(|&byte| byte == b':').ok_or(begin)?;
        let (mut name, value) = (setting[..colon].to_vec(), &setting[colon + 1..]);
        if self.has(CapitalWords) {
            name.make_ascii_lowercase();
        }
        match self.names.iter().find(|(known, _)| *known == name) {
            Some(_) if self.has(NameTwice) => {}
            Some(&(_, first)) if self.has(PlaceOfTheFirst) => return Err(first),
            Some(_) => return Err(begin),
            None => self.names.push((name.clone(), begin)),
        }
        let place = match self.flaw {
            PlaceOfTheValue => begin + colon + 1,
            _ => begin,
        };
        self.value(&name, value, end).ok_or(place)
    }

    fn value(&mut self, name: &[u8], value: &[u8], end: usize) -> Option<()> {
        match name {
            b"vertical" => self.settings.vertical = self.word(value, &VERTICALS)?,
            b"line" | b"position" if value == b"auto" && self.has(AutoTaken) => {}
            b"line" => self.line(value)?,
            b"position" => {
                let (hundredths, rest) = self.percent(value)?;
                self.settings.position = Position::Percent(hundredths);
                self.settings.position_align = match rest {
                    b",start" if self.has(LineAlignAtPosition) => PositionAlign::LineLeft,
                    _ => self.behind_comma(rest, &POSITION_ALIGNS)?,
                };
            }
            b"size" => {
                let (hundredths, rest) = self.percent(value)?;
                self.settings.size = rest.is_empty().then_some(hundredths)?;
            }
            b"align" => self.settings.align = self.word(value, &ALIGNS)?,
            b"region" => self.name(value, end)?,
            _ if self.has(UnknownPassed) => {}
            _ => return None,
        }
        Some(())
    }

    fn line(&mut self, value: &[u8]) -> Option<()> {
        let (line, rest) = match self.number(value) {
            Some((number, rest @ ([] | [b',', ..]))) => (Line::Number(number), rest),
            _ => {
                let (hundredths, rest) = self.percent(value)?;
                (Line::Percent(hundredths), rest)
            }
        };
        self.settings.line = line;
        self.settings.line_align = self.behind_comma(rest, &LINE_ALIGNS)?;
        Some(())
    }

    fn name(&mut self, name: &[u8], end: usize) -> Option<()> {
        let empty = name.is_empty() && !self.has(EmptyRegion);
        let blank = name.contains(&b'\x0C') && !self.has(RegionWithFormFeed);
        let mut region = Span {
            start: end - name.len(),
            end,
        };
        let colon = name.iter().position(|&byte| byte == b':');
        match (self.flaw, colon) {
            (RegionToTheColon, Some(colon)) => region.end = region.start + colon,
            (RegionFromTheName, _) => region.start -= b"region:".len(),
            _ => {}
        }
        self.region = (!empty && !blank).then_some(region)?;
        Some(())
    }

    fn word<T: Copy>(&self, value: &[u8], words: &[(&str, T)]) -> Option<T> {
        let same = |word: &str| match self.flaw {
            CapitalWords => value.eq_ignore_ascii_case(word.as_bytes()),
            _ => value == word.as_bytes(),
        };
        let known = words.iter().find(|(word, _)| same(word));
        known.map(|&(_, meaning)| meaning)
    }

    fn behind_comma<T: Copy + Default>(&self, rest: &[u8], words: &[(&str, T)]) -> Option<T> {
        match rest {
            [] => Some(T::default()),
            b"," if self.has(EmptyAlign) => Some(T::default()),
            [b',', word @ ..] => self.word(word, words),
            _ => None,
        }
    }

    /// A number at the front, and what is behind it.
    fn number<'b>(&self, bytes: &'b [u8]) -> Option<(i16, &'b [u8])> {
        let (sign, unsigned) = match bytes {
            [b'-', unsigned @ ..] => (-1, unsigned),
            [b'+', unsigned @ ..] if self.has(PlusSign) => (1, unsigned),
            _ => (1, bytes),
        };
        let (number, rest) = digits(unsigned)?;
        let zeros = self.has(NoLeadingZeros) && matches!(unsigned, [b'0', b'0'..=b'9', ..]);
        let least = -32_768 - i64::from(self.has(OneLineLower));
        let number = sign * number;
        let good = !zeros && (least..=32_767).contains(&number);
        good.then_some((number.max(-32_768) as i16, rest))
    }

    /// A percentage at the front, in hundredths, and what is behind it.
    fn percent<'b>(&self, bytes: &'b [u8]) -> Option<(u16, &'b [u8])> {
        let (whole, mut rest) = match bytes {
            [b'.', ..] if self.has(NoWholeDigits) => (0, bytes),
            [b'-', unsigned @ ..] if self.has(MinusPercent) => digits(unsigned)?,
            _ => digits(bytes)?,
        };
        let mut hundredths = whole.saturating_mul(100);
        if let [b'.', decimals @ ..] = rest {
            let count = decimals.iter().take_while(|b| b.is_ascii_digit()).count();
            let least = usize::from(!self.has(NoDecimals));
            let most = if self.has(ThreeDecimals) { 3 } else { 2 };
            (least..=most).contains(&count).then_some(())?;
            let last = i64::from(!self.has(LastDigitLost));
            for (digit, worth) in decimals[..count].iter().zip([10, last, 0]) {
                hundredths = hundredths.saturating_add(worth * i64::from(digit - b'0'));
            }
            rest = &decimals[count..];
        }
        let most = 10_000 + i64::from(self.has(OneHundredthMore));
        let behind = rest.strip_prefix(b"%")?;
        (hundredths <= most).then_some((hundredths as u16, behind))
    }
}

/// The number of the digits at the front, one or more, and what is behind them.
fn digits(bytes: &[u8]) -> Option<(i64, &[u8])> {
    let count = bytes.iter().take_while(|b| b.is_ascii_digit()).count();
    let (digits, rest) = bytes.split_at(count);
    let add = |number: i64, digit: &u8| (10 * number + i64::from(digit - b'0')).min(1_000_000);
    (count > 0).then(|| (digits.iter().fold(0, add), rest))
}
