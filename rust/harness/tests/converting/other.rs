//! A second converter, with a flaw or without.

use captions_harness::{Converted, DroppedBoxes, Fault, Library, Offered, Refusal, Who};
use captions_model::boxes::{be16, boxes_from};
use captions_model::list::Record;
use captions_model::time::milliseconds;
use captions_model::track::samples;
use captions_model::tx3g::{convert_room, read_sample};

/// What a library does wrong.
#[derive(Clone, Copy, PartialEq, Eq)]
pub enum Flaw {
    Nothing,
    RangesInBytes,
    RangesInUnits,
    PairsWithoutBase,
    ClosesInOpeningOrder,
    WrapsNothing,
    NoDefaultFace,
    EmptyRangesCut,
    GoneRangesDoNotCut,
    JoinsAbutting,
    HigherBitsAreTags,
    KeepsLineEnds,
    KeepsLeadingLineEnds,
    LineEndOfTheLast,
    DropsCarriageReturns,
    GreaterStays,
    EscapesTwice,
    CountsOneSample,
    CountsSamplesWithText,
    CountsInnerBoxes,
    RoundsDurations,
    JoinsEqualNeighbours,
    CuesWithoutText,
    CountsFromOne,
}

impl Flaw {
    pub const ALL: [Flaw; 23] = [
        RangesInBytes,
        RangesInUnits,
        PairsWithoutBase,
        ClosesInOpeningOrder,
        WrapsNothing,
        NoDefaultFace,
        EmptyRangesCut,
        GoneRangesDoNotCut,
        JoinsAbutting,
        HigherBitsAreTags,
        KeepsLineEnds,
        KeepsLeadingLineEnds,
        LineEndOfTheLast,
        DropsCarriageReturns,
        GreaterStays,
        EscapesTwice,
        CountsOneSample,
        CountsSamplesWithText,
        CountsInnerBoxes,
        RoundsDurations,
        JoinsEqualNeighbours,
        CuesWithoutText,
        CountsFromOne,
    ];
}

use Flaw::*;

/// A second converter, with a flaw.
pub struct Other(pub Flaw);

/// A style by its characters, and its face.
pub type Style = (usize, usize, u8);

/// A cue: times in milliseconds and payload.
type Cue = ([u32; 2], Vec<u8>);

impl Other {
    fn has(&self, flaw: Flaw) -> bool {
        self.0 == flaw
    }

    /// The characters of a text with the byte at which each begins, and the unit.
    fn characters(&self, text: &[u8], utf16: bool) -> Vec<(char, usize, usize)> {
        let mut found = Vec::new();
        if !utf16 {
            let text = std::str::from_utf8(text).expect("the text is good");
            return text.char_indices().map(|(at, c)| (c, at, at)).collect();
        }
        let units: Vec<u32> = text.chunks(2).map(|u| be16(u, 0).into()).collect();
        let mut at = 0;
        while let Some(&unit) = units.get(at) {
            let pair = (0xD800..0xDC00).contains(&unit);
            let base = if self.has(PairsWithoutBase) {
                0
            } else {
                0x10000
            };
            let point = match pair {
                true => base + ((unit - 0xD800) << 10) + (units[at + 1] - 0xDC00),
                false => unit,
            };
            let character = char::from_u32(point).unwrap_or('\u{fffd}');
            found.push((character, 2 * at, at));
            at += 1 + usize::from(pair);
        }
        found
    }

    /// What is left of each character.
    fn left(&self, text: &[char]) -> Vec<Option<char>> {
        let breaks = |at: usize| matches!(text.get(at), Some('\r' | '\n') | None);
        let first = (0..text.len()).find(|&at| !breaks(at));
        let last = (0..text.len()).rfind(|&at| !breaks(at));
        let left = |at: usize| {
            if !breaks(at) {
                return Some(text[at]);
            }
            let leading = first > Some(at) && !self.has(KeepsLeadingLineEnds);
            let kept = match self.0 {
                KeepsLineEnds => true,
                LineEndOfTheLast => !breaks(at + 1),
                DropsCarriageReturns => text[at] == '\n' && (at == 0 || text[at - 1] != '\n'),
                _ => at == 0 || !breaks(at - 1),
            };
            let gone = leading || last < Some(at) || !kept;
            (!gone).then_some('\n')
        };
        (0..text.len()).map(left).collect()
    }

    fn escaped(&self, c: char) -> String {
        match c {
            '>' if self.has(GreaterStays) => c.to_string(),
            '<' if self.has(EscapesTwice) => "&amp;lt;".into(),
            '&' => "&amp;".into(),
            '<' => "&lt;".into(),
            '>' => "&gt;".into(),
            _ => c.to_string(),
        }
    }

    fn wrapped(&self, face: u8, text: &str) -> String {
        if text.is_empty() && !self.has(WrapsNothing) {
            return String::new();
        }
        let face = match self.0 {
            HigherBitsAreTags => face | face >> 3,
            _ => face,
        };
        let mut tags: Vec<&str> = Vec::new();
        for (bit, tag) in [(1, "b"), (2, "i"), (4, "u")] {
            if face & bit != 0 {
                tags.push(tag);
            }
        }
        let opened: String = tags.iter().map(|tag| format!("<{tag}>")).collect();
        if !self.has(ClosesInOpeningOrder) {
            tags.reverse();
        }
        let closed: String = tags.iter().map(|tag| format!("</{tag}>")).collect();
        opened + text + &closed
    }

    /// The payload by marks: of each character the style that it is in.
    fn payload(&self, entry: &[u8], sample: &[u8]) -> Vec<u8> {
        let read = read_sample(entry, sample).expect("the sample is good");
        let text = read.text.of(sample);
        let styles = styles(sample, read.style_table());
        let characters = self.characters(text, read.utf16);
        let mark = |(index, &(_, byte, unit)): (usize, &(char, usize, usize))| {
            let k = match self.0 {
                RangesInBytes => byte,
                RangesInUnits => unit,
                _ => index,
            };
            let within = |&(start, end, _): &Style| start <= k && k < end;
            styles.iter().position(within)
        };
        let marks: Vec<Option<usize>> = characters.iter().enumerate().map(mark).collect();
        let plain: Vec<char> = characters.iter().map(|&(c, ..)| c).collect();
        let left = self.left(&plain);
        let mut made = String::new();
        let mut from = 0;
        while from < plain.len() {
            let end = self.stretch_end(from, &marks, &left, &styles);
            let kept = left[from..end].iter().flatten();
            let inner: String = kept.map(|&c| self.escaped(c)).collect();
            let face = match marks[from] {
                Some(style) => styles[style].2,
                None if self.has(NoDefaultFace) => 0,
                None => entry[40],
            };
            made += &self.wrapped(face, &inner);
            from = end;
        }
        made.into_bytes()
    }

    /// Where the stretch that begins at a character ends.
    fn stretch_end(
        &self,
        from: usize,
        marks: &[Option<usize>],
        left: &[Option<char>],
        styles: &[Style],
    ) -> usize {
        let face = |mark: Option<usize>| mark.map(|style| styles[style].2);
        let mut end = from + 1;
        while end < marks.len() {
            let one = match self.0 {
                JoinsAbutting => face(marks[end]) == face(marks[from]),
                GoneRangesDoNotCut => marks[end] == marks[from] || left[end].is_none(),
                _ => marks[end] == marks[from],
            };
            let empty = |&(start, stop, _): &Style| start == stop && start == end;
            if !one || (self.has(EmptyRangesCut) && styles.iter().any(empty)) {
                break;
            }
            end += 1;
        }
        end
    }

    /// The cues of a good track.
    fn cues(&self, scale: u32, entry: &[u8], table: &[u8], bytes: &[u8]) -> Vec<Cue> {
        let mut cues: Vec<Cue> = Vec::new();
        let (mut tick, mut ms) = (0, 0);
        for (duration, sample) in samples(table, bytes) {
            let rounded = ms + milliseconds(scale, duration.into());
            let mut times = [tick, tick + u64::from(duration)].map(|t| milliseconds(scale, t));
            if self.has(RoundsDurations) {
                times = [ms, rounded];
            }
            let times = times.map(|ms| ms as u32);
            (tick, ms) = (tick + u64::from(duration), rounded);
            let payload = self.payload(entry, sample);
            if payload.is_empty() && !self.has(CuesWithoutText) {
                continue;
            }
            match cues.last_mut() {
                Some(last) if self.has(JoinsEqualNeighbours) && last.1 == payload => {
                    last.0[1] = times[1];
                }
                _ => cues.push((times, payload)),
            }
        }
        cues
    }

    fn dropped(&self, entry: &[u8], table: &[u8], bytes: &[u8]) -> DroppedBoxes {
        let mut counts = [0; 8];
        for (_, sample) in samples(table, bytes) {
            if self.has(CountsSamplesWithText) && self.payload(entry, sample).is_empty() {
                continue;
            }
            if self.has(CountsOneSample) {
                counts = [0; 8];
            }
            let from = 2 + usize::from(be16(sample, 0));
            for found in boxes_from(sample, from).map_while(Result::ok) {
                let body = found.body.of(sample);
                let inner = (self.has(CountsInnerBoxes) && &found.kind == b"free")
                    .then(|| body.get(4..8))
                    .flatten();
                let kinds = [Some(&found.kind[..]), inner];
                for (count, kind) in counts.iter_mut().zip(KINDS) {
                    *count += kinds.iter().filter(|k| **k == Some(&kind[..])).count();
                }
            }
        }
        let [hlit, retired_blinking, hclr, krok, dlay, href, tbox, twrp] = counts;
        DroppedBoxes {
            hlit,
            retired_blinking,
            hclr,
            krok,
            dlay,
            href,
            tbox,
            twrp,
        }
    }
}

const KINDS: [&[u8; 4]; 8] = [
    b"hlit", b"blnk", b"hclr", b"krok", b"dlay", b"href", b"tbox", b"twrp",
];

/// So many style records from a byte of a sample on.
pub fn styles(sample: &[u8], (count, from): (usize, usize)) -> Vec<Style> {
    let records = sample[from..].chunks(12).take(count);
    let style = |r: &[u8]| (be16(r, 0).into(), be16(r, 2).into(), r[6]);
    records.map(style).collect()
}

impl Library for Other {
    fn convert_tx3g_room(
        &self,
        scale: u32,
        entry: &[u8],
        table: &[u8],
        samples: &[u8],
    ) -> Offered<Result<Converted, Fault>> {
        let (mut records, mut pool) = (vec![0; 1 << 16], vec![0; 1 << 24]);
        self.convert_tx3g(scale, entry, table, samples, &mut records, &mut pool)
    }

    /// The model says whether there is a fault; one of the output goes by what is made here.
    fn convert_tx3g(
        &self,
        scale: u32,
        entry: &[u8],
        table: &[u8],
        samples: &[u8],
        records: &mut [u8],
        pool: &mut [u8],
    ) -> Offered<Result<Converted, Fault>> {
        let good = match convert_room(scale, entry, table, samples) {
            Ok(good) => good,
            Err(fault) => return Some(Err(fault)),
        };
        let (mut list, mut texts) = (Vec::new(), Vec::new());
        let first = u32::from(self.has(CountsFromOne));
        for (id, cue) in (first..).zip(self.cues(scale, entry, table, samples)) {
            let ([start, end], payload) = cue;
            let record = Record {
                id,
                start,
                end,
                offset: texts.len() as u32,
                payload_len: payload.len() as u16,
                ..Record::default()
            };
            list.extend(record.to_bytes());
            texts.extend(payload);
        }
        let no_room = |place| {
            let (who, refusal) = (Who::Output, Refusal::new(15, place));
            Some(Err(Fault { who, refusal }))
        };
        if records.len() < list.len() {
            return no_room(0);
        }
        if pool.len() < texts.len() {
            return no_room(1);
        }
        records[..list.len()].copy_from_slice(&list);
        pool[..texts.len()].copy_from_slice(&texts);
        Some(Ok(Converted {
            cues: list.len() / 24,
            record_bytes: list.len(),
            pool_bytes: texts.len(),
            dropped: self.dropped(entry, table, samples),
            ..good
        }))
    }
}
