//! WebVTT files.

use std::fmt::{self, Display};

use captions::limits::{LARGEST_MS, LONGEST_LINE, LONGEST_PAYLOAD, MOST_CUES};
use captions::wvtt::{judge_identifier, judge_payload};
use captions::{Reason, Refusal};

use super::text::{bad_text, Rule};
use crate::lines::{arrow_in, header, lines};
use crate::shown::Shown;
use crate::time::{parse_clock, Clock};

/// How many bytes of a line or a time are shown.
const SHOWN: usize = 60;

/// What is wrong in the line at a refusal's place.
pub fn in_file(file: &[u8], refusal: &Refusal) -> String {
    let around = Around::of(file, refusal.place.saturating_sub(1));
    match refusal.reason {
        Reason::StyleBlock => format!("a {} block, which is not read", around.first_word()),
        Reason::Malformed => around.malformed(),
        reason => match Cue::of(&around) {
            Some(cue) => cue.says(&around, refusal),
            None => reason.to_string(),
        },
    }
}

/// A line of a file and what stands around it. A file may have very many lines.
struct Around<'a> {
    file: &'a [u8],
    /// From the line on.
    rest: &'a [u8],
    index: usize,
    line: &'a [u8],
    before: &'a [u8],
    /// The last line before it that holds `-->`, and its index.
    timing: Option<(usize, &'a [u8])>,
    /// How many lines before it hold `-->`: the cues before a cue that is refused.
    cues: usize,
}

impl<'a> Around<'a> {
    fn of(file: &'a [u8], index: usize) -> Self {
        let (mut rest, mut line, mut before) = (&b""[..], &b""[..], &b""[..]);
        let (mut timing, mut cues) = (None, 0);
        for (number, range) in lines(file).enumerate().take(index + 1) {
            if holds_arrow(line) {
                timing = Some((number - 1, line));
                cues += 1;
            }
            rest = &file[range.start..];
            before = std::mem::replace(&mut line, &file[range]);
        }
        Around {
            file,
            rest,
            index,
            line,
            before,
            timing,
            cues,
        }
    }

    /// The lines of the block from this one on.
    fn block(&self) -> impl Iterator<Item = &'a [u8]> {
        let rest = self.rest;
        let lines = lines(rest).map(|line| &rest[line]);
        lines.take_while(|line| !line.is_empty())
    }

    fn first_word(&self) -> &'static str {
        match self.line.starts_with(b"STYLE") {
            true => "STYLE",
            false => "REGION",
        }
    }

    fn malformed(&self) -> String {
        if self.index == 0 {
            return self.malformed_header();
        }
        if holds_arrow(self.line) {
            let line = Start(self.line);
            return format!("\"{line}\" is no timing line: {}", hint(self.line));
        }
        let is_note = &self.line[..word(self.line)] == b"NOTE";
        match self.block().position(holds_arrow).filter(|_| is_note) {
            Some(behind) => format!("line {} of this NOTE holds a -->", self.index + behind + 1),
            None => "the block is neither a cue nor a NOTE: its first two lines hold no -->".into(),
        }
    }

    fn malformed_header(&self) -> String {
        if self.file.is_empty() {
            return "the file is empty; it begins with WEBVTT".into();
        }
        let rest = self.file[header(self.file)].strip_prefix(b"WEBVTT");
        let ends = |byte: &u8| b" \t\r\n".contains(byte);
        if !rest.is_some_and(|rest| rest.first().is_none_or(ends)) {
            let rule = "it is WEBVTT, and then nothing or a space or tab";
            return format!("the first line is \"{}\"; {rule}", Start(self.line));
        }
        let arrow = self
            .block()
            .position(holds_arrow)
            .map_or(1, |index| index + 1);
        format!("the header, which ends before the first empty line, holds a --> in line {arrow}")
    }
}

fn holds_arrow(line: &[u8]) -> bool {
    arrow_in(line).is_some()
}

/// The beginning of a line or a time as it is shown.
struct Start<'a>(&'a [u8]);

impl Display for Start<'_> {
    fn fmt(&self, f: &mut fmt::Formatter) -> fmt::Result {
        if self.0.len() <= SHOWN {
            return write!(f, "{}", Shown::bytes(self.0));
        }
        // A character is not cut: its further bytes are 80 to BF, three at most.
        let is_inside = |end: &usize| self.0[*end] & 0xC0 == 0x80;
        let end = (SHOWN - 3..=SHOWN).rev().find(|end| !is_inside(end));
        write!(f, "{}…", Shown::bytes(&self.0[..end.unwrap_or(SHOWN)]))
    }
}

/// What is wrong with a timing line that is malformed.
fn hint(line: &[u8]) -> String {
    let is_blank = |byte: Option<&u8>| byte.is_some_and(|byte| b" \t".contains(byte));
    let arrow = arrow_in(line).unwrap_or(0);
    let (start, end) = (&line[..arrow], line.get(arrow + 3..).unwrap_or_default());
    if is_blank(line.first()) {
        return "a blank stands in front of the first time".into();
    }
    if !is_blank(start.last()) || !is_blank(end.first()) {
        return "a space is missing beside the -->".into();
    }
    let end = end.trim_ascii_start();
    let times = [start.trim_ascii_end(), &end[..word(end)]];
    let bad = times
        .into_iter()
        .find(|time| clock_in(time).is_none())
        .unwrap_or_default();
    let dotted: Vec<u8> = bad
        .iter()
        .map(|&byte| if byte == b',' { b'.' } else { byte })
        .collect();
    match clock_in(&dotted) {
        Some(_) => format!("a comma stands for the dot of {}", Start(bad)),
        None => format!("\"{}\" is not hh:mm:ss.mmm or mm:ss.mmm", Start(bad)),
    }
}

/// A cue's parts as a file has them.
struct Cue<'a> {
    start: &'a [u8],
    end: &'a [u8],
    identifier: &'a [u8],
    settings: &'a [u8],
    /// Its lines joined by LF; of a longer one than is allowed the beginning.
    payload: Vec<u8>,
}

impl<'a> Cue<'a> {
    /// The cue of a timing line.
    fn of(around: &Around<'a>) -> Option<Self> {
        let (start, rest) = around.line.split_at(arrow_in(around.line)?);
        let rest = trimmed(&rest[3..]);
        let (end, settings) = rest.split_at(word(rest));
        let mut payload = Vec::new();
        for line in around.block().skip(1) {
            if payload.len() > LONGEST_PAYLOAD + 1 {
                break;
            }
            payload.extend_from_slice(line);
            payload.push(b'\n');
        }
        payload.pop();
        Some(Cue {
            start: trimmed(start),
            end,
            identifier: around.before,
            settings: trimmed(settings),
            payload,
        })
    }

    fn says(&self, around: &Around, refusal: &Refusal) -> String {
        match refusal.reason {
            Reason::PastLimit => self.too_long(around.cues),
            Reason::BadText => self.bad_text(around.index, refusal.offset),
            Reason::BadTime => self.bad_time(),
            Reason::BadOrder => self.early(around.timing.unwrap_or_default()),
            reason => reason.to_string(),
        }
    }

    fn too_long(&self, cues: usize) -> String {
        if cues >= MOST_CUES {
            return format!("one cue too many; at most {MOST_CUES} are allowed");
        }
        let (name, limit) = if self.identifier.len() > LONGEST_LINE {
            ("identifier", LONGEST_LINE)
        } else if self.settings.len() > LONGEST_LINE {
            ("settings", LONGEST_LINE)
        } else {
            ("payload", LONGEST_PAYLOAD)
        };
        format!("more bytes in the {name} than the {limit} that are allowed")
    }

    /// Which text is bad, and in which line; the index is the timing line's.
    fn bad_text(&self, index: usize, offset: usize) -> String {
        if judge_identifier(self.identifier).is_err() {
            let what = bad_text("identifier", Rule::Line, self.identifier, offset);
            return format!("{what} (line {index})");
        }
        if judge_identifier(self.settings).is_err() {
            return bad_text("settings", Rule::Line, self.settings, offset);
        }
        if judge_payload(&self.payload).is_ok() {
            return Reason::BadText.to_string();
        }
        let before = &self.payload[..offset.min(self.payload.len())];
        let line = index + 2 + before.iter().filter(|&&byte| byte == b'\n').count();
        let what = bad_text("payload", Rule::Payload, &self.payload, offset);
        format!("{what} (line {line})")
    }

    fn bad_time(&self) -> String {
        let (start, end) = (Start(self.start), Start(self.end));
        let largest = Clock(LARGEST_MS.into());
        match (is_time(self.start), is_time(self.end)) {
            (true, true) => format!("the cue starts at {start} and ends at {end}, not after it"),
            (false, _) => format!("the cue starts at {start}; the largest time is {largest}"),
            _ => format!("the cue ends at {end}; the largest time is {largest}"),
        }
    }

    /// What is wrong with a cue that starts before the one of another timing line.
    fn early(&self, (index, line): (usize, &[u8])) -> String {
        let (start, before) = (Start(self.start), Start(&line[..word(line)]));
        let line = index + 1;
        format!("the cue starts at {start}, before that of line {line}, which starts at {before}")
    }
}

/// The milliseconds of a time, if it is well formed.
fn clock_in(time: &[u8]) -> Option<u64> {
    std::str::from_utf8(time).ok().and_then(parse_clock)
}

/// Whether a time is allowed.
fn is_time(time: &[u8]) -> bool {
    clock_in(time).is_some_and(|ms| ms <= LARGEST_MS.into())
}

/// How many bytes stand before the first space or tab.
fn word(line: &[u8]) -> usize {
    let blank = line.iter().position(|byte| b" \t".contains(byte));
    blank.unwrap_or(line.len())
}

/// Bytes without the blanks in front and at the end.
fn trimmed(bytes: &[u8]) -> &[u8] {
    let is_filled = |byte: &u8| !b" \t\x0c".contains(byte);
    let start = bytes.iter().position(is_filled).unwrap_or(bytes.len());
    let end = bytes.iter().rposition(is_filled);
    &bytes[start..end.map_or(start, |last| last + 1)]
}

#[cfg(test)]
mod tests {
    use super::*;

    /// What is said about a file that the library refuses, behind `WEBVTT` and an empty line.
    fn said(blocks: &str) -> String {
        said_of(format!("WEBVTT\n\n{blocks}").as_bytes())
    }

    fn said_of(file: &[u8]) -> String {
        let refusal = captions::vtt::read(file).expect_err("a bad file");
        let number = refusal.reason.number();
        format!("{number} {}: {}", refusal.place, in_file(file, &refusal))
    }

    #[test]
    fn headers() {
        assert_eq!(
            said_of(b""),
            "19 1: the file is empty; it begins with WEBVTT"
        );
        let rule = "it is WEBVTT, and then nothing or a space or tab";
        assert_eq!(
            said_of(b"1\n\x1b"),
            format!("19 1: the first line is \"1\"; {rule}")
        );
        assert_eq!(
            said_of(b"WEBVTTx"),
            format!("19 1: the first line is \"WEBVTTx\"; {rule}")
        );
        assert_eq!(
            said_of(b"\nWEBVTT"),
            format!("19 1: the first line is \"\"; {rule}")
        );
        let header = "the header, which ends before the first empty line, holds a --> in line 3";
        assert_eq!(
            said_of(b"WEBVTT\r\nx\r00:00 -->"),
            format!("19 1: {header}")
        );
    }

    #[test]
    fn blocks() {
        assert_eq!(said("STYLE\nx"), "18 3: a STYLE block, which is not read");
        assert_eq!(
            said("NOTE\n\nREGION \t"),
            "18 5: a REGION block, which is not read"
        );
        assert_eq!(
            said("NOTE a\nb\nc -->"),
            "19 3: line 5 of this NOTE holds a -->"
        );
        let other = "19 3: the block is neither a cue nor a NOTE: its first two lines hold no -->";
        assert_eq!(said("a\nb\n00:00.000 --> 00:01.000"), other);
    }

    /// Looks whether each timing line is refused with its hint, where ' stands for ".
    fn each_says(hints: &[(&str, &str)]) {
        for (line, hint) in hints {
            let hint = hint.replace('\'', "\"");
            let words = format!("19 3: \"{line}\" is no timing line: {hint}");
            assert_eq!(said(line), words);
        }
    }

    #[test]
    fn blanks_of_a_timing_line() {
        let missing = "a space is missing beside the -->";
        each_says(&[
            ("00:00.000-->00:01.000", missing),
            ("00:00.000 -->00:01.000", missing),
            ("-->", missing),
            (
                " 00:00.000 --> 00:01.000",
                "a blank stands in front of the first time",
            ),
        ]);
    }

    #[test]
    fn times_of_a_timing_line() {
        let comma = "a comma stands for the dot of";
        let form = "is not hh:mm:ss.mmm or mm:ss.mmm";
        let hints = [
            ("00:00,000 --> 00:01,000", format!("{comma} 00:00,000")),
            ("00:00.000 --> 00:01,000", format!("{comma} 00:01,000")),
            ("Wait, what --> 00:01.000", format!("'Wait, what' {form}")),
            ("0:00.000 --> 0:01.000", format!("'0:00.000' {form}")),
            ("00:00.000 --> 00:60.000", format!("'00:60.000' {form}")),
            ("00:00.000 --> ", format!("'' {form}")),
            ("00:00.000 --> 00:01.000a b", format!("'00:01.000a' {form}")),
        ];
        each_says(&hints.each_ref().map(|(line, hint)| (*line, &hint[..])));
        let escaped = said("\u{1b}\u{202e} --> 1");
        assert!(
            escaped.starts_with("19 3: \"\\u{1b}\\u{202e} --> 1\" is"),
            "{escaped}"
        );
    }

    #[test]
    fn long_lines_are_cut_between_characters() {
        let long = said(&format!("{} --> ", "9".repeat(500)));
        assert!(
            long.len() < 250 && long.contains("999…\" is no timing line"),
            "{long}"
        );
        for front in ["", "a", "aa"] {
            let long = said(&format!("{front}{} --> ", "日".repeat(500)));
            assert!(
                long.contains("日日…\" is no timing line") && !long.contains('\\'),
                "{long}"
            );
        }
        assert!(said(&format!("{} --> ", "\u{301}".repeat(500))).contains("…\" is no timing line"));
    }

    #[test]
    fn cues() {
        let timing = "00:00.000 --> 00:01.000";
        assert_eq!(
            said(&format!("{timing}\na\nb-->")),
            "6 3: the payload's byte 5 ends a --> (line 5)"
        );
        assert_eq!(
            said(&format!("a\0b\n{timing}")),
            "6 4: the identifier's byte 1 is a zero byte (line 3)"
        );
        assert_eq!(
            said(&format!("{timing} \t a-->\tb \nx")),
            "6 3: the settings' byte 3 ends a -->"
        );
        let long = "more bytes in the payload than the 4095 that are allowed";
        assert_eq!(
            said(&format!("{timing}\n{}", "a\n".repeat(4000))),
            format!("9 3: {long}")
        );
        let cue = format!("{timing}\na\n\n");
        let many = "one cue too many; at most 1024 are allowed";
        assert_eq!(said(&cue.repeat(1025)), format!("9 3075: {many}"));
        let long = format!("{}{}\n{timing}\n", cue.repeat(1024), "i".repeat(300));
        assert_eq!(said(&long), format!("9 3076: {many}"));
    }

    #[test]
    fn times() {
        assert_eq!(
            said("00:02.000 --> 00:01.000 x"),
            "10 3: the cue starts at 00:02.000 and ends at 00:01.000, not after it"
        );
        assert_eq!(
            said("00:00.000 --> 100:00:00.000"),
            "10 3: the cue ends at 100:00:00.000; the largest time is 99:59:59.999"
        );
        assert_eq!(
            said("0000000000:00:02.000 --> 00:02.000"),
            "10 3: the cue starts at 0000000000:00:02.000 and ends at 00:02.000, not after it"
        );
        assert_eq!(
            said("00:03.000 --> 00:04.000\nx\n\nNOTE\n\n00:01.000 --> 00:02.000"),
            "11 8: the cue starts at 00:01.000, before that of line 3, which starts at 00:03.000"
        );
    }
}
