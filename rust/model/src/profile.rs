//! The tag profile of payloads.
//!
//! ```text
//! payload    = *( character / escape / timestamp / tag )
//! tag        = start-tag payload end-tag
//! start-tag  = "<" name *( "." class ) [ blank annotation ] ">"
//! end-tag    = "</" name ">"
//! name       = "b" / "i" / "u" / "c" / "v" / "lang" / "ruby" / "rt"
//! annotation = *( annotation-character / escape )
//! escape     = "&" ( "amp" / "lt" / "gt" / "nbsp" / "lrm" / "rlm" ) ";"
//! timestamp  = "<" 2DIGIT ":" 2DIGIT ":" 2DIGIT "." 3DIGIT ">"
//! ```
//!
//! A character is any but `<` and `&`. At most 16 tags are open at once, `rt` stands directly in
//! `ruby`, and an end tag has the name of its start tag. `v` and `lang` have an annotation that is
//! not blank, and no other tag has one. Minutes and seconds are at most 59, and timestamps rise.

use crate::number::{OUTSIDE_PROFILE, PAST_LIMIT};
use crate::text::payload_fault;
use crate::wvtt::MOST_PAYLOAD;
use crate::{ensure, ensure_text, refuse, Refusal};

/// The most tags that are open at once.
const MOST_OPEN: usize = 16;

/// Names that a tag may have anywhere, and with the one that it has in `ruby` alone. None is the
/// beginning of another.
const ANYWHERE: &[&str] = &["b", "i", "u", "c", "v", "lang", "ruby"];
const IN_RUBY: &[&str] = &["b", "i", "u", "c", "v", "lang", "ruby", "rt"];

/// What may follow `&`.
const ESCAPES: &[&str] = &["amp;", "lt;", "gt;", "nbsp;", "lrm;", "rlm;"];

/// The highest timestamp. Two of this form rise as their bytes do.
const HIGHEST: &[u8] = b"99:59:59.999";

/// Judges a payload: its length, its text, then the profile.
pub fn judge_profile(text: &[u8]) -> Result<(), Refusal> {
    ensure(text.len() <= MOST_PAYLOAD, PAST_LIMIT, 0)?;
    ensure_text(payload_fault(text), 0)?;
    match profile_fault(text) {
        None => Ok(()),
        Some(place) => refuse(OUTSIDE_PROFILE, place),
    }
}

/// The first byte that no text of the profile has there, or the length of a text that ends too
/// early.
pub fn profile_fault(text: &[u8]) -> Option<usize> {
    let judge = Judge {
        text,
        at: 0,
        open: Vec::new(),
        last: None,
    };
    judge.payload().err()
}

/// Nothing, or the fault.
type Judged = Result<(), usize>;

struct Judge<'a> {
    text: &'a [u8],
    /// The byte that comes next.
    at: usize,
    /// The names of the tags that are open, the innermost last.
    open: Vec<&'static str>,
    /// The timestamp before.
    last: Option<&'a [u8]>,
}

impl Judge<'_> {
    fn payload(mut self) -> Judged {
        while let Some(byte) = self.next() {
            match byte {
                b'<' => self.angle()?,
                b'&' => self.escape()?,
                _ => self.at += 1,
            }
        }
        match self.open.last() {
            None => Ok(()),
            Some(_) => self.fault(),
        }
    }

    /// What a `<` begins.
    fn angle(&mut self) -> Judged {
        self.at += 1;
        match self.next() {
            Some(b'0'..=b'9') => self.timestamp(),
            Some(b'/') => self.end_tag(),
            _ => self.start_tag(),
        }
    }

    fn start_tag(&mut self) -> Judged {
        let names: &[&str] = match (self.open.len(), self.open.last()) {
            (MOST_OPEN, _) => &[],
            (_, Some(&"ruby")) => IN_RUBY,
            _ => ANYWHERE,
        };
        let name = self.word(names)?;
        while self.next() == Some(b'.') {
            self.at += 1;
            self.class()?;
        }
        if matches!(name, "v" | "lang") {
            self.annotation()?;
        }
        self.byte(b'>')?;
        self.open.push(name);
        Ok(())
    }

    /// One character or more.
    fn class(&mut self) -> Judged {
        let begin = self.at;
        let ends = |byte: u8| b"\t\n\r &<>.".contains(&byte);
        while self.next().is_some_and(|byte| !ends(byte)) {
            self.at += 1;
        }
        if self.at == begin {
            return self.fault();
        }
        Ok(())
    }

    /// A space or a tab, then text up to the `>`, not all of it spaces and tabs.
    fn annotation(&mut self) -> Judged {
        if !matches!(self.next(), Some(b' ' | b'\t')) {
            return self.fault();
        }
        let mut blank = true;
        loop {
            match self.next() {
                None | Some(b'\r' | b'\n') => return self.fault(),
                Some(b'>') if blank => return self.fault(),
                Some(b'>') => return Ok(()),
                Some(b' ' | b'\t') => self.at += 1,
                Some(b'&') => {
                    self.escape()?;
                    blank = false;
                }
                Some(_) => {
                    self.at += 1;
                    blank = false;
                }
            }
        }
    }

    /// Of the tag that is open.
    fn end_tag(&mut self) -> Judged {
        let Some(name) = self.open.pop() else {
            return self.fault();
        };
        self.byte(b'/')?;
        self.word(&[name])?;
        self.byte(b'>')
    }

    fn escape(&mut self) -> Judged {
        self.byte(b'&')?;
        self.word(ESCAPES).map(drop)
    }

    /// Every byte is judged by the highest time that can come of it.
    fn timestamp(&mut self) -> Judged {
        let begin = self.at;
        for (index, &highest) in HIGHEST.iter().enumerate() {
            let fits = |byte: u8| match highest {
                b':' | b'.' => byte == highest,
                _ => (b'0'..=highest).contains(&byte),
            };
            if !self.next().is_some_and(fits) {
                return self.fault();
            }
            let reached = [&self.text[begin..=self.at], &HIGHEST[index + 1..]].concat();
            if self.last.is_some_and(|last| reached.as_slice() <= last) {
                return self.fault();
            }
            self.at += 1;
        }
        self.last = Some(&self.text[begin..self.at]);
        self.byte(b'>')
    }

    /// One of these words.
    fn word(&mut self, words: &[&'static str]) -> Result<&'static str, usize> {
        let begin = self.at;
        loop {
            let taken = &self.text[begin..self.at];
            if let Some(word) = words.iter().find(|word| word.as_bytes() == taken) {
                return Ok(word);
            }
            let longer = self.text.get(begin..=self.at);
            let begins = |word: &&str| longer.is_some_and(|l| word.as_bytes().starts_with(l));
            if !words.iter().any(begins) {
                return Err(self.at);
            }
            self.at += 1;
        }
    }

    /// This byte.
    fn byte(&mut self, wanted: u8) -> Judged {
        if self.next() != Some(wanted) {
            return self.fault();
        }
        self.at += 1;
        Ok(())
    }

    fn next(&self) -> Option<u8> {
        self.text.get(self.at).copied()
    }

    /// The byte that comes next is wrong, or missing.
    fn fault(&self) -> Judged {
        Err(self.at)
    }
}
