//! Payloads in the tag profile, and payloads near to it.

use captions_model::text::payload_fault;
use captions_model::tx3g::{convert, convert_room};
use captions_model::wvtt::MOST_PAYLOAD;

use super::text::any_text;
use super::track::Track;
use super::tx3g_track::{tx3g_track, Tx3gTrack};
use crate::random::Random;

const MOST_OPEN: usize = 16;
const HIGHEST_MS: usize = 359_999_999;

const NAMES: [&str; 7] = ["b", "i", "u", "c", "v", "lang", "ruby"];
const OTHER_NAMES: [&str; 12] = [
    "rt", "B", "x", "font", "bb", "la", "rub", "langs", "", " b", "p", "\u{e9}",
];
const ESCAPES: [&str; 6] = ["&amp;", "&lt;", "&gt;", "&nbsp;", "&lrm;", "&rlm;"];
const OTHER_ESCAPES: [&str; 11] = [
    "&copy;", "&", "&;", "&amp", "&AMP;", "&#38;", "&gte;", "&quot;", "&nbs;", "&l", "&rl;",
];
const PLAIN: [&str; 18] = [
    "a",
    "Hi",
    "one two",
    "\u{e9}",
    "\u{65e5}\u{672c}",
    "\u{1f600}",
    "\u{10ffff}",
    ">",
    ";",
    "\n",
    "\r\n",
    "\t",
    " ",
    ".",
    "--",
    "/b>",
    "00:00:01.000",
    "amp;",
];
const CLASSES: [&str; 9] = [
    "a", "yellow", "bg_black", "\u{e9}", "\u{c}", "/", "b", "0", ";",
];
const ANNOTATIONS: [&str; 12] = [
    "Fred",
    "en-GB",
    " two words ",
    "a<b",
    "<",
    "\t x",
    "\u{e9}",
    "\"",
    ".a",
    "/",
    "<b",
    "=",
];

/// Bytes that have a meaning in the profile, and some that have none.
pub const TELLING: [u8; 26] = *b"<>/&;. \t\n\r:0569abclrtuvxB\xC3";

/// What is written, and what is open in it.
struct Maker<'a> {
    random: &'a mut Random,
    text: String,
    open: Vec<&'static str>,
    /// The last time, in milliseconds.
    last: Option<usize>,
    /// How many in a hundred parts are wrong.
    wrong: usize,
}

impl Maker<'_> {
    fn is_wrong(&mut self) -> bool {
        self.random.percent(self.wrong)
    }

    fn put(&mut self, part: &str) {
        self.text.push_str(part);
    }

    /// Some parts, tags with some more inside among them.
    fn parts(&mut self, most: usize) {
        for _ in 0..self.random.below(most + 1) {
            match self.random.below(10) {
                0..=2 => self.plain(),
                3 | 4 => self.escape(),
                5 => self.timestamp(),
                _ => self.tag(most / 2),
            }
        }
    }

    fn plain(&mut self) {
        let part = self.random.pick(&PLAIN);
        self.put(part);
    }

    fn escape(&mut self) {
        let part = match self.is_wrong() {
            true => self.random.pick(&OTHER_ESCAPES),
            false => self.random.pick(&ESCAPES),
        };
        self.put(part);
    }

    /// A time above the last, or none where that is the highest.
    fn timestamp(&mut self) {
        let last = self.last;
        let least = last.map_or(0, |last| last + 1);
        let step = self.random.pick(&[1, 10, 1000, 60_000, 3_600_000]);
        let time = match self.random.below(24) {
            0 => HIGHEST_MS.max(least),
            1..=4 => least,
            _ => least + self.random.below(9) * step,
        };
        let time = match last {
            Some(last) if self.is_wrong() => last.saturating_sub(self.random.below(3) * step),
            _ if time > HIGHEST_MS => return,
            _ => time,
        };
        self.last = Some(time);
        let shown = shown_time(time);
        let shown = match self.is_wrong() {
            true => self.other_time(&shown),
            false => shown,
        };
        self.put(&format!("<{shown}>"));
    }

    /// Of another form.
    fn other_time(&mut self, time: &str) -> String {
        match self.random.below(6) {
            0 => time[3..].to_string(),
            1 => format!("0{time}"),
            2 => time[..10].to_string(),
            3 => time.replace('.', ","),
            4 => time.replace(":0", ":6"),
            _ => format!("{time} "),
        }
    }

    /// A tag with parts inside, if one more may be open.
    fn tag(&mut self, most: usize) {
        if self.open.len() >= MOST_OPEN && !self.is_wrong() {
            return self.plain();
        }
        self.start_tag();
        self.parts(most);
        self.end_tag();
    }

    /// So many tags, one in another.
    fn nest(&mut self, levels: usize) {
        for _ in 0..levels {
            self.start_tag();
            if self.random.percent(10) {
                self.timestamp();
            }
        }
        self.parts(1);
        while !self.open.is_empty() {
            self.end_tag();
        }
    }

    fn start_tag(&mut self) {
        let in_ruby = self.open.last() == Some(&"ruby");
        let name = match self.random.below(5) {
            _ if self.is_wrong() => self.random.pick(&OTHER_NAMES),
            0..=2 if in_ruby => "rt",
            0 => "ruby",
            _ => self.random.pick(&NAMES),
        };
        self.put(&format!("<{name}"));
        self.classes();
        if matches!(name, "v" | "lang") != self.is_wrong() {
            self.annotation();
        }
        self.put(">");
        self.open.push(name);
    }

    fn classes(&mut self) {
        for _ in 0..self.random.pick(&[0, 0, 0, 0, 1, 1, 2, 3]) {
            let class = self.random.pick(&CLASSES);
            self.put(".");
            if !self.is_wrong() {
                self.put(class);
            }
        }
    }

    fn annotation(&mut self) {
        let blank = self.random.pick(&[" ", " ", "\t", "  "]);
        self.put(blank);
        if self.is_wrong() {
            return;
        }
        for _ in 0..self.random.within(1, 2) {
            match self.random.below(5) {
                0 => self.escape(),
                _ => {
                    let part = self.random.pick(&ANNOTATIONS);
                    self.put(part);
                }
            }
        }
    }

    fn end_tag(&mut self) {
        let name = self.open.pop().unwrap_or("b");
        let name = match self.is_wrong() {
            true => self.random.pick(&NAMES),
            false => name,
        };
        let end = match self.is_wrong() {
            true => self.random.pick(&["", ".a>", " >", "", " x>"]),
            false => ">",
        };
        if !self.is_wrong() {
            self.put(&format!("</{name}{end}"));
        }
    }
}

/// As a timestamp has it.
pub fn shown_time(ms: usize) -> String {
    let [hours, minutes, seconds] = [ms / 3_600_000, ms / 60_000 % 60, ms / 1000 % 60];
    format!("{hours:02}:{minutes:02}:{seconds:02}.{:03}", ms % 1000)
}

/// Parts, so many in a hundred of them wrong.
fn made(random: &mut Random, wrong: usize) -> Vec<u8> {
    let mut maker = Maker {
        random,
        text: String::new(),
        open: Vec::new(),
        last: None,
        wrong,
    };
    match maker.random.below(12) {
        0 => {
            let levels = MOST_OPEN - maker.random.below(3);
            let more = usize::from(wrong > 0 && maker.random.percent(30));
            maker.nest(levels + more);
        }
        1 => (0..8).for_each(|_| maker.timestamp()),
        2 => maker.parts(12),
        _ => maker.parts(4),
    }
    maker.text.into_bytes()
}

/// A payload in the profile.
pub fn tagged_text(random: &mut Random) -> Vec<u8> {
    loop {
        let text = made(random, 0);
        if payload_fault(&text).is_none() {
            return text;
        }
    }
}

/// A payload to be judged by the profile: in it, near to it, as the converter makes it, as long as
/// a payload may be, or any text.
pub fn profile_text(random: &mut Random) -> Vec<u8> {
    let mut text = match random.below(20) {
        0..=4 => tagged_text(random),
        5..=11 => {
            let wrong = random.pick(&[1, 2, 5, 15]);
            made(random, wrong)
        }
        12..=16 => {
            let mut text = tagged_text(random);
            damage_tags(random, &mut text);
            text
        }
        17 => converted(random),
        18 => long_text(random),
        _ => any_text(random),
    };
    if random.percent(10) {
        damage_tags(random, &mut text);
    }
    text
}

/// Changes, takes out or puts in a telling byte, or cuts.
fn damage_tags(random: &mut Random, text: &mut Vec<u8>) {
    let at = random.below(text.len() + 1);
    let byte = random.pick(&TELLING);
    match random.below(5) {
        0 if at < text.len() => drop(text.remove(at)),
        1 => text.insert(at, byte),
        2 => text.truncate(at),
        _ if at < text.len() => text[at] = byte,
        _ => text.push(byte),
    }
}

/// A payload of a track of 3GPP text.
fn converted(random: &mut Random) -> Vec<u8> {
    let Tx3gTrack {
        scale,
        entry,
        track: Track { table, samples },
    } = tx3g_track(random);
    let Ok(need) = convert_room(scale, &entry, &table, &samples) else {
        return Vec::new();
    };
    let (mut records, mut pool) = (vec![0; need.record_bytes], vec![0; need.pool_bytes]);
    let made = convert(scale, &entry, &table, &samples, &mut records, &mut pool);
    made.expect("there is room");
    let records: Vec<_> = captions_model::list::records(&records).collect();
    if records.is_empty() {
        return Vec::new();
    }
    let record = random.pick(&records);
    let texts = record.texts(&pool).expect("the list is good");
    texts.payload.to_vec()
}

/// A text of the profile over and over, or letters, up to a length near to the longest.
fn long_text(random: &mut Random) -> Vec<u8> {
    let length = MOST_PAYLOAD + random.below(3) - 1;
    let unit = random.pick(&[
        "a",
        "<b>x</b>",
        "&amp;",
        "\u{e9}",
        "<i>",
        "<c.a>\u{65e5}</c> ",
    ]);
    let mut text = match random.below(2) {
        0 => Vec::new(),
        _ => tagged_text(random),
    };
    while text.len() + unit.len() <= length {
        text.extend(unit.as_bytes());
    }
    text.resize(length.max(text.len()), b'p');
    text
}
