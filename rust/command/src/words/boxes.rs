//! Boxes in samples and entries.

use std::iter;

use captions::{step, BoxAt};

use crate::shown::{count, Shown};

/// The bytes of a box's header, and the smallest size of a box.
const HEADER: usize = 8;

/// A sample, an entry or a box, with boxes in it.
pub struct Container<'a> {
    /// What it is called: `the sample`.
    pub name: String,
    /// The bytes from the start of the sample or entry to the container's end.
    bytes: &'a [u8],
    /// Where its boxes begin.
    from: usize,
}

impl<'a> Container<'a> {
    /// Boxes that stand from a byte on to the end of the bytes.
    pub fn new(name: &str, bytes: &'a [u8], from: usize) -> Self {
        let name = String::from(name);
        Container { name, bytes, from }
    }

    /// A box of this container, under a name of its own.
    pub fn inner(&self, name: &str, found: &BoxAt) -> Option<Self> {
        let name = format!("{name} at byte {}", found.place);
        let (bytes, from) = (self.bytes.get(..found.next)?, found.body);
        Some(Container { name, bytes, from })
    }

    /// The boxes, up to the first whose header is bad.
    pub fn boxes(&self) -> impl Iterator<Item = BoxAt> + use<'a> {
        let (bytes, mut at) = (self.bytes, self.from);
        iter::from_fn(move || {
            let found = step(bytes, at).ok().flatten()?;
            at = found.next;
            Some(found)
        })
    }

    /// The box that begins at a byte.
    pub fn box_at(&self, place: usize) -> Option<BoxAt> {
        self.boxes().find(|found| found.place == place)
    }

    /// The first box of a type.
    pub fn first(&self, kind: &[u8; 4]) -> Option<BoxAt> {
        self.boxes().find(|found| found.kind == *kind)
    }

    /// The body of a box.
    pub fn body(&self, found: &BoxAt) -> &'a [u8] {
        let body = self.bytes.get(found.body..found.next);
        body.unwrap_or_default()
    }

    /// What is wrong with the header at a byte; none if it is right.
    pub fn bad_header(&self, at: usize) -> Option<String> {
        step(self.bytes, at).err()?;
        let (name, left) = (&self.name, self.bytes.get(at..)?);
        let bytes = left.len();
        Some(match header(left) {
            None => format!(
                "a box header is cut short: {name} ends after {bytes} of its {HEADER} bytes"
            ),
            Some((size @ ..HEADER, kind)) => {
                let kind = Shown::bytes(&kind);
                format!("the size of the box {kind} is {size}; it is {HEADER} or more")
            }
            Some((size, kind)) => {
                let kind = Shown::bytes(&kind);
                format!(
                    "the box {kind} of {size} bytes ends past {name}, which has {bytes} bytes left"
                )
            }
        })
    }

    /// Says that the box at a byte is not the first of its type.
    pub fn second(&self, at: usize) -> Option<String> {
        let kind = self.box_at(at)?.kind;
        let (first, kind) = (self.first(&kind)?.place, Shown::bytes(&kind));
        Some(format!(
            "a second {kind} stands in {}; the first is at byte {first}",
            self.name
        ))
    }

    /// Says that the body of a box does not have the bytes that it takes.
    pub fn bad_size(&self, found: &BoxAt, takes: &str) -> String {
        let (kind, has) = (Shown::bytes(&found.kind), self.body(found).len());
        format!("the body of the {kind} has {}; {takes}", count(has, "byte"))
    }
}

/// Size and type of the box in front of the bytes.
fn header(bytes: &[u8]) -> Option<(usize, [u8; 4])> {
    Some((four(bytes, 0)? as usize, *bytes.get(4..)?.first_chunk()?))
}

/// What is wrong with size or type of an entry that begins with so many bytes of fields.
pub fn bad_head(entry: &[u8], fields: usize, kind: &[u8; 4]) -> Option<String> {
    let (has, kind) = (entry.len(), Shown::bytes(kind));
    if has < fields {
        let has = count(has, "byte");
        return Some(format!(
            "the entry has {has}; a {kind} entry has {fields} or more"
        ));
    }
    let (size, found) = header(entry)?;
    let found = Shown::bytes(&found);
    Some(if size == has {
        format!("the entry's type is {found}, not {kind}")
    } else {
        format!("the entry has {has} bytes; its size field says {size}")
    })
}

/// Where a text is bad, behind the words for why: the byte of a sample or an entry.
pub fn with_byte(why: &str, text: &[u8], offset: usize, from: usize, whole: &str) -> String {
    let at = if offset < text.len() {
        ""
    } else {
        "it ends at "
    };
    format!(
        "{why} ({at}byte {} of {whole})",
        from.saturating_add(offset)
    )
}

/// The number of two bytes at a place, if they are there.
pub fn two(bytes: &[u8], at: usize) -> Option<u16> {
    Some(u16::from_be_bytes(*bytes.get(at..)?.first_chunk()?))
}

/// The number of four bytes at a place, if they are there.
pub fn four(bytes: &[u8], at: usize) -> Option<u32> {
    Some(u32::from_be_bytes(*bytes.get(at..)?.first_chunk()?))
}

/// Inputs for the tests of words.
#[cfg(test)]
pub mod inputs {
    use captions::Refusal;

    /// A box.
    pub fn boxed(kind: &[u8; 4], body: &[u8]) -> Vec<u8> {
        let size = u32::try_from(body.len() + 8).expect("a small body");
        [&size.to_be_bytes(), &kind[..], body].concat()
    }

    /// Bytes as the tests write them, `0000 'Hi'`: hex, and letters between `'`.
    pub fn bytes(text: &str) -> Vec<u8> {
        let hex = |two: &str| u8::from_str_radix(two, 16).expect("hex");
        let word = |word: &str| match word.strip_prefix('\'') {
            Some(letters) => letters.trim_end_matches('\'').as_bytes().to_vec(),
            None => (0..word.len() / 2)
                .map(|k| hex(&word[2 * k..][..2]))
                .collect(),
        };
        text.split(' ').flat_map(word).collect()
    }

    /// Boxes as the tests write them, `vsid 00000007, payl 'Hi'`: type and body.
    pub fn boxes(text: &str) -> Vec<u8> {
        let one = |one: &str| {
            let (kind, body) = one.split_once(' ').unwrap_or((one, ""));
            boxed(kind.as_bytes().try_into().expect("a type"), &bytes(body))
        };
        text.split(", ").flat_map(one).collect()
    }

    /// The cases are an input, `: ` and its words.
    pub fn each_says(cases: &[&str], said: impl Fn(&str) -> String) {
        for case in cases {
            let (input, words) = case.split_once(": ").expect("an input and words");
            assert_eq!(said(input), words, "{input}");
        }
    }

    /// Numbers of a xorshift generator.
    pub struct Dice(pub u64);

    impl Dice {
        /// A number below another.
        pub fn below(&mut self, end: usize) -> usize {
            self.0 ^= self.0 << 13;
            self.0 ^= self.0 >> 7;
            self.0 ^= self.0 << 17;
            (self.0 % end.max(1) as u64) as usize
        }

        /// One of some.
        pub fn one<T: Copy>(&mut self, of: &[T]) -> T {
            of[self.below(of.len())]
        }

        /// Changes, cuts or inserts bytes, at most three times; often none.
        pub fn damaged(&mut self, mut bytes: Vec<u8>) -> Vec<u8> {
            for _ in 0..self.below(6).saturating_sub(2) {
                let at = self.below(bytes.len());
                let to = (at + self.below(12)).min(bytes.len());
                let byte = [0, 1, 4, 0xFF, self.below(256) as u8];
                match self.below(4) {
                    0 => drop(bytes.drain(at..to)),
                    1 => bytes.insert(at, self.one(&byte)),
                    2 => bytes.truncate(to),
                    _ if at < bytes.len() => bytes[at] = self.one(&byte),
                    _ => {}
                }
            }
            bytes
        }
    }

    /// The words are there, hold no control, and say more than the reason.
    pub fn says_something(said: &str, refusal: &Refusal) {
        assert!(!said.is_empty() && !said.chars().any(char::is_control));
        assert_ne!(said, refusal.reason.to_string(), "{refusal:?}");
    }
}

#[cfg(test)]
mod tests {
    use super::inputs::{bytes, each_says};
    use super::*;

    #[test]
    fn headers_have_their_words() {
        let cases = [
            "000000: a box header is cut short: it ends after 3 of its 8 bytes",
            "00000007 'vttc': the size of the box vttc is 7; it is 8 or more",
            "00000000 1B5BFF22: the size of the box \\u{1b}[\\xFF\\\" is 0; it is 8 or more",
            "0000000A 'free' 00: the box free of 10 bytes ends past it, which has 9 bytes left",
        ];
        each_says(&cases, |case| {
            let bytes = bytes(&format!("00000008 'free' {case}"));
            let container = Container::new("it", &bytes, 0);
            assert_eq!(container.bad_header(0), None);
            container.bad_header(8).expect("a bad header")
        });
    }

    #[test]
    fn heads_have_their_words() {
        let cases = [
            ": the entry has 0 bytes; a wvtt entry has 10 or more",
            "00: the entry has 1 byte; a wvtt entry has 10 or more",
            "00000010 'wvtt': the entry has 8 bytes; a wvtt entry has 10 or more",
            "00000010 'wvtt' 0000: the entry has 10 bytes; its size field says 16",
            "00000001 'mp4a' 0000: the entry has 10 bytes; its size field says 1",
            "0000000A 'mp4' 0A 0000: the entry's type is mp4\\n, not wvtt",
        ];
        each_says(&cases, |case| {
            bad_head(&bytes(case), 10, b"wvtt").expect("a bad head")
        });
    }
}
