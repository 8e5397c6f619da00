//! Rows of input and answer: fields separated by a tab, `=` between inputs and answers.

use captions_model::number::BAD_TEXT;
use captions_model::{Fault, Refusal, Who};

/// What the rows of a file have beside the inputs of a question and its answer.
#[derive(Clone, Copy)]
pub struct Form {
    /// Leading inputs that no answer compared today depends on.
    pub ignored: usize,
    /// Flags after them, 1 where a rule holds that is not in force yet.
    pub flags: usize,
    /// Whether an offset follows each place.
    pub offsets: bool,
}

/// A row's fields before and after `=`.
pub struct Row<'a> {
    pub inputs: Vec<&'a str>,
    pub answers: Vec<&'a str>,
    /// Whether it holds only with a rule that is not in force yet.
    pub later: bool,
    offsets: bool,
}

impl<'a> Row<'a> {
    pub fn parse(line: &'a str, form: Form) -> Option<Self> {
        let (inputs, answers) = line.split_once("\t=\t")?;
        let mut inputs = inputs.split('\t').skip(form.ignored);
        let flags: Vec<&str> = inputs.by_ref().take(form.flags).collect();
        Some(Row {
            inputs: inputs.collect(),
            answers: answers.split('\t').collect(),
            later: flags.contains(&"1"),
            offsets: form.offsets,
        })
    }

    pub fn bytes(&self, input: usize) -> Vec<u8> {
        bytes(self.inputs[input])
    }

    /// The bytes of an input, none for `-`.
    pub fn file(&self, input: usize) -> Option<Vec<u8>> {
        (self.inputs[input] != "-").then(|| self.bytes(input))
    }

    pub fn size(&self, input: usize) -> usize {
        number(self.inputs[input]) as usize
    }

    /// A scale or time. One past 32 bits becomes the largest, which is not allowed either.
    pub fn time(&self, input: usize) -> u32 {
        number(self.inputs[input]).try_into().unwrap_or(u32::MAX)
    }

    pub fn judged(&self) -> (Judged, &[&'a str]) {
        self.judged_after(0)
    }

    /// As [`Row::judged`], after so many other answers.
    pub fn judged_after(&self, others: usize) -> (Judged, &[&'a str]) {
        judged(&self.answers[others..], self.offsets)
    }

    pub fn tx3g_judged(&self) -> (Judged, &[&'a str]) {
        tx3g_judged(&self.answers, self.offsets)
    }
}

/// A refusal as far as a row gives it.
#[derive(Clone, Copy, Debug, PartialEq, Eq)]
pub struct Refused {
    pub who: Option<Who>,
    pub number: u32,
    pub place: usize,
    /// None where the row does not give it.
    pub offset: Option<usize>,
}

pub type Judged = Result<(), Refused>;

impl From<Refusal> for Refused {
    fn from(refusal: Refusal) -> Self {
        Refused {
            who: None,
            number: refusal.number,
            place: refusal.place,
            offset: Some(refusal.offset),
        }
    }
}

impl From<Fault> for Refused {
    fn from(fault: Fault) -> Self {
        Refused {
            who: Some(fault.who),
            ..fault.refusal.into()
        }
    }
}

/// The refusal, if any, that answers begin with: number, place and, if it is there, offset; and
/// the answers after it. Without its column the offset is known to be 0 but for bad text.
pub fn judged<'a, 'b>(answers: &'a [&'b str], offsets: bool) -> (Judged, &'a [&'b str]) {
    let given = number(answers[0]) as u32;
    let offset = match given {
        _ if offsets => Some(number(answers[2]) as usize),
        BAD_TEXT => None,
        _ => Some(0),
    };
    let refused = Refused {
        who: None,
        number: given,
        place: number(answers[1]) as usize,
        offset,
    };
    let judged = if refused.number == 0 {
        Ok(())
    } else {
        Err(refused)
    };
    (judged, &answers[2 + usize::from(offsets)..])
}

/// As [`judged`], after who is at fault.
pub fn tx3g_judged<'a, 'b>(answers: &'a [&'b str], offsets: bool) -> (Judged, &'a [&'b str]) {
    let (judged, more) = judged(&answers[1..], offsets);
    let judged = judged.map_err(|refused| Refused {
        who: Some(who(answers[0])),
        ..refused
    });
    (judged, more)
}

pub fn who(field: &str) -> Who {
    match field {
        "entry" => Who::Entry,
        "sample" => Who::Sample,
        _ => panic!("neither entry nor sample: {field}"),
    }
}

pub fn number(field: &str) -> u64 {
    field
        .parse()
        .unwrap_or_else(|_| panic!("no number: {field}"))
}

/// Hex digits as bytes, `.` for none.
pub fn bytes(field: &str) -> Vec<u8> {
    if field == "." {
        return Vec::new();
    }
    let (pairs, odd) = field.as_bytes().as_chunks::<2>();
    assert!(odd.is_empty(), "odd hex: {field}");
    pairs
        .iter()
        .map(|&[high, low]| digit(high) << 4 | digit(low))
        .collect()
}

/// Bytes as hex digits, `.` for none.
pub fn hex(bytes: &[u8]) -> String {
    if bytes.is_empty() {
        return ".".to_string();
    }
    bytes.iter().map(|b| format!("{b:02x}")).collect()
}

fn digit(byte: u8) -> u8 {
    let value = char::from(byte).to_digit(16);
    value.unwrap_or_else(|| panic!("no hex digit: {byte}")) as u8
}
