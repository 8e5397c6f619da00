//! Why a text is bad.

/// The rule that a text breaks.
#[derive(Clone, Copy, Debug, PartialEq, Eq)]
pub enum Rule {
    /// Of identifiers, settings and `ctim`.
    Line,
    /// Of payloads.
    Payload,
    /// Of a `vttC`, or the header of a file.
    Configuration,
    /// Of a `vlab`.
    Label,
}

const SIGNATURE: &[u8] = b"WEBVTT";

/// Says why a text is bad at its offset: `the payload's byte 37 is not UTF-8`.
pub fn bad_text(name: &str, rule: Rule, text: &[u8], offset: usize) -> String {
    let what = match text.get(offset) {
        Some(&byte) => bad_byte(rule, text, offset, byte),
        None => {
            let verb = if is_plural(name) { "end" } else { "ends" };
            return format!("the {name} {verb} {}", bad_end(rule, text));
        }
    };
    let own = if is_plural(name) { "'" } else { "'s" };
    format!("the {name}{own} byte {offset} {what}")
}

/// Says that a text is too long: `the payload has 5000 bytes; at most 4095 are allowed`.
pub fn too_long(name: &str, bytes: usize, limit: usize) -> String {
    let has = if is_plural(name) { "have" } else { "has" };
    format!("the {name} {has} {bytes} bytes; at most {limit} are allowed")
}

/// Whether a text's name is one of more: settings.
fn is_plural(name: &str) -> bool {
    name.ends_with('s')
}

fn bad_byte(rule: Rule, text: &[u8], offset: usize, byte: u8) -> &'static str {
    if rule == Rule::Configuration && SIGNATURE.get(offset).is_some_and(|&letter| letter != byte) {
        return "is not that of WEBVTT, with which it begins";
    }
    let before = &text[..offset];
    let ends_arrow = before.ends_with(b"--") && byte == b'>';
    let in_line_end = matches!(before.last(), Some(b'\r' | b'\n'));
    match (rule, byte) {
        (Rule::Line | Rule::Payload, b'>') if ends_arrow => "ends a -->",
        (Rule::Line | Rule::Payload, 0) => "is a zero byte",
        (Rule::Line, b'\r' | b'\n') => "is a line end",
        (Rule::Payload, b'\r' | b'\n') if offset == 0 => "is a line end in front",
        (Rule::Payload, b'\r' | b'\n') if in_line_end => "ends an empty line",
        _ => "is not UTF-8",
    }
}

/// Where a text ends that could still become right.
fn bad_end(rule: Rule, text: &[u8]) -> &'static str {
    match text.last() {
        _ if rule == Rule::Configuration && text.len() < SIGNATURE.len() => {
            "within WEBVTT, with which it begins"
        }
        Some(b'\r' | b'\n') => "in a line end",
        _ => "within a character",
    }
}

#[cfg(test)]
mod tests {
    use super::*;
    use captions::wvtt::{judge_configuration, judge_identifier, judge_label, judge_payload};

    /// What is said about a text that the library refuses.
    fn said(rule: Rule, text: &[u8]) -> String {
        let judged = match rule {
            Rule::Line => judge_identifier(text),
            Rule::Payload => judge_payload(text),
            Rule::Configuration => judge_configuration(text),
            Rule::Label => judge_label(text),
        };
        bad_text("text", rule, text, judged.expect_err("a bad text").offset)
    }

    /// Looks whether each text is refused with its words.
    fn each_says(rule: Rule, texts: &[(&[u8], &str)]) {
        for (text, words) in texts {
            assert_eq!(said(rule, text), format!("the text{words}"));
        }
    }

    #[test]
    fn lines_and_labels() {
        let lines = [
            (&b"ab\xff"[..], "'s byte 2 is not UTF-8"),
            (b"a-->", "'s byte 3 ends a -->"),
            (b"a\nb", "'s byte 1 is a line end"),
            (b"\0", "'s byte 0 is a zero byte"),
            (b"a\xc3", " ends within a character"),
        ];
        each_says(Rule::Line, &lines);
        let labels = [
            (&b"x\r"[..], " ends in a line end"),
            (b"\xf0\x9f", " ends within a character"),
            (b"\xf5", "'s byte 0 is not UTF-8"),
        ];
        each_says(Rule::Label, &labels);
    }

    #[test]
    fn payloads() {
        let payloads = [
            (&b"\xed\xa0\x80"[..], "'s byte 1 is not UTF-8"),
            (b"\n", "'s byte 0 is a line end in front"),
            (b"a\n\nb", "'s byte 2 ends an empty line"),
            (b"a\r\r", "'s byte 2 ends an empty line"),
            (b"a\r\n", " ends in a line end"),
            (b"Caf\xe9\nb", "'s byte 4 is not UTF-8"),
            (b"Caf\xc3\r\nb", "'s byte 4 is not UTF-8"),
            (b"-->", "'s byte 2 ends a -->"),
            (b"a\0", "'s byte 1 is a zero byte"),
        ];
        each_says(Rule::Payload, &payloads);
    }

    #[test]
    fn configurations() {
        let configurations = [
            (&b"WEB"[..], " ends within WEBVTT, with which it begins"),
            (b"", " ends within WEBVTT, with which it begins"),
            (
                b"webvtt",
                "'s byte 0 is not that of WEBVTT, with which it begins",
            ),
            (b"WEBVTT\n", " ends in a line end"),
            (b"WEBVTT\x80", "'s byte 6 is not UTF-8"),
        ];
        each_says(Rule::Configuration, &configurations);
    }
}
