//! Why a payload is outside the tag profile.

use captions::Reason;

use super::difference::part;

const NAMES: [&str; 8] = ["b", "i", "u", "c", "v", "lang", "ruby", "rt"];
const MOST_OPEN: usize = 16;
/// What the digits of a time are at most.
const HIGHEST: &str = "99:59:59.999";

/// Says where a payload leaves the profile, and why; the place is the judge's.
pub fn at(payload: &str, place: usize) -> String {
    let around = Around::of(payload, place);
    let begin = around.begin.or(around.open.last().map(|tag| tag.0));
    let shown = part(payload.get(begin.unwrap_or(0)..).unwrap_or_default());
    format!("byte {place}, in {shown}: {}", around.what())
}

/// A payload around the place at which it leaves the profile. Before the place it is as the profile
/// has it.
struct Around<'a> {
    payload: &'a str,
    before: &'a str,
    /// Where the tag, the timestamp or the escape begins that is not right.
    begin: Option<usize>,
    /// The tags that are open before it: where each begins, and its name.
    open: Vec<(usize, &'a str)>,
}

impl<'a> Around<'a> {
    fn of(payload: &'a str, place: usize) -> Self {
        let before = payload.get(..place).unwrap_or(payload);
        let (mut from, mut begin, mut open) = (0, None, Vec::new());
        while let Some(at) = before[from..].find(['<', '&']).map(|at| from + at) {
            let end = if before[at..].starts_with('<') {
                '>'
            } else {
                ';'
            };
            let Some(length) = before[at..].find(end) else {
                begin = Some(at);
                break;
            };
            let inside = &before[at + 1..at + length];
            match inside.chars().next() {
                _ if end == ';' => {}
                Some('/') => drop(open.pop()),
                Some('0'..='9') => {}
                _ => open.push((at, letters(inside))),
            }
            from = at + length + 1;
        }
        Around {
            payload,
            before,
            begin,
            open,
        }
    }

    fn what(&self) -> String {
        let Some(begin) = self.begin else {
            let missing = |(_, name): &(usize, &str)| format!("it ends without \"</{name}>\"");
            let open = self.open.last().map(missing);
            return open.unwrap_or(Reason::OutsideProfile.to_string());
        };
        let (whole, taken) = (&self.payload[begin..], &self.before[begin..]);
        let Some(next) = whole[taken.len()..].chars().next() else {
            return format!("it ends inside {}", part(whole));
        };
        if let Some(at) = taken.rfind('&').filter(|&at| !taken[at..].contains(';')) {
            return escape(&whole[at..]);
        }
        let tag = part(whole.split_inclusive('>').next().unwrap_or(whole));
        match taken.chars().nth(1) {
            Some('/') => self.end_tag(&taken[2..], next, &tag),
            Some('0'..='9') => timestamp(&taken[1..], next, &tag),
            None if next == '/' => format!("{tag} closes nothing"),
            None if next.is_ascii_digit() => timestamp("", next, &tag),
            None => self.other_tag(&whole[1..], &tag),
            Some(_) => start_tag(&taken[1..], next, &tag),
        }
    }

    /// A tag whose first letter is not right.
    fn other_tag(&self, inside: &str, tag: &str) -> String {
        match self.open.len() == MOST_OPEN && NAMES.contains(&letters(inside)) {
            true => format!("{} tags open", MOST_OPEN + 1),
            false => format!("{tag} is no tag of the profile"),
        }
    }

    fn end_tag(&self, name: &str, next: char, tag: &str) -> String {
        let open = self.open.last().map_or("", |(_, name)| name);
        match name == open && !next.is_ascii_alphanumeric() {
            true => format!("{tag} has more than its name"),
            false => format!("{tag} closes \"{open}\""),
        }
    }
}

/// The letters with which a text begins.
fn letters(text: &str) -> &str {
    let end = text.find(|letter: char| !letter.is_ascii_lowercase());
    &text[..end.unwrap_or(text.len())]
}

/// An escape of another name, or an `&` that is none.
fn escape(text: &str) -> String {
    let is_name = |letter: char| letter.is_ascii_alphanumeric() || letter == '#';
    let name = text[1..].find(|letter: char| !is_name(letter));
    let end = name.map_or(text.len(), |length| 1 + length);
    if end == 1 {
        return "\"&\" stands alone; it is written \"&amp;\"".into();
    }
    match text[end..].starts_with(';') {
        true => format!("{} is no escape of the profile", part(&text[..=end])),
        false => format!("{} is no escape", part(&text[..end])),
    }
}

/// A timestamp behind so many of its bytes.
fn timestamp(taken: &str, next: char, tag: &str) -> String {
    let highest = HIGHEST[taken.len().min(HIGHEST.len())..].chars().next();
    let fits = highest.is_some_and(|most| next.is_ascii_digit() && next <= most);
    match fits {
        true => "the time does not rise".into(),
        false => format!("{tag} is no time hh:mm:ss.mmm"),
    }
}

/// A start tag behind its first letter, or further.
fn start_tag(taken: &str, next: char, tag: &str) -> String {
    let name = letters(taken);
    let spoken = matches!(name, "v" | "lang");
    let classes = &taken[name.len()..];
    match next {
        't' if taken == "r" => "\"rt\" stands elsewhere than directly in \"ruby\"".into(),
        _ if !NAMES.contains(&name) => format!("{tag} is no tag of the profile"),
        '\r' | '\n' if classes.contains([' ', '\t']) => "a line end in an annotation".into(),
        _ if classes.ends_with('.') => "a class is empty".into(),
        '>' if spoken => format!("no annotation, which \"{name}\" needs"),
        ' ' | '\t' => format!("an annotation, which \"{name}\" does not take"),
        _ if classes.is_empty() => format!("{tag} is no tag of the profile"),
        _ => format!("a class with {} in it", part(next.encode_utf8(&mut [0; 4]))),
    }
}

#[cfg(test)]
mod tests {
    use super::*;
    use captions::wvtt::judge_profile;

    /// What is said about a payload that the library refuses.
    fn said(payload: &str) -> String {
        let refusal = judge_profile(payload.as_bytes()).expect_err("it is outside");
        at(payload, refusal.place)
    }

    fn each_says(payloads: &[(&str, &str)]) {
        for (payload, words) in payloads {
            assert_eq!(said(payload), format!("byte {words}"), "{payload}");
        }
    }

    #[test]
    fn tags() {
        each_says(&[
            (
                "a<font>b",
                "2, in \"<font>b\": \"<font>\" is no tag of the profile",
            ),
            ("<bb>", "2, in \"<bb>\": \"<bb>\" is no tag of the profile"),
            ("<", "1, in \"<\": it ends inside \"<\""),
            ("x<la", "4, in \"<la\": it ends inside \"<la\""),
            ("<b>x</i>", "6, in \"</i>\": \"</i>\" closes \"b\""),
            ("<b>x</bb>", "7, in \"</bb>\": \"</bb>\" closes \"b\""),
            (
                "<b>x</b.c>",
                "7, in \"</b.c>\": \"</b.c>\" has more than its name",
            ),
            ("x</i>y", "2, in \"</i>y\": \"</i>\" closes nothing"),
            (
                "x<b>y<i>z</i>",
                "13, in \"<b>y<i>z</i>\": it ends without \"</b>\"",
            ),
            (
                "<rt>",
                "2, in \"<rt>\": \"rt\" stands elsewhere than directly in \"ruby\"",
            ),
        ]);
        let deep = "<b>".repeat(16);
        let words = "byte 49, in \"<i.x>y\": 17 tags open";
        assert_eq!(said(&format!("{deep}<i.x>y")), words);
        let words = "byte 49, in \"<x>\": \"<x>\" is no tag of the profile";
        assert_eq!(said(&format!("{deep}<x>")), words);
    }

    #[test]
    fn classes_and_annotations() {
        each_says(&[
            ("<b.>", "3, in \"<b.>\": a class is empty"),
            ("<c.a&b>", "4, in \"<c.a&b>\": a class with \"&\" in it"),
            (
                "<c.a\nb>",
                "4, in \"<c.a\\nb>\": a class with \"\\n\" in it",
            ),
            ("<v>", "2, in \"<v>\": no annotation, which \"v\" needs"),
            ("<v.a>", "4, in \"<v.a>\": no annotation, which \"v\" needs"),
            (
                "<lang  >",
                "7, in \"<lang  >\": no annotation, which \"lang\" needs",
            ),
            (
                "<v A\nB>",
                "4, in \"<v A\\nB>\": a line end in an annotation",
            ),
            (
                "<b x>",
                "2, in \"<b x>\": an annotation, which \"b\" does not take",
            ),
            (
                "<v a.>x<b.c x>",
                "11, in \"<b.c x>\": an annotation, which \"b\" does not take",
            ),
        ]);
    }

    #[test]
    fn escapes() {
        each_says(&[
            (
                "&copy; 1",
                "1, in \"&copy; 1\": \"&copy;\" is no escape of the profile",
            ),
            (
                "&#38;",
                "1, in \"&#38;\": \"&#38;\" is no escape of the profile",
            ),
            ("&amp x", "4, in \"&amp x\": \"&amp\" is no escape"),
            (
                "A & B",
                "3, in \"& B\": \"&\" stands alone; it is written \"&amp;\"",
            ),
            ("<v A&B>", "5, in \"<v A&B>\": \"&B\" is no escape"),
            (
                "<v &lt;&x;>",
                "8, in \"<v &lt;&x;>\": \"&x;\" is no escape of the profile",
            ),
            ("&am", "3, in \"&am\": it ends inside \"&am\""),
        ]);
    }

    #[test]
    fn times() {
        each_says(&[
            (
                "<00:00:05.000>a<00:00:04.000>",
                "23, in \"<00:00:04.000>\": the time does not rise",
            ),
            ("<99:59:59.999><0", "15, in \"<0\": the time does not rise"),
            (
                "<00:00:60.000>",
                "7, in \"<00:00:60.000>\": \"<00:00:60.000>\" is no time hh:mm:ss.mmm",
            ),
            (
                "<1:00>",
                "2, in \"<1:00>\": \"<1:00>\" is no time hh:mm:ss.mmm",
            ),
            (
                "<00:00:00.0000>",
                "13, in \"<00:00:00.0000>\": \"<00:00:00.0000>\" is no time hh:mm:ss.mmm",
            ),
        ]);
    }

    #[test]
    fn long_parts_are_cut_and_hostile_ones_escaped() {
        let long = said(&format!("<x{}>", "é".repeat(500)));
        assert!(long.len() < 250 && long.contains("…"), "{long}");
        let hostile = said("<v \u{1b}[2J\u{202e}\r>");
        assert!(hostile.contains("\\u{1b}[2J\\u{202e}\\r"), "{hostile}");
    }
}
