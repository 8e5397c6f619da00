//! Why settings are not understood.

use captions::Reason;

use super::difference::part;

const BLANKS: [char; 2] = [' ', '\t'];
const NAMES: [&str; 6] = ["vertical", "line", "position", "size", "align", "region"];
const VERTICALS: [&str; 2] = ["rl", "lr"];
const ALIGNS: [&str; 5] = ["start", "center", "end", "left", "right"];
const LINE_ALIGNS: [&str; 3] = ["start", "center", "end"];
const POSITION_ALIGNS: [&str; 3] = ["line-left", "center", "line-right"];
/// 100 % in hundredths.
const WHOLE: u64 = 10_000;

/// Says where settings are not understood, and why; the place is the reader's, at which a setting
/// begins.
pub fn at(settings: &str, place: usize) -> String {
    let (before, rest) = settings.split_at_checked(place).unwrap_or((settings, ""));
    let setting = rest.split(BLANKS).next().unwrap_or_default();
    let what = what(before, setting).unwrap_or(Reason::BadSetting.to_string());
    format!("byte {place}, in {}: {what}", part(setting))
}

/// What is wrong with a setting behind others.
fn what(before: &str, setting: &str) -> Option<String> {
    let Some((name, value)) = setting.split_once(':') else {
        return Some("no colon parts a name from a value".into());
    };
    let mut others = before
        .split(BLANKS)
        .filter_map(|other| other.split_once(':'));
    if !NAMES.contains(&name) {
        return Some(unknown(name));
    }
    if others.any(|(other, _)| other == name) {
        return Some(format!("\"{name}\" stands twice"));
    }
    if value.is_empty() {
        return Some("no value stands behind the colon".into());
    }
    match name {
        "vertical" => none_of(value, &VERTICALS),
        "line" => aligned(value, line, &LINE_ALIGNS),
        "position" => aligned(value, percentage, &POSITION_ALIGNS),
        "size" if value.contains(',') => Some("a size has no alignment".into()),
        "size" => percentage(value),
        "align" => none_of(value, &ALIGNS),
        _ => Some("white space in a region's name".into()),
    }
}

/// A name that no setting has.
fn unknown(name: &str) -> String {
    let small = name.to_lowercase();
    if NAMES.contains(&&small[..]) {
        return format!("{} is written \"{small}\"", part(name));
    }
    match name {
        "" => "no name stands before the colon".into(),
        _ if name.contains('\x0C') => "a form feed is no blank between settings".into(),
        _ => format!("{} is the name of no setting", part(name)),
    }
}

fn none_of(value: &str, words: &[&str]) -> Option<String> {
    let other = || format!("{} is none of {}", part(value), words.join(", "));
    (!words.contains(&value)).then(other)
}

/// A number or a percentage, and its alignment behind a comma.
fn aligned(value: &str, fault: fn(&str) -> Option<String>, words: &[&str]) -> Option<String> {
    let (value, align) = match value.split_once(',') {
        Some((value, align)) => (value, Some(align)),
        None => (value, None),
    };
    let behind = || match align? {
        "" => Some("no alignment stands behind the comma".into()),
        align => none_of(align, words),
    };
    match value {
        "" => Some("no value stands before the comma".into()),
        value => fault(value).or_else(behind),
    }
}

fn line(value: &str) -> Option<String> {
    let digits = value.strip_prefix('-').unwrap_or(value);
    let what = match digits.split_once('.') {
        _ if value.ends_with('%') || is_never_written(value) => return percentage(value),
        None if is_digits(digits) => {
            let past = "a line number goes from -32768 to 32767";
            return value.parse::<i16>().err().map(|_| past.into());
        }
        Some((whole, decimals)) if is_digits(whole) && is_digits(decimals) => {
            "a line number is whole, and a percentage ends in \"%\"".into()
        }
        _ => format!("{} is neither a number nor a percentage", part(value)),
    };
    Some(what)
}

/// Whether a value is `auto`, or has a plus sign in front.
fn is_never_written(value: &str) -> bool {
    value == "auto" || value.starts_with('+')
}

fn percentage(value: &str) -> Option<String> {
    let number = value.strip_suffix('%').unwrap_or(value);
    let (whole, decimals) = number.split_once('.').unwrap_or((number, "0"));
    let digits = whole.strip_prefix('-').unwrap_or(whole);
    let what = match (is_digits(digits), is_digits(decimals)) {
        _ if value == "auto" => "auto is never written; without the setting it is meant",
        _ if value.starts_with('+') => "a plus sign is never written",
        (_, true) if digits.is_empty() => "no digit stands in front",
        (true, _) if decimals.is_empty() => "no digit stands behind the dot",
        (true, true) if number == value => "a percentage ends in \"%\"",
        (true, true) if digits != whole => "a percentage is not below 0",
        (true, true) if decimals.len() > 2 => "a percentage has at most two decimals",
        (true, true) if hundredths(whole, decimals) > WHOLE => "a percentage is at most 100",
        (true, true) => return None,
        _ => return Some(format!("{} is no percentage", part(value))),
    };
    Some(what.into())
}

/// A percentage in hundredths, or as many as there can be.
fn hundredths(whole: &str, decimals: &str) -> u64 {
    let digits = format!("{whole}{decimals:0<2}");
    digits.parse().unwrap_or(u64::MAX)
}

fn is_digits(text: &str) -> bool {
    !text.is_empty() && text.bytes().all(|byte| byte.is_ascii_digit())
}

#[cfg(test)]
mod tests {
    use super::*;
    use captions::wvtt::read_settings;

    /// What is said about settings that the library refuses.
    fn said(settings: &str) -> String {
        let refusal = read_settings(settings.as_bytes()).expect_err("they are refused");
        assert_eq!(refusal.reason, Reason::BadSetting);
        at(settings, refusal.place)
    }

    fn each_says(rows: &[(&str, &str)]) {
        for (settings, words) in rows {
            let shown = part(settings);
            assert_eq!(said(settings), format!("byte 0, in {shown}: {words}"));
        }
    }

    #[test]
    fn names() {
        each_says(&[
            ("line", "no colon parts a name from a value"),
            ("left", "no colon parts a name from a value"),
            (":5", "no name stands before the colon"),
            ("lines:5", "\"lines\" is the name of no setting"),
            ("é:5", "\"é\" is the name of no setting"),
            ("LINE:5", "\"LINE\" is written \"line\""),
            ("\x0Cline:5", "a form feed is no blank between settings"),
            ("line:", "no value stands behind the colon"),
            ("region:", "no value stands behind the colon"),
        ]);
        let twice = "byte 8, in \"line:2\": \"line\" stands twice";
        assert_eq!(said(" line:1\tline:2 line:3"), twice);
        let first = "byte 8, in \"foo:1\": \"foo\" is the name of no setting";
        assert_eq!(said("size:1% foo:1 foo:1"), first);
    }

    #[test]
    fn words() {
        each_says(&[
            ("vertical:RL", "\"RL\" is none of rl, lr"),
            ("vertical:rl,", "\"rl,\" is none of rl, lr"),
            (
                "align:middle",
                "\"middle\" is none of start, center, end, left, right",
            ),
            ("line:5,left", "\"left\" is none of start, center, end"),
            (
                "line:5,start,end",
                "\"start,end\" is none of start, center, end",
            ),
            ("line:1,", "no alignment stands behind the comma"),
            (
                "position:5%,start",
                "\"start\" is none of line-left, center, line-right",
            ),
            ("position:5%,", "no alignment stands behind the comma"),
            ("size:5%,center", "a size has no alignment"),
            ("region:a\x0Cb", "white space in a region's name"),
        ]);
    }

    #[test]
    fn line_numbers() {
        let auto = "auto is never written; without the setting it is meant";
        each_says(&[
            ("line:auto", auto),
            ("line:auto,end", auto),
            ("line:+1", "a plus sign is never written"),
            ("line:32768", "a line number goes from -32768 to 32767"),
            (
                "line:-99999999999999999999",
                "a line number goes from -32768 to 32767",
            ),
            (
                "line:1.5",
                "a line number is whole, and a percentage ends in \"%\"",
            ),
            ("line:--1", "\"--1\" is neither a number nor a percentage"),
            ("line:-", "\"-\" is neither a number nor a percentage"),
            ("line:,end", "no value stands before the comma"),
            ("line:-1%", "a percentage is not below 0"),
            ("line:101%,end", "a percentage is at most 100"),
        ]);
    }

    #[test]
    fn percentages() {
        each_says(&[
            (
                "position:auto",
                "auto is never written; without the setting it is meant",
            ),
            ("position:50", "a percentage ends in \"%\""),
            ("size:50.5", "a percentage ends in \"%\""),
            ("size:+5%", "a plus sign is never written"),
            ("size:.5%", "no digit stands in front"),
            ("size:%", "no digit stands in front"),
            ("size:-%", "no digit stands in front"),
            ("size:5.%", "no digit stands behind the dot"),
            ("size:5.x%", "\"5.x%\" is no percentage"),
            ("size:-5%", "a percentage is not below 0"),
            ("size:50.000%", "a percentage has at most two decimals"),
            ("size:100.01%", "a percentage is at most 100"),
            (
                "size:99999999999999999999999%",
                "a percentage is at most 100",
            ),
            ("size:5%%", "\"5%%\" is no percentage"),
            ("size:half", "\"half\" is no percentage"),
        ]);
    }

    #[test]
    fn long_parts_are_cut_and_hostile_ones_escaped() {
        let long = said(&format!("{}:1", "é".repeat(120)));
        assert!(long.len() < 250 && long.contains("…"), "{long}");
        let hostile = said("align:\u{1b}[2J\u{202e}");
        assert!(hostile.contains("\\u{1b}[2J\\u{202e}"), "{hostile}");
    }
}
