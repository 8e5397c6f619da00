//! The lines of a WebVTT file, for its header and for what is said about a line. The library reads
//! the file.

use std::ops::Range;

const MARK: &[u8] = b"\xEF\xBB\xBF";

/// The lines of a file with the place where each begins, without line ends: LF, CR, or CR LF.
pub fn lines(file: &[u8]) -> impl Iterator<Item = Range<usize>> + '_ {
    let mut from = 0;
    std::iter::from_fn(move || {
        let rest = file.get(from..).filter(|rest| !rest.is_empty())?;
        let length = rest
            .iter()
            .position(|byte| b"\r\n".contains(byte))
            .unwrap_or(rest.len());
        let line = from..from + length;
        let ended = if rest[length..].starts_with(b"\r\n") {
            2
        } else {
            1
        };
        from = line.end + ended;
        Some(line)
    })
}

/// Where the header lines of a file stand: to before the first empty line, without the byte-order
/// mark in front and the line end behind.
pub fn header(file: &[u8]) -> Range<usize> {
    let start = if file.starts_with(MARK) {
        MARK.len()
    } else {
        0
    };
    let filled = lines(&file[start..]).take_while(|line| !line.is_empty());
    start..start + filled.last().map_or(0, |line| line.end)
}

/// The number of the first line behind the last empty one, from 1.
pub fn last_block(file: &[u8]) -> usize {
    let empty = lines(file).enumerate().filter(|(_, line)| line.is_empty());
    empty.last().map_or(1, |(index, _)| index + 2)
}

/// Where the first `-->` of a line begins.
pub fn arrow_in(line: &[u8]) -> Option<usize> {
    line.windows(3).position(|part| part == b"-->")
}

/// Whether the times of a timing line are whole in the beginning of a file: another line follows,
/// or a blank stands behind them. The line counts from 1.
pub fn has_whole_times(start: &[u8], number: usize) -> bool {
    let mut rest = lines(start).skip(number.saturating_sub(1));
    let line = rest.next().map_or(&b""[..], |line| &start[line]);
    let behind = arrow_in(line).map_or(&b""[..], |arrow| line[arrow + 3..].trim_ascii_start());
    rest.next().is_some() || behind.iter().any(|byte| b" \t".contains(byte))
}

#[cfg(test)]
mod tests {
    use super::*;

    #[test]
    fn lines_end_in_three_ways() {
        let parts =
            |file: &'static [u8]| -> Vec<&[u8]> { lines(file).map(|line| &file[line]).collect() };
        assert_eq!(parts(b""), [b""; 0]);
        assert_eq!(parts(b"\n"), [b""]);
        assert_eq!(
            parts(b"a\r\nb\rc\n\r\nd"),
            [&b"a"[..], b"b", b"c", b"", b"d"]
        );
        assert_eq!(parts(b"a\n\n"), [&b"a"[..], b""]);
    }

    #[test]
    fn a_header_ends_before_the_first_empty_line() {
        let part = |file: &'static [u8]| &file[header(file)];
        assert_eq!(part(b"WEBVTT"), b"WEBVTT");
        assert_eq!(
            part(b"\xEF\xBB\xBFWEBVTT x\r\nKind: y\r\n\r\nz"),
            b"WEBVTT x\r\nKind: y"
        );
        assert_eq!(part(b"WEBVTT\n\n"), b"WEBVTT");
        assert_eq!(part(b"\nWEBVTT"), b"");
        assert_eq!(part(b""), b"");
    }

    #[test]
    fn times_are_whole_before_a_blank_or_a_line() {
        let whole = |rest: &str| has_whole_times(format!("x\n00:00.000 --> {rest}").as_bytes(), 2);
        assert!(whole("00:01.000 ") && whole("00:01.000\ta") && whole("00:01.000\na"));
        assert!(!whole("00:01.000") && !whole("00:01") && !whole(" ") && !whole(""));
        assert!(!has_whole_times(b"x", 9));
    }

    #[test]
    fn a_last_block_is_counted_from_1() {
        assert_eq!(last_block(b"a\nb"), 1);
        assert_eq!(last_block(b"a\n\nb\nc"), 3);
        assert_eq!(last_block(b"a\n\n"), 3);
    }
}
