//! WebVTT files.

use captions_model::time::MOST_MS;

use super::damage::damage_bytes;
use super::text::{bad_text, identifier, payload};
use crate::random::Random;

/// Lines without their ends.
type Lines = Vec<Vec<u8>>;

/// Bytes with a meaning in files, and some without.
const MARKS: &[u8] = b" \t\x0C\r\n->:.,0159NOSW\0\xC3\xEF\xFF";

/// A WebVTT file: good, with faults, or damaged in a byte.
pub fn vtt_file(random: &mut Random) -> Vec<u8> {
    let mut blocks = good_blocks(random);
    for _ in 0..random.pick(&[0, 0, 0, 1, 1, 2]) {
        add_fault(random, &mut blocks);
    }
    let mut file = written(random, &blocks);
    if random.percent(15) {
        damage_file(random, &mut file);
    }
    file
}

/// Changes one byte: replaced, put in, taken out, or cut short there.
pub fn damage_file(random: &mut Random, file: &mut Vec<u8>) {
    if file.is_empty() || random.percent(30) {
        return damage_bytes(random, file);
    }
    let (at, mark) = (random.below(file.len()), random.pick(MARKS));
    match random.below(4) {
        0 => file[at] = mark,
        1 => file.insert(at, mark),
        2 => drop(file.remove(at)),
        _ => file.truncate(at),
    }
}

/// The header, then blocks that are taken or passed over.
fn good_blocks(random: &mut Random) -> Vec<Lines> {
    let mut blocks = vec![header(random)];
    let mut clock = random.pick(&[0, 0, 0, 3_599_000, MOST_MS - 5000]);
    if random.percent(2) {
        let count = random.within(1023, 1026);
        blocks.extend((0..count).map(|_| short_cue(random, &mut clock)));
        return blocks;
    }
    for _ in 0..random.pick(&[0, 1, 2, 4, 8]) {
        blocks.push(match random.below(8) {
            0 => note(random),
            _ => cue(random, &mut clock),
        });
    }
    blocks
}

fn header(random: &mut Random) -> Lines {
    let first = random.pick(&[
        &b"WEBVTT"[..],
        b"WEBVTT",
        b"WEBVTT - title",
        b"WEBVTT\tx\xFF",
    ]);
    let more = [&b"Kind: captions"[..], b"NOTE x", b"STYLE", b"\xFF\0", b" "];
    let count = random.pick(&[0, 0, 0, 1, 2]);
    let rest = (0..count).map(|_| random.pick(&more));
    [first].into_iter().chain(rest).map(Vec::from).collect()
}

fn note(random: &mut Random) -> Lines {
    let first = random.pick(&[&b"NOTE"[..], b"NOTE x", b"NOTE\t", b"NOTE -- >"]);
    let more = [&b"STYLE"[..], b"00:00.000", b"\xC3\0\xFF", b" ", b"->"];
    let count = random.below(4);
    let rest = (0..count).map(|_| random.pick(&more));
    [first].into_iter().chain(rest).map(Vec::from).collect()
}

/// A cue with its texts; they seldom pass a limit.
fn cue(random: &mut Random, clock: &mut u64) -> Lines {
    let mut lines = Vec::new();
    let name = match random.below(12) {
        0 => random
            .pick(&[&b"NOTE"[..], b"STYLE", b"WEBVTT", b" "])
            .to_vec(),
        1..=4 => random.below(2000).to_string().into_bytes(),
        _ => identifier(random),
    };
    if !name.is_empty() {
        lines.push(name);
    }
    let (start, end) = times(random, clock);
    lines.push(timing_line(random, start, end));
    let text = payload(random);
    if !text.is_empty() {
        lines.push(text);
    }
    lines
}

/// A cue of few bytes.
fn short_cue(random: &mut Random, clock: &mut u64) -> Lines {
    let (start, end) = times(random, clock);
    let times = [plain_time(start), plain_time(end)].join(" --> ");
    let mut lines = vec![times.into_bytes()];
    if random.percent(30) {
        lines.push(b"x".to_vec());
    }
    lines
}

/// The times of the next cue, which moves the clock.
fn times(random: &mut Random, clock: &mut u64) -> (u64, u64) {
    let step = random.pick(&[0, 0, 1, 700, 2500]);
    let start = (*clock + step).min(MOST_MS - 1);
    let length = random.pick(&[1, 2, 999, 61_000]);
    *clock = start;
    (start, (start + length).min(MOST_MS))
}

/// A time with hours of two digits or more.
fn plain_time(ms: u64) -> String {
    let (hours, minutes) = (ms / 3_600_000, ms / 60_000 % 60);
    format!(
        "{hours:02}:{minutes:02}:{:02}.{:03}",
        ms / 1000 % 60,
        ms % 1000
    )
}

/// A time without hours where there are none, or with zeros before them.
fn time(random: &mut Random, ms: u64) -> String {
    let plain = plain_time(ms);
    match random.below(10) {
        0 => "0".repeat(random.pick(&[1, 2, 17, 30])) + &plain,
        1..=5 if ms < 3_600_000 => plain[3..].to_string(),
        _ => plain,
    }
}

fn timing_line(random: &mut Random, start: u64, end: u64) -> Vec<u8> {
    let gaps = [" ", " ", " ", "\t", "  ", " \t"];
    let [before, after] = [random.pick(&gaps), random.pick(&gaps)];
    let times = [time(random, start), time(random, end)];
    let mut line = format!("{}{before}-->{after}{}", times[0], times[1]).into_bytes();
    let settings = match random.below(6) {
        0 => b"align:start position:10%".to_vec(),
        1 => identifier(random),
        _ => Vec::new(),
    };
    if !settings.is_empty() || random.percent(10) {
        line.extend(random.pick(&[" ", "\t", " \x0C ", "  \t"]).as_bytes());
        line.extend(settings);
        line.extend(random.pick(&["", "", " ", "\t\x0C"]).as_bytes());
    }
    line
}

/// Joins the lines of blocks by ends of one kind or of any; after each block an empty line or more.
fn written(random: &mut Random, blocks: &[Lines]) -> Vec<u8> {
    let ends: &[&[u8]] = match random.below(5) {
        0 | 1 => &[b"\n"],
        2 => &[b"\r"],
        3 => &[b"\r\n"],
        _ => &[b"\n", b"\r", b"\r\n"],
    };
    let mark = random.pick(&[&b""[..], b"", b"", b"\xEF\xBB\xBF"]);
    let mut file = mark.to_vec();
    for block in blocks {
        for line in block {
            file.extend(line);
            file.extend(random.pick(ends));
        }
        for _ in 0..random.pick(&[1, 1, 1, 2, 3]) {
            file.extend(random.pick(ends));
        }
    }
    if random.percent(50) {
        let end = file.iter().rposition(|b| !matches!(b, b'\r' | b'\n'));
        file.truncate(end.map_or(0, |end| end + 1));
    }
    file
}

fn add_fault(random: &mut Random, blocks: &mut Vec<Lines>) {
    let (last, any) = (blocks.len() - 1, random.below(blocks.len()));
    let at = random.pick(&[last, any]);
    match random.below(20) {
        0 => fault_of_header(random, &mut blocks[0]),
        1 | 2 => blocks.insert(at + 1, other_block(random)),
        _ if at == 0 => {}
        3 | 4 => fault_of_lines(random, &mut blocks[at]),
        5..=10 => fault_of_texts(random, &mut blocks[at]),
        11..=13 => fault_of_times(random, &mut blocks[at]),
        14 | 15 => fault_of_timing(random, &mut blocks[at]),
        _ => blocks.swap(at, random.within(1, last)),
    }
}

fn fault_of_header(random: &mut Random, lines: &mut Lines) {
    let firsts = [
        &b""[..],
        b"WEBVT",
        b"WEBVTTx",
        b"webvtt",
        b" WEBVTT",
        b"WEBVTT\x0C",
        b"WEBVTT -->",
        b"\xEF\xBB\xBFWEBVTT",
        b"\xEF\xBBWEBVTT",
    ];
    match random.below(3) {
        0 => lines.push(b"x --> y".to_vec()),
        1 => lines.push(b"00:00.000 --> 00:01.000".to_vec()),
        _ => lines[0] = random.pick(&firsts).to_vec(),
    }
}

/// A block that is refused, or of which little makes another.
fn other_block(random: &mut Random) -> Lines {
    let firsts = [
        &b"STYLE"[..],
        b"STYLE",
        b"STYLE \t",
        b"REGION",
        b"REGION",
        b"REGION\t",
        b"STYLE x",
        b"STYLE\x0C",
        b"REGIONS",
        b"NOTE",
        b"NOTEx",
        b"NOTE\x0C",
        b"note",
        b" ",
        b"stray",
        b"1",
    ];
    let more = [&b"::cue {}"[..], b"id:low", b"x", b"x-->", b"-->"];
    let mut lines = vec![random.pick(&firsts).to_vec()];
    for _ in 0..random.below(4) {
        lines.push(random.pick(&more).to_vec());
    }
    lines
}

/// Puts an arrow or a line somewhere, or takes a line away.
fn fault_of_lines(random: &mut Random, lines: &mut Lines) {
    let at = random.below(lines.len());
    match random.below(5) {
        0 => lines[at].extend(b"-->"),
        1 => lines.insert(at, b"--->".to_vec()),
        2 => lines.insert(at, Vec::new()),
        3 if lines.len() > 1 => drop(lines.remove(at)),
        _ => lines.insert(at, b" ".to_vec()),
    }
}

/// Where a block's timing line stands, or its first line.
fn timing_of(lines: &Lines) -> usize {
    let arrow = |line: &Vec<u8>| line.windows(3).any(|part| part == b"-->");
    lines.iter().position(arrow).unwrap_or(0)
}

/// Puts a bad or a long text before the timing line, into it or behind it.
fn fault_of_texts(random: &mut Random, lines: &mut Lines) {
    let at = timing_of(lines);
    let (short, long) = (
        random.within(253, 258),
        random.pick(&[4093, 4095, 4096, 9000]),
    );
    let text = |random: &mut Random, length: usize| match random.below(3) {
        0 => vec![b'x'; length],
        _ => bad_text(random, length),
    };
    match random.below(3) {
        0 => lines.insert(at, text(random, short)),
        1 => {
            lines[at].push(b' ');
            lines[at].extend(text(random, short));
        }
        _ => {
            let behind = random.within(at + 1, lines.len().max(at + 1));
            lines.insert(behind, text(random, long));
        }
    }
}

/// Other times, of which many are right by themselves.
fn fault_of_times(random: &mut Random, lines: &mut Lines) {
    let at = timing_of(lines);
    let times = [
        "00:00.000",
        "00:00.001",
        "00:00:00.500",
        "00:02.500",
        "59:59.999",
        "01:00:00.000",
        "99:59:59.999",
        "0000099:59:59.999",
        "100:00:00.000",
        "596:31:23.648",
        "1193:02:47.296",
        "5124095576030:25:51.615",
        "5124095576030:25:51.616",
        "99999999999999999999999999:00:00.000",
    ];
    let line = [random.pick(&times), random.pick(&times)].join(" --> ");
    lines[at] = line.into_bytes();
}

/// A timing line that is malformed, or looks as if it were.
fn fault_of_timing(random: &mut Random, lines: &mut Lines) {
    let at = timing_of(lines);
    let malformed = [
        "00:00.000-->00:01.000",
        "00:00.000 -->00:01.000",
        "00:00.000--> 00:01.000",
        "00:00.000\x0C--> 00:01.000",
        " 00:00.000 --> 00:01.000",
        "0:00:00.000 --> 00:01.000",
        "00:00.000 --> 0:00:01.000",
        "000:00.000 --> 00:01.000",
        "00:00,000 --> 00:01,000",
        "00:00.00 --> 00:01.000",
        "00:00.0000 --> 00:01.000",
        "00:60.000 --> 01:00.000",
        "00:00.000 --> 60:00.000",
        "00:00.000 --> 00:60:00.000",
        "00:00.000 --> 00:00:60.000",
        "00:00:00:00.000 --> 00:01.000",
        "00:00.000 --> 00:01.000align:end",
        "00:00.000 --> 00:01.000\x0C",
        "00:00.000 --> 00:01.000 --> 00:02.000",
        "00:00.000 --> 00:01.000 \x0C a-->",
        "00:00.000 ---> 00:01.000",
        "00:00.000 -->",
        "-->",
    ];
    lines[at] = random.pick(&malformed).as_bytes().to_vec();
}
