//! Runs every row, every foreign track and every foreign file against a library.

mod convert;
mod files;
mod foreign;
mod old_tracks;
mod settings;

use std::fmt::{self, Debug, Display};
use std::path::Path;
use std::{fs, io};

use captions_model::list::RECORD;
use captions_model::number::NO_ROOM;
use captions_model::pack::Packed;
use captions_model::unpack::Unpacked;
use captions_model::vtt::Read as VttRead;
use captions_model::wvtt::Cue;
use captions_model::{Fault, Refusal, Who};

use crate::library::{Library, Tx3gSample};
use crate::rows::{bytes, hex, number, who, Form, Refused, Row};

use convert::run_convert;
use files::run_files;
use foreign::{run_foreign, run_foreign_programs};
use old_tracks::run_old_tracks;
use settings::{run_read_settings, run_write_settings};

/// What became of a row.
enum Verdict {
    Agrees,
    /// The library does not offer the operation.
    Skipped,
    /// The row holds only with a rule that is not in force yet.
    Later,
    Differs(String),
}

use Verdict::{Agrees, Skipped};

/// The rows of one file.
#[derive(Debug)]
pub struct FileReport {
    pub name: String,
    pub agreed: usize,
    pub skipped: usize,
    /// Rows that hold only with a rule that is not in force yet.
    pub later: usize,
    /// Line and difference of each row that disagrees.
    pub faults: Vec<String>,
}

/// All files.
#[derive(Debug)]
pub struct Report {
    pub files: Vec<FileReport>,
}

impl Report {
    pub fn agreed(&self) -> usize {
        self.files.iter().map(|f| f.agreed).sum()
    }

    pub fn skipped(&self) -> usize {
        self.files.iter().map(|f| f.skipped).sum()
    }

    pub fn faults(&self) -> usize {
        self.files.iter().map(|f| f.faults.len()).sum()
    }
}

impl Display for Report {
    fn fmt(&self, f: &mut fmt::Formatter) -> fmt::Result {
        for file in &self.files {
            let FileReport {
                name,
                agreed,
                skipped,
                later,
                faults,
            } = file;
            let differ = faults.len();
            writeln!(
                f,
                "{name}: {agreed} agree, {skipped} skipped, {later} for later, {differ} differ"
            )?;
            for fault in &file.faults {
                writeln!(f, "  {fault}")?;
            }
        }
        Ok(())
    }
}

impl FileReport {
    fn new(name: &str) -> Self {
        FileReport {
            name: name.to_string(),
            agreed: 0,
            skipped: 0,
            later: 0,
            faults: Vec::new(),
        }
    }

    fn add(&mut self, line: usize, verdict: Verdict) {
        match verdict {
            Verdict::Agrees => self.agreed += 1,
            Verdict::Skipped => self.skipped += 1,
            Verdict::Later => self.later += 1,
            Verdict::Differs(how) => self.faults.push(format!("line {line}: {how}")),
        }
    }
}

type Runner = fn(&dyn Library, &Row) -> Verdict;

/// Rows with number and place.
const PLACES: Form = Form {
    ignored: 0,
    flags: 0,
    offsets: false,
};
/// Rows with number, place and offset.
const OFFSETS: Form = Form {
    offsets: true,
    ..PLACES
};
/// Rows with the flag `notes` first: 1 where records, samples and tracks hold notes, and reading
/// and writing a file keep them. Such a row holds when they do, and is left for later.
const NOTES: Form = Form {
    flags: 1,
    ..OFFSETS
};
/// Rows with `ctim` before `notes`: 1 where packing writes `ctim` boxes and the check judges them;
/// for later, too.
const CTIM_NOTES: Form = Form {
    flags: 2,
    ..OFFSETS
};
/// The same, of questions whose answers are the same for either `ctim`.
const ANY_CTIM_NOTES: Form = Form {
    ignored: 1,
    ..NOTES
};
/// Rows with `notes` first, of a question whose answers are the same for either.
const ANY_NOTES: Form = Form {
    ignored: 1,
    ..OFFSETS
};
const RUNNERS: [(&str, Form, Runner); 29] = [
    ("text.tsv", PLACES, run_text),
    ("sample.tsv", PLACES, run_sample),
    ("wvtt_entry.tsv", PLACES, run_wvtt_entry),
    ("list.tsv", PLACES, run_list),
    ("pack.tsv", PLACES, run_pack),
    ("track.tsv", PLACES, run_track),
    ("unpack.tsv", PLACES, run_unpack),
    ("check.tsv", PLACES, run_check),
    ("tx3g_entry.tsv", PLACES, run_tx3g_entry),
    ("tx3g_sample.tsv", PLACES, run_tx3g_sample),
    ("style.tsv", PLACES, run_style),
    ("tbox.tsv", PLACES, run_text_box),
    ("program.tsv", PLACES, run_program),
    ("02/text.tsv", OFFSETS, run_text_offsets),
    ("02/sample.tsv", NOTES, run_sample),
    ("02/wvtt_entry.tsv", OFFSETS, run_wvtt_entry),
    ("02/list.tsv", ANY_CTIM_NOTES, run_list),
    ("02/pack.tsv", CTIM_NOTES, run_pack),
    ("02/track.tsv", ANY_CTIM_NOTES, run_track),
    ("02/unpack.tsv", ANY_CTIM_NOTES, run_unpack),
    ("02/check.tsv", CTIM_NOTES, run_check),
    ("02/read_vtt.tsv", NOTES, run_read_vtt),
    ("02/write_vtt.tsv", NOTES, run_write_vtt),
    ("02/tx3g_entry.tsv", OFFSETS, run_tx3g_entry),
    ("02/tx3g_sample.tsv", OFFSETS, run_tx3g_blinking),
    ("02/convert_tx3g.tsv", ANY_NOTES, run_convert),
    ("02/read_settings.tsv", OFFSETS, run_read_settings),
    ("02/write_settings.tsv", OFFSETS, run_write_settings),
    ("02/profile.tsv", OFFSETS, run_profile),
];

/// Runs all rows, foreign tracks and foreign files below `dir`.
pub fn run_vectors(library: &dyn Library, dir: &Path) -> io::Result<Report> {
    let mut files = Vec::new();
    for (name, form, runner) in RUNNERS {
        files.push(run_file(library, dir, name, form, runner)?);
    }
    files.push(run_foreign(library, &dir.join("foreign"))?);
    files.push(run_foreign_programs(library, &dir.join("foreign/wvtt"))?);
    files.push(run_files(library, &dir.join("foreign/vtt"))?);
    files.push(run_old_tracks(library, &dir.join("foreign/tx3g"))?);
    Ok(Report { files })
}

fn run_file(
    library: &dyn Library,
    dir: &Path,
    name: &str,
    form: Form,
    run: Runner,
) -> io::Result<FileReport> {
    let mut report = FileReport::new(name);
    let rows = fs::read_to_string(dir.join(name))?;
    for (index, line) in rows.lines().enumerate() {
        let verdict = match Row::parse(line, form) {
            Some(row) if row.later => Verdict::Later,
            Some(row) => run(library, &row),
            None => Verdict::Differs("not a row".to_string()),
        };
        report.add(index + 1, verdict);
    }
    Ok(report)
}

/// Compares an offered answer with the expected one.
fn compare<T: PartialEq + Debug>(got: Option<T>, expected: T) -> Verdict {
    match got {
        None => Skipped,
        Some(got) if got == expected => Agrees,
        Some(got) => Verdict::Differs(format!("got {got:?}, expected {expected:?}")),
    }
}

/// As [`compare`], for answers that may be refusals; an offset only where it is expected.
fn compare_judged<T: PartialEq + Debug, E: Into<Refused>>(
    got: Option<Result<T, E>>,
    expected: Result<T, Refused>,
) -> Verdict {
    let no_offset = matches!(expected, Err(Refused { offset: None, .. }));
    let seen = |refusal: E| {
        let refused = refusal.into();
        let offset = refused.offset.filter(|_| !no_offset);
        Refused { offset, ..refused }
    };
    compare(got.map(|answer| answer.map_err(seen)), expected)
}

/// Both verdicts as one; a row is skipped only where both are.
fn both(first: Verdict, second: Verdict) -> Verdict {
    match (first, second) {
        (Verdict::Differs(how), _) | (_, Verdict::Differs(how)) => Verdict::Differs(how),
        (Skipped, Skipped) => Skipped,
        _ => Agrees,
    }
}

fn run_text(library: &dyn Library, row: &Row) -> Verdict {
    let text = row.bytes(0);
    let good = |judged: Option<Result<(), Refusal>>| judged.map(|answer| answer.is_ok());
    let expected = |at: usize| row.answers[at] == "1";
    let utf8 = compare(good(library.judge_utf8(&text)), expected(0));
    let identifier = compare(good(library.judge_identifier(&text)), expected(1));
    let payload = compare(good(library.judge_payload(&text)), expected(2));
    both(both(utf8, identifier), payload)
}

/// The offset or `-` for a good text by each rule. A note has the payload's.
fn run_text_offsets(library: &dyn Library, row: &Row) -> Verdict {
    let text = row.bytes(0);
    let characters = library.characters(&text);
    let judged = [
        library.judge_utf8(&text),
        library.judge_identifier(&text),
        library.judge_payload(&text),
        library.judge_configuration(&text),
        library.judge_label(&text),
        library.judge_payload(&text),
        characters.map(|count| count.map(drop)),
    ];
    assert_eq!(row.answers.len(), judged.len(), "one answer for each rule");
    let verdicts = judged.into_iter().zip(&row.answers).map(|(got, &field)| {
        let expected = match field {
            "-" => Ok(()),
            offset => Err(Refusal::bad_text(0, number(offset) as usize)),
        };
        compare(got, expected)
    });
    verdicts.fold(Skipped, both)
}

fn run_profile(library: &dyn Library, row: &Row) -> Verdict {
    let got = library.judge_profile(&row.bytes(0));
    compare_judged(got, row.judged().0)
}

fn run_sample(library: &dyn Library, row: &Row) -> Verdict {
    let sample = row.bytes(0);
    let (expected, more) = row.judged();
    let judged = compare_judged(library.judge_sample(&sample), expected);
    let field = |cues: Vec<Cue>| cue_field(&sample, &cues);
    let cues = library.cues(&sample).map(|cues| cues.map(field));
    let expected = expected.map(|()| more[0].to_string());
    both(judged, compare_judged(cues, expected))
}

/// Cues as `ID:identifier:settings:payload`, joined by `,`.
fn cue_field(sample: &[u8], cues: &[Cue]) -> String {
    let field = |cue: &Cue| {
        let id = cue.id.map_or("-".to_string(), |id| id.to_string());
        let [identifier, settings, payload] =
            [cue.identifier, cue.settings, cue.payload].map(|part| hex(part.of(sample)));
        format!("{id}:{identifier}:{settings}:{payload}")
    };
    if cues.is_empty() {
        return ".".to_string();
    }
    cues.iter().map(field).collect::<Vec<_>>().join(",")
}

fn run_wvtt_entry(library: &dyn Library, row: &Row) -> Verdict {
    let got = library.read_wvtt_entry(&row.bytes(0));
    compare_judged(only_judged(got), row.judged().0)
}

/// An answer without what was read.
fn only_judged<T, E>(got: Option<Result<T, E>>) -> Option<Result<(), E>> {
    got.map(|answer| answer.map(drop))
}

fn run_list(library: &dyn Library, row: &Row) -> Verdict {
    let (records, pool) = (row.bytes(2), row.bytes(3));
    let got = library.judge_list(row.time(0), row.time(1), &records, &pool);
    compare_judged(got, row.judged().0)
}

const UNTOUCHED: u8 = 0xA5;

/// Whether a lent output begins with the result and is untouched after it.
fn holds(out: &[u8], result: &[u8]) -> bool {
    out.starts_with(result) && out[result.len()..].iter().all(|&b| b == UNTOUCHED)
}

/// A count and two lengths.
type Sizes = (u64, usize, usize);

/// The count and the two outputs that a row gives. Where it gives only records and a pool, the
/// count is the records'.
fn results(more: &[&str]) -> (u64, [Vec<u8>; 2]) {
    match *more {
        [records, pool] => {
            let records = bytes(records);
            ((records.len() / RECORD) as u64, [records, bytes(pool)])
        }
        _ => (number(more[0]), [bytes(more[1]), bytes(more[2])]),
    }
}

/// Compares a count and two written outputs with a row's.
fn compare_written(got: Option<Result<Sizes, Refusal>>, outputs: [&[u8]; 2], row: &Row) -> Verdict {
    let (expected, more) = row.judged();
    let (count, wanted) = match expected {
        Ok(()) => results(more),
        Err(_) => Default::default(),
    };
    let expected = expected.map(|()| (count, wanted[0].len(), wanted[1].len()));
    let written = holds(outputs[0], &wanted[0]) && holds(outputs[1], &wanted[1]);
    let written = compare(got.map(|_| written), true);
    both(compare_judged(got, expected), written)
}

fn run_pack(library: &dyn Library, row: &Row) -> Verdict {
    let (records, pool) = (row.bytes(2), row.bytes(3));
    let mut table = vec![UNTOUCHED; row.size(4)];
    let mut samples = vec![UNTOUCHED; row.size(5)];
    let (scale, t) = (row.time(0), row.time(1));
    let sizes = |p: Packed| (u64::from(p.samples), p.table_bytes, p.sample_bytes);
    let got = library.pack(scale, t, &records, &pool, &mut table, &mut samples);
    let got = got.map(|packed| packed.map(sizes));
    let room = library.pack_room(scale, t, &records, &pool);
    let room = compare_room(room.map(|room| room.map(sizes)), row);
    both(compare_written(got, [&table, &samples], row), room)
}

/// Compares a room with a row: where there is none for its result, the room is past the row's.
fn compare_room(got: Option<Result<Sizes, Refusal>>, row: &Row) -> Verdict {
    let (expected, more) = row.judged();
    match expected {
        Ok(()) => {
            let (count, [first, second]) = results(more);
            compare_judged(got, Ok((count, first.len(), second.len())))
        }
        Err(refused) if refused.number == NO_ROOM => {
            let rooms = row.inputs.len() - 2;
            let (first, second) = (row.size(rooms), row.size(rooms + 1));
            let short = |(_, a, b): Sizes| {
                if a > first {
                    0
                } else {
                    1 + usize::from(b <= second)
                }
            };
            compare_judged(got.map(|room| room.map(short)), Ok(refused.place))
        }
        Err(refused) => compare_judged(only_judged(got), Err(refused)),
    }
}

fn run_track(library: &dyn Library, row: &Row) -> Verdict {
    let got = library.judge_track(&row.bytes(0), &row.bytes(1));
    compare_judged(got, row.judged().0)
}

fn run_unpack(library: &dyn Library, row: &Row) -> Verdict {
    let (table, samples) = (row.bytes(1), row.bytes(2));
    let mut records = vec![UNTOUCHED; row.size(3)];
    let mut pool = vec![UNTOUCHED; row.size(4)];
    let sizes = |u: Unpacked| (u64::from(u.t), u.record_bytes, u.pool_bytes);
    let got = library.unpack(row.time(0), &table, &samples, &mut records, &mut pool);
    let got = got.map(|unpacked| unpacked.map(sizes));
    let room = library.unpack_room(row.time(0), &table, &samples);
    let room = compare_room(room.map(|room| room.map(sizes)), row);
    both(compare_written(got, [&records, &pool], row), room)
}

fn run_read_vtt(library: &dyn Library, row: &Row) -> Verdict {
    let file = row.bytes(0);
    let mut records = vec![UNTOUCHED; row.size(1)];
    let mut pool = vec![UNTOUCHED; row.size(2)];
    let sizes = |r: VttRead| (r.cues as u64, r.record_bytes, r.pool_bytes);
    let got = library.read_vtt(&file, &mut records, &mut pool);
    let got = got.map(|read| read.map(sizes));
    let room = library.read_vtt_room(&file);
    let room = compare_room(room.map(|room| room.map(sizes)), row);
    both(compare_written(got, [&records, &pool], row), room)
}

fn run_write_vtt(library: &dyn Library, row: &Row) -> Verdict {
    let [configuration, records, pool] = [0, 1, 2].map(|input| row.bytes(input));
    let mut file = vec![UNTOUCHED; row.size(3)];
    let got = nameless(library.write_vtt(&configuration, &records, &pool, &mut file));
    let room = nameless(library.write_vtt_room(&configuration, &records, &pool));
    let (expected, more) = row.judged();
    let wanted = expected.map_or(Vec::new(), |()| bytes(more[0]));
    let answer = compare_judged(got, expected.map(|()| wanted.len()));
    let written = compare(got.map(|_| holds(&file, &wanted)), true);
    let room = match expected {
        Err(refused) if refused.number == NO_ROOM => {
            let past = |bytes: usize| bytes > file.len();
            compare_judged(room.map(|room| room.map(past)), Ok(true))
        }
        _ => compare_judged(room, expected.map(|()| wanted.len())),
    };
    both(both(answer, written), room)
}

fn run_check(library: &dyn Library, row: &Row) -> Verdict {
    let [records, pool, table, samples] = [2, 3, 4, 5].map(|input| row.bytes(input));
    let got = library.check(row.time(0), row.time(1), &records, &pool, &table, &samples);
    compare_judged(nameless(got), row.judged().0)
}

/// An answer without who is at fault, which rows of lists and tracks do not give.
fn nameless<T>(got: Option<Result<T, Fault>>) -> Option<Result<T, Refusal>> {
    got.map(|answer| answer.map_err(|fault| fault.refusal))
}

fn run_tx3g_entry(library: &dyn Library, row: &Row) -> Verdict {
    let got = library.read_tx3g_entry(&row.bytes(0));
    compare_judged(only_judged(got), row.judged().0)
}

fn run_tx3g_sample(library: &dyn Library, row: &Row) -> Verdict {
    let got = tx3g_characters(library, &row.bytes(0), &row.bytes(1));
    let (expected, more) = row.tx3g_judged();
    compare_judged(got, expected.map(|()| number(more[0]) as usize))
}

fn tx3g_characters(
    library: &dyn Library,
    entry: &[u8],
    sample: &[u8],
) -> Option<Result<usize, Fault>> {
    let read = library.read_tx3g_sample(entry, sample);
    read.map(|answer| answer.map(|sample| sample.characters))
}

/// Behind a flag: 1 where `blnk` is retired. A row of the time before says nothing of it.
fn run_tx3g_blinking(library: &dyn Library, row: &Row) -> Verdict {
    let retired = row.inputs[0] == "1";
    let read = library.read_tx3g_sample(&row.bytes(1), &row.bytes(2));
    let told = |sample: Tx3gSample| (sample.characters, retired && sample.retired_blinking);
    let got = read.map(|answer| answer.map(told));
    let (expected, more) = row.tx3g_judged();
    let given = (number(more[0]) as usize, more[1] == "1");
    compare_judged(got, expected.map(|()| given))
}

fn run_style(library: &dyn Library, row: &Row) -> Verdict {
    let got = library.style(&row.bytes(0), &row.bytes(1), row.size(2));
    let (expected, more) = row.tx3g_judged();
    let expected = expected.map(|()| bytes(more[0]));
    compare_judged(got.map(|style| style.map(|s| s.to_vec())), expected)
}

fn run_text_box(library: &dyn Library, row: &Row) -> Verdict {
    let (entry, sample) = (row.bytes(0), row.bytes(1));
    let got = library.text_box(&entry, &sample);
    let got = got.map(|found| found.map(|b| (b.who, b.offset, b.bytes.to_vec(), b.sides)));
    let (expected, more) = row.tx3g_judged();
    let expected = expected.map(|()| {
        let (who, offset) = (who(more[0]), number(more[1]) as usize);
        let whole = if who == Who::Entry { &entry } else { &sample };
        let bytes = whole[offset..offset + 8].to_vec();
        let side = |at: usize| i16::from_be_bytes([bytes[at], bytes[at + 1]]);
        let sides = [0, 2, 4, 6].map(side);
        (who, offset, bytes, sides)
    });
    compare_judged(got, expected)
}

fn run_program(library: &dyn Library, row: &Row) -> Verdict {
    let (records, pool) = (row.file(1), row.file(2));
    let got = library.program(&row.bytes(0), records.as_deref(), pool.as_deref());
    compare(got, bytes(row.answers[0]))
}
