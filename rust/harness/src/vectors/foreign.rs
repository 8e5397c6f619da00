//! Foreign tracks.

use std::path::Path;
use std::{fs, io};

use captions_model::track::samples;
use captions_model::wvtt::Cue;

use super::{both, compare, compare_judged, nameless, only_judged, tx3g_characters};
use super::{FileReport, Verdict};
use crate::library::Library;
use crate::rows::{judged, number, tx3g_judged};

/// A foreign track's files.
pub(super) struct Foreign {
    pub entry: Vec<u8>,
    pub table: Vec<u8>,
    pub samples: Vec<u8>,
}

impl Foreign {
    pub fn read(dir: &Path) -> io::Result<Self> {
        Ok(Foreign {
            entry: fs::read(dir.join("entry.bin"))?,
            table: fs::read(dir.join("table.bin"))?,
            samples: fs::read(dir.join("samples.bin"))?,
        })
    }

    fn sample(&self, index: usize) -> &[u8] {
        let found = samples(&self.table, &self.samples).nth(index);
        found.map_or(&[], |(_, sample)| sample)
    }
}

pub(super) fn run_foreign(library: &dyn Library, dir: &Path) -> io::Result<FileReport> {
    let mut report = FileReport::new("foreign/answers.tsv");
    let rows = fs::read_to_string(dir.join("answers.tsv"))?;
    for (index, line) in rows.lines().enumerate() {
        let fields: Vec<&str> = line.split('\t').collect();
        let track_dir = dir.join(fields[0]).join(fields[1]);
        let track = Foreign::read(&track_dir)?;
        let verdict = match (fields[0], fields[2]) {
            (_, "check") => run_foreign_check(library, &track_dir, &track, &fields[3..])?,
            ("wvtt", asked) => run_foreign_wvtt(library, &track, asked, &fields[3..]),
            (_, asked) => run_foreign_tx3g(library, &track, asked, &fields[3..]),
        };
        report.add(index + 1, verdict);
    }
    Ok(report)
}

/// The index in `sample 3`.
fn sample_index(asked: &str) -> Option<usize> {
    asked
        .strip_prefix("sample ")
        .map(|index| number(index) as usize)
}

fn run_foreign_wvtt(
    library: &dyn Library,
    track: &Foreign,
    asked: &str,
    answers: &[&str],
) -> Verdict {
    let (expected, more) = judged(answers, false);
    match (asked, sample_index(asked)) {
        ("entry", _) => {
            let got = library.read_wvtt_entry(&track.entry);
            compare_judged(only_judged(got), expected)
        }
        ("track", _) => {
            let got = library.judge_track(&track.table, &track.samples);
            compare_judged(got, expected)
        }
        (_, Some(index)) => {
            let sample = track.sample(index);
            let judged = compare_judged(library.judge_sample(sample), expected);
            let expected = expected.map(|()| number(more[0]));
            let count = |cues: Vec<Cue>| cues.len() as u64;
            let count = library.cues(sample).map(|cues| cues.map(count));
            both(judged, compare_judged(count, expected))
        }
        _ => Verdict::Differs(format!("unknown question {asked}")),
    }
}

fn run_foreign_tx3g(
    library: &dyn Library,
    track: &Foreign,
    asked: &str,
    answers: &[&str],
) -> Verdict {
    let Some(index) = sample_index(asked) else {
        let got = library.read_tx3g_entry(&track.entry);
        return compare_judged(only_judged(got), judged(answers, false).0);
    };
    let (expected, more) = tx3g_judged(answers, false);
    let got = tx3g_characters(library, &track.entry, track.sample(index));
    compare_judged(got, expected.map(|()| number(more[0]) as usize))
}

fn run_foreign_check(
    library: &dyn Library,
    dir: &Path,
    track: &Foreign,
    answers: &[&str],
) -> io::Result<Verdict> {
    let input = fs::read_to_string(dir.join("input.txt"))?;
    let Some((scale, t)) = input.trim_end().split_once(' ') else {
        return Ok(Verdict::Differs(format!("bad input line {input:?}")));
    };
    let (records, pool) = (
        fs::read(dir.join("cues.rec"))?,
        fs::read(dir.join("cues.pool"))?,
    );
    let (scale, t) = (number(scale) as u32, number(t) as u32);
    let got = library.check(scale, t, &records, &pool, &track.table, &track.samples);
    Ok(compare_judged(nameless(got), judged(answers, false).0))
}

/// The program's output for the cue list beside each `wvtt` track that is packing's own.
pub(super) fn run_foreign_programs(library: &dyn Library, dir: &Path) -> io::Result<FileReport> {
    let mut report = FileReport::new("foreign/wvtt/*/expect.txt");
    let tracks: io::Result<Vec<_>> = fs::read_dir(dir)?.map(|d| d.map(|d| d.path())).collect();
    let mut tracks = tracks?;
    tracks.retain(|track| !track.to_string_lossy().ends_with("-honest"));
    tracks.sort();
    for (index, track) in tracks.iter().enumerate() {
        let read = |name: &str| fs::read(track.join(name));
        let (input, expected) = (read("input.txt")?, read("expect.txt")?);
        let (records, pool) = (read("cues.rec")?, read("cues.pool")?);
        let got = library.program(&input, Some(&records), Some(&pool));
        report.add(index + 1, compare(got, expected));
    }
    Ok(report)
}
