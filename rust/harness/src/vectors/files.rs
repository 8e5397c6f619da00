//! Foreign WebVTT files.

use std::path::Path;
use std::{fs, io};

use captions_model::list::{records, Record, MOST_RECORDS, RECORD};
use captions_model::vtt::Read as VttRead;
use captions_model::Refusal;

use super::{both, compare, FileReport, Verdict};
use crate::library::Library;

/// Every file `NAME.vtt` against the answer in `NAME.txt`.
pub(super) fn run_files(library: &dyn Library, dir: &Path) -> io::Result<FileReport> {
    let mut report = FileReport::new("foreign/vtt/*.vtt");
    let paths: io::Result<Vec<_>> = fs::read_dir(dir)?.map(|d| d.map(|d| d.path())).collect();
    let mut paths = paths?;
    paths.retain(|path| path.extension().is_some_and(|e| e == "vtt"));
    paths.sort();
    for (index, path) in paths.iter().enumerate() {
        let expected = fs::read_to_string(path.with_extension("txt"))?;
        report.add(index + 1, run_one(library, &fs::read(path)?, &expected));
    }
    Ok(report)
}

/// Both functions: what is written, and the room for it.
fn run_one(library: &dyn Library, file: &[u8], expected: &str) -> Verdict {
    let room = library.read_vtt_room(file);
    let (mut list, mut pool) = (vec![0; RECORD * MOST_RECORDS], vec![0; file.len()]);
    let got = library.read_vtt(file, &mut list, &mut pool);
    let same = got.map_or(Verdict::Skipped, |got| compare(room, got));
    let shown = got.map(|answer| show(answer, &list, &pool));
    both(compare(shown, expected.to_string()), same)
}

/// An answer as a file has it: a line for each cue, or one for the refusal.
fn show(answer: Result<VttRead, Refusal>, list: &[u8], pool: &[u8]) -> String {
    match answer {
        Ok(read) => {
            let (list, pool) = (&list[..read.record_bytes], &pool[..read.pool_bytes]);
            records(list)
                .map(|record| show_cue(&record, pool))
                .collect()
        }
        Err(Refusal {
            number,
            place,
            offset,
        }) => format!("refused {number} {place} {offset}\n"),
    }
}

/// ID, start, end, identifier, settings and payload, with `\n` for its line ends.
fn show_cue(record: &Record, pool: &[u8]) -> String {
    let Record { id, start, end, .. } = record;
    let texts = record.texts(pool).unwrap_or_default();
    let texts = [texts.identifier, texts.settings, texts.payload];
    let [identifier, settings, payload] = texts.map(String::from_utf8_lossy);
    let payload = payload.replace('\n', "\\n");
    format!("{id}\t{start}\t{end}\t{identifier}\t{settings}\t{payload}\n")
}
