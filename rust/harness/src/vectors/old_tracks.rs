//! Foreign tracks of 3GPP text as cues.

use std::path::Path;
use std::{fs, io};

use captions_model::list::{records, Record, MOST_RECORDS, RECORD};
use captions_model::tx3g::{Converted, DroppedBoxes};
use captions_model::{Fault, Refusal, Who};

use super::foreign::Foreign;
use super::{compare, FileReport};
use crate::library::{Library, Offered};
use crate::rows::number;

/// Every track, at the scale in its `scale.txt` and without its samples of duration 0, against the
/// answer in its `converted.txt`.
pub(super) fn run_old_tracks(library: &dyn Library, dir: &Path) -> io::Result<FileReport> {
    let mut report = FileReport::new("foreign/tx3g/*/converted.txt");
    let tracks: io::Result<Vec<_>> = fs::read_dir(dir)?.map(|d| d.map(|d| d.path())).collect();
    let mut tracks = tracks?;
    tracks.sort();
    for (index, dir) in tracks.iter().enumerate() {
        let scale = fs::read_to_string(dir.join("scale.txt"))?;
        let got = convert(
            library,
            number(scale.trim_end()) as u32,
            &Foreign::read(dir)?,
        );
        let expected = fs::read_to_string(dir.join("converted.txt"))?;
        report.add(index + 1, compare(got, expected));
    }
    Ok(report)
}

/// Drops, converts, and shows the answer.
fn convert(library: &dyn Library, scale: u32, track: &Foreign) -> Offered<String> {
    let Foreign {
        entry,
        table,
        samples,
    } = track;
    let (mut rows, mut bytes) = (vec![0; table.len()], vec![0; samples.len()]);
    let dropped = library.drop_zero_durations(table, samples, &mut rows, &mut bytes)?;
    let dropped = match dropped {
        Ok(dropped) => dropped,
        Err(refusal) => return Some(show_refusal("dropping", refusal)),
    };
    let (rows, bytes) = (&rows[..dropped.table_bytes], &bytes[..dropped.sample_bytes]);
    // Escapes and tags make a text longer.
    let (mut list, mut pool) = (vec![0; RECORD * MOST_RECORDS], vec![0; 30 * bytes.len()]);
    let answer = library.convert_tx3g(scale, entry, rows, bytes, &mut list, &mut pool)?;
    Some(show(answer, &list, &pool))
}

/// An answer as a file has it: T, what was left out and a line for each cue, or one for the refusal.
fn show(answer: Result<Converted, Fault>, list: &[u8], pool: &[u8]) -> String {
    let made = match answer {
        Ok(made) => made,
        Err(Fault { who, refusal }) => return show_refusal(show_who(who), refusal),
    };
    let (list, pool) = (&list[..made.record_bytes], &pool[..made.pool_bytes]);
    let cues: String = records(list)
        .map(|record| show_cue(&record, pool))
        .collect();
    format!("T {}{}\n{cues}", made.t, show_dropped(made.dropped))
}

fn show_who(who: Who) -> &'static str {
    match who {
        Who::Entry => "entry",
        Who::Track => "track",
        _ => "other",
    }
}

fn show_refusal(who: &str, refusal: Refusal) -> String {
    let Refusal {
        number,
        place,
        offset,
    } = refusal;
    format!("{who} refused {number} {place} {offset}\n")
}

/// The kinds of which there were any.
fn show_dropped(dropped: DroppedBoxes) -> String {
    let counts = [
        (dropped.hlit, "hlit"),
        (dropped.retired_blinking, "retired blinking"),
        (dropped.hclr, "hclr"),
        (dropped.krok, "krok"),
        (dropped.dlay, "dlay"),
        (dropped.href, "href"),
        (dropped.tbox, "tbox"),
        (dropped.twrp, "twrp"),
    ];
    let any = counts.iter().filter(|(count, _)| *count > 0);
    any.map(|(count, kind)| format!(", {count} {kind}"))
        .collect()
}

/// ID, start, end and payload, with `\n` for its line ends.
fn show_cue(record: &Record, pool: &[u8]) -> String {
    let Record { id, start, end, .. } = record;
    let payload = record.texts(pool).unwrap_or_default().payload;
    let payload = String::from_utf8_lossy(payload).replace('\n', "\\n");
    format!("{id}\t{start}\t{end}\t{payload}\n")
}
