//! Writing a cue list as a WebVTT file.

use super::{begins_with, lines, ARROW};
use crate::list::{judge_list, records, Record, Texts};
use crate::number::NO_ROOM;
use crate::text::configuration_fault;
use crate::time::MOST_MS;
use crate::{ensure, ensure_text, fault, Fault, Who};

/// The scale at which a list is judged, in ticks a second.
const SCALE: u32 = 1000;

/// Writes a configuration and a cue list as a WebVTT file, and gives its length.
pub fn write(
    configuration: &[u8],
    list: &[u8],
    pool: &[u8],
    out: &mut [u8],
) -> Result<usize, Fault> {
    let file = file_of(configuration, list, pool)?;
    let size = file.len();
    ensure(size <= out.len(), NO_ROOM, 0).map_err(fault(Who::Output))?;
    out[..size].copy_from_slice(&file);
    Ok(size)
}

/// What writing answers given room for everything.
pub fn write_room(configuration: &[u8], list: &[u8], pool: &[u8]) -> Result<usize, Fault> {
    file_of(configuration, list, pool).map(|file| file.len())
}

/// Whether reading the file of a configuration and a list is sure to give back the list's times
/// and texts in their order; both are good.
pub fn comes_back(configuration: &[u8], list: &[u8], pool: &[u8]) -> bool {
    let header = lines(configuration);
    let taken = header.first().is_some_and(|l| begins_with(l, b"WEBVTT"));
    let whole = header.iter().all(|line| !line.text.is_empty());
    let arrow = configuration.windows(3).any(|part| part == ARROW);
    let kept = |record: Record| record.texts(pool).is_some_and(texts_come_back);
    taken && whole && !arrow && records(list).all(kept)
}

fn texts_come_back(texts: Texts) -> bool {
    let Texts {
        settings, payload, ..
    } = texts;
    let edge = |byte: Option<&u8>| matches!(byte, Some(b' ' | b'\t' | b'\x0C'));
    !payload.contains(&b'\r') && !edge(settings.first()) && !edge(settings.last())
}

/// The file: the configuration, an empty line, and the cues with an empty line between them.
fn file_of(configuration: &[u8], list: &[u8], pool: &[u8]) -> Result<Vec<u8>, Fault> {
    let judged = ensure_text(configuration_fault(configuration), 0);
    judged.map_err(fault(Who::Configuration))?;
    let judged = judge_list(SCALE, MOST_MS as u32, list, pool);
    judged.map_err(fault(Who::List))?;
    let cues: Vec<Vec<u8>> = records(list).map(|record| cue(&record, pool)).collect();
    Ok([configuration, b"\n\n", &cues.join(&b'\n')].concat())
}

/// The lines of a cue with their ends; an empty text has no line.
fn cue(record: &Record, pool: &[u8]) -> Vec<u8> {
    let Texts {
        identifier,
        settings,
        payload,
    } = record.texts(pool).unwrap_or_default();
    let mut timing = format!("{} --> {}", time(record.start), time(record.end)).into_bytes();
    if !settings.is_empty() {
        timing.push(b' ');
        timing.extend(settings);
    }
    let lines = [identifier, &timing, payload].into_iter();
    let lines = lines.filter(|line| !line.is_empty());
    lines
        .flat_map(|line| [line, b"\n"])
        .flatten()
        .copied()
        .collect()
}

/// Milliseconds as `hh:mm:ss.mmm`.
fn time(ms: u32) -> String {
    let (seconds, minutes, hours) = (ms / 1000, ms / 60_000, ms / 3_600_000);
    let (seconds, minutes, ms) = (seconds % 60, minutes % 60, ms % 1000);
    format!("{hours:02}:{minutes:02}:{seconds:02}.{ms:03}")
}
