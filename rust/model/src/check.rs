//! Checking a foreign track against a cue list.

use crate::list::{judge_list, Record, RECORD};
use crate::number::DIFFERS;
use crate::timeline::{Running, Timeline};
use crate::track::{judge_track, samples, table_records};
use crate::{ensure, fault, wvtt, Fault, Refusal, Who};

/// Checks that the track shows the list's cues at every tick from 0 to T.
pub fn check(
    scale: u32,
    t: u32,
    list: &[u8],
    pool: &[u8],
    table: &[u8],
    sample_bytes: &[u8],
) -> Result<(), Fault> {
    judge_list(scale, t, list, pool).map_err(fault(Who::List))?;
    check_track(scale, t, list, pool, table, sample_bytes).map_err(fault(Who::Track))
}

/// Judges the track and compares it with a good list.
fn check_track(
    scale: u32,
    t: u32,
    list: &[u8],
    pool: &[u8],
    table: &[u8],
    sample_bytes: &[u8],
) -> Result<(), Refusal> {
    judge_track(table, sample_bytes)?;
    let line = Timeline::new(scale, t, list);
    let mut running = Running::new(&line);
    let list = list.as_chunks().0;
    let last = u64::from(line.end);
    let mut begin = 0u64;
    for (index, (duration, sample)) in samples(table, sample_bytes).enumerate() {
        let end = begin + u64::from(duration);
        ensure(end <= last, DIFFERS, index)?;
        running.move_to(begin as u32);
        // Every cut changes what runs, so no sample reaches over one.
        let uncut = end <= u64::from(running.next_cut());
        let good = uncut && holds(sample, running.cues(), list, pool);
        ensure(good, DIFFERS, index)?;
        begin = end;
    }
    ensure(begin == last, DIFFERS, table_records(table).len())
}

/// Whether the sample holds exactly these cues in this order.
fn holds(sample: &[u8], running: &[u16], list: &[[u8; RECORD]], pool: &[u8]) -> bool {
    let mut cues = wvtt::cues(sample);
    let all = running.iter().all(|&index| {
        let record = Record::read(&list[usize::from(index)]);
        cues.next()
            .is_some_and(|cue| is_cue(sample, cue, &record, pool))
    });
    all && cues.next().is_none()
}

fn is_cue(sample: &[u8], cue: wvtt::Cue, record: &Record, pool: &[u8]) -> bool {
    cue.id == Some(record.id) && record.texts(pool) == Some(cue.texts(sample))
}
