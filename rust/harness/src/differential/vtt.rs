//! WebVTT files.

use captions_model::list::{records, Record, MOST_RECORDS, RECORD};
use captions_model::vtt::{comes_back, write_room};
use captions_model::Refusal;

use super::outputs::{Outputs, Written};
use super::{counted, show, Compared, Pair};
use crate::generate as make;
use crate::generate::VttParts;
use crate::library::{Library, Offered};
use crate::random::Random;

/// A file's room, then reading with exactly that, with a byte less of either, with none and with
/// any.
pub(super) fn compare_file(pair: &mut Pair, random: &mut Random) -> Compared {
    let file = make::vtt_file(random);
    pair.judge("read_vtt_room", &[&file], |l| l.read_vtt_room(&file))?;
    let need = captions_model::vtt::room(&file);
    let [records, pool] = need.map_or([0, 0], |r| [r.record_bytes, r.pool_bytes]);
    let any = [records, pool].map(|n| make::room(random, n));
    for rooms in [
        [records, pool],
        [records.saturating_sub(1), pool],
        [records, pool.saturating_sub(1)],
        [0, 0],
        any,
    ] {
        compare_reading(pair, &file, rooms)?;
    }
    Ok(())
}

fn compare_reading(pair: &mut Pair, file: &[u8], rooms: [usize; 2]) -> Compared {
    let input = || show(&rooms.map(|room| room as u64), &[file]);
    let ask = |l: &dyn Library| {
        let mut out = Outputs::new(rooms);
        let [records, pool] = &mut out.0;
        let answer = l.read_vtt(file, records, pool)?;
        Some(Written::new(answer, out, |r| {
            [r.record_bytes, r.pool_bytes]
        }))
    };
    pair.write("read_vtt", input, ask)
}

/// What writing needs, then writing with exactly that, with a byte less, with none and with any;
/// then what each library reads in its own file.
pub(super) fn compare_writing(pair: &mut Pair, random: &mut Random) -> Compared {
    let parts = make::vtt_parts(random);
    let VttParts {
        configuration,
        records,
        pool,
    } = &parts;
    let inputs = parts.inputs();
    pair.judge("write_vtt_room", &inputs, |l| {
        l.write_vtt_room(configuration, records, pool)
    })?;
    let need = write_room(configuration, records, pool);
    let exact = need.unwrap_or(0);
    let any = make::room(random, exact);
    for room in [exact, exact.saturating_sub(1), 0, any] {
        let input = || show(&[room as u64], &inputs);
        let ask = |l: &dyn Library| {
            let mut out = Outputs::new([room, 0]);
            let answer = l.write_vtt(configuration, records, pool, &mut out.0[0])?;
            Some(Written::new(answer, out, |&bytes| [bytes, 0]))
        };
        pair.write("write_vtt", input, ask)?;
    }
    need.map_or(Ok(()), |room| compare_again(pair, &parts, room))
}

/// Records and pool.
type List = (Vec<u8>, Vec<u8>);

/// Compares what is read in the file that was written. Where the cues are sure to come back, they
/// do.
fn compare_again(pair: &mut Pair, parts: &VttParts, room: usize) -> Compared {
    let operation = "read_written_vtt";
    let input = || show(&[], &parts.inputs());
    let ask = |l: &dyn Library| read_again(l, parts, room);
    let read = pair.common(operation, input, ask, counted)?;
    let sure = comes_back(&parts.configuration, &parts.records, &parts.pool);
    let expected = Ok(dense(&parts.records, &parts.pool));
    match read {
        Some(read) if sure && read != expected => {
            let (read, expected) = (format!("{read:?}"), format!("{expected:?}"));
            Err(pair.difference(operation, input(), read, expected))
        }
        _ => Ok(()),
    }
}

/// Writes good parts and reads the file.
fn read_again(
    library: &dyn Library,
    parts: &VttParts,
    room: usize,
) -> Offered<Result<List, Refusal>> {
    let [configuration, records, pool] = parts.inputs();
    let mut file = vec![0; room];
    let written = library.write_vtt(configuration, records, pool, &mut file)?;
    let file = &file[..written.ok()?];
    let (mut records, mut pool) = (vec![0; RECORD * MOST_RECORDS], vec![0; room]);
    let read = library.read_vtt(file, &mut records, &mut pool)?;
    Some(read.map(|read| {
        records.truncate(read.record_bytes);
        pool.truncate(read.pool_bytes);
        (records, pool)
    }))
}

/// A good list with IDs counted from 0 and its texts end to end.
fn dense(list: &[u8], pool: &[u8]) -> List {
    let (mut dense, mut texts) = (Vec::new(), Vec::new());
    for (id, record) in (0..).zip(records(list)) {
        let offset = texts.len() as u32;
        dense.extend(
            Record {
                id,
                offset,
                ..record
            }
            .to_bytes(),
        );
        let from = record.offset as usize;
        texts.extend(&pool[from..from + record.text_len()]);
    }
    (dense, texts)
}
