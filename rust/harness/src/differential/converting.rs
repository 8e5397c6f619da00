//! Tracks of 3GPP text as cues, and samples of duration 0.

use captions_model::Fault;

use super::outputs::{Outputs, Written};
use super::{counted, show, Compared, Pair};
use crate::generate as make;
use crate::generate::{Track, Tx3gTrack};
use crate::library::{Library, Offered};
use crate::random::Random;

/// Rooms for two outputs: exactly what is needed, a byte less of either, none, and any.
fn rooms(random: &mut Random, need: [usize; 2]) -> [[usize; 2]; 5] {
    let [first, second] = need;
    [
        need,
        [first.saturating_sub(1), second],
        [first, second.saturating_sub(1)],
        [0, 0],
        need.map(|n| make::room(random, n)),
    ]
}

/// What converting needs, then converting with every kind of room; then what each library reads in
/// the file that it writes of its list.
pub(super) fn compare_conversion(pair: &mut Pair, random: &mut Random) -> Compared {
    let given = make::tx3g_track(random);
    let Tx3gTrack {
        scale,
        entry,
        track: Track { table, samples },
    } = &given;
    let inputs: [&[u8]; 3] = [entry, table, samples];
    let input = || show(&[(*scale).into()], &inputs);
    let ask = |l: &dyn Library| l.convert_tx3g_room(*scale, entry, table, samples);
    pair.ask("convert_tx3g_room", input, ask, counted)?;
    let need = captions_model::tx3g::convert_room(*scale, entry, table, samples);
    let need = need.map_or([0, 0], |c| [c.record_bytes, c.pool_bytes]);
    for rooms in rooms(random, need) {
        let numbers = [u64::from(*scale), rooms[0] as u64, rooms[1] as u64];
        let input = || show(&numbers, &inputs);
        let ask = |l: &dyn Library| {
            let mut out = Outputs::new(rooms);
            let [records, pool] = &mut out.0;
            let answer = l.convert_tx3g(*scale, entry, table, samples, records, pool)?;
            Some(Written::new(answer, out, |c| {
                [c.record_bytes, c.pool_bytes]
            }))
        };
        pair.write("convert_tx3g", input, ask)?;
    }
    compare_file(pair, &given, need)
}

/// Records and pool.
type List = (Vec<u8>, Vec<u8>);

/// A list that was converted, and the one that is read in the file that was written of it.
fn there_and_back(
    library: &dyn Library,
    given: &Tx3gTrack,
    need: [usize; 2],
) -> Offered<Result<(List, List), Fault>> {
    let Tx3gTrack {
        scale,
        entry,
        track: Track { table, samples },
    } = given;
    let [mut records, mut pool] = need.map(|room| vec![0; room]);
    let made = library.convert_tx3g(*scale, entry, table, samples, &mut records, &mut pool)?;
    if let Err(fault) = made {
        return Some(Err(fault));
    }
    let header = b"WEBVTT";
    let room = library.write_vtt_room(header, &records, &pool)?.ok()?;
    let mut file = vec![0; room];
    let written = library.write_vtt(header, &records, &pool, &mut file)?;
    let (mut again, mut texts) = (vec![0; need[0]], vec![0; need[1]]);
    let read = library.read_vtt(&file[..written.ok()?], &mut again, &mut texts)?;
    read.ok()?;
    Some(Ok(((records, pool), (again, texts))))
}

/// The list of a track is written as a file, and reading it gives the same list.
fn compare_file(pair: &mut Pair, given: &Tx3gTrack, need: [usize; 2]) -> Compared {
    let Track { table, samples } = &given.track;
    let input = || show(&[given.scale.into()], &[&given.entry, table, samples]);
    let ask = |l: &dyn Library| there_and_back(l, given, need);
    match pair.common("converted_vtt", input, ask, counted)? {
        Some(Ok((made, read))) if made != read => {
            let (made, read) = (format!("{made:?}"), format!("{read:?}"));
            Err(pair.difference("converted_vtt", input(), made, read))
        }
        _ => Ok(()),
    }
}

/// What dropping needs, then dropping with every kind of room.
pub(super) fn compare_dropping(pair: &mut Pair, random: &mut Random) -> Compared {
    let Track { table, samples } = make::zero_durations(random);
    let inputs: [&[u8]; 2] = [&table, &samples];
    pair.judge("drop_zero_durations_room", &inputs, |l| {
        l.drop_zero_durations_room(&table, &samples)
    })?;
    let need = captions_model::lasting::room(&table, &samples);
    let need = need.map_or([0, 0], |d| [d.table_bytes, d.sample_bytes]);
    for rooms in rooms(random, need) {
        let input = || show(&rooms.map(|room| room as u64), &inputs);
        let ask = |l: &dyn Library| {
            let mut out = Outputs::new(rooms);
            let [rows, bytes] = &mut out.0;
            let answer = l.drop_zero_durations(&table, &samples, rows, bytes)?;
            Some(Written::new(answer, out, |d| {
                [d.table_bytes, d.sample_bytes]
            }))
        };
        pair.write("drop_zero_durations", input, ask)?;
    }
    Ok(())
}
