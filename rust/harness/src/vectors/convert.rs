//! Rows of converted tracks.

use captions_model::list::RECORD;
use captions_model::number::NO_ROOM;
use captions_model::tx3g::{Converted, DroppedBoxes};
use captions_model::Who;

use super::{both, compare, compare_judged, holds, Verdict, UNTOUCHED};
use crate::library::Library;
use crate::rows::{bytes, number, Judged, Refused, Row};

/// Converting with the row's rooms, and the room that it needs.
pub(super) fn run_convert(library: &dyn Library, row: &Row) -> Verdict {
    let scale = row.time(0);
    let [entry, table, samples] = [1, 2, 3].map(|input| row.bytes(input));
    let [mut records, mut pool] = [4, 5].map(|input| vec![UNTOUCHED; row.size(input)]);
    let rooms = [records.len(), pool.len()];
    let got = library.convert_tx3g(scale, &entry, &table, &samples, &mut records, &mut pool);
    let (expected, more) = judged(row);
    let wanted = expected.map_or(Default::default(), |()| [bytes(more[1]), bytes(more[2])]);
    let written = holds(&records, &wanted[0]) && holds(&pool, &wanted[1]);
    let written = compare(got.map(|_| written), true);
    let room = library.convert_tx3g_room(scale, &entry, &table, &samples);
    let room = match expected {
        Err(refused) if refused.number == NO_ROOM => {
            let short = |room: Converted| lacking(room, rooms);
            compare_judged(room.map(|room| room.map(short)), Ok(Some(refused.place)))
        }
        _ => compare_judged(room, expected.map(|()| converted(more))),
    };
    let answer = compare_judged(got, expected.map(|()| converted(more)));
    both(both(answer, written), room)
}

/// The refusal, which names the entry or nobody, and the answers behind it. Whose fault it is
/// where no entry is named goes by the number.
fn judged<'a, 'b>(row: &'a Row<'b>) -> (Judged, &'a [&'b str]) {
    let (judged, more) = row.judged_after(1);
    let named = |refused: Refused| {
        let who = match (row.answers[0], refused.number) {
            ("entry", _) => Who::Entry,
            (_, NO_ROOM) => Who::Output,
            _ => Who::Track,
        };
        let who = Some(who);
        Refused { who, ..refused }
    };
    (judged.map_err(named), more)
}

/// T, records and pool, and the boxes that were left out.
fn converted(more: &[&str]) -> Converted {
    let count = |at: usize| number(more[at]) as usize;
    let (record_bytes, pool_bytes) = (bytes(more[1]).len(), bytes(more[2]).len());
    Converted {
        cues: record_bytes / RECORD,
        record_bytes,
        pool_bytes,
        t: number(more[0]) as u32,
        dropped: DroppedBoxes {
            hlit: count(3),
            retired_blinking: count(4),
            hclr: count(5),
            krok: count(6),
            dlay: count(7),
            href: count(8),
            tbox: count(9),
            twrp: count(10),
        },
    }
}

/// Which of two rooms is too short first.
fn lacking(room: Converted, rooms: [usize; 2]) -> Option<usize> {
    let needed = [room.record_bytes, room.pool_bytes];
    needed
        .iter()
        .zip(rooms)
        .position(|(&need, room)| need > room)
}
