//! Cue lists.

use captions::limits::{LARGEST_ID, LARGEST_MS, LARGEST_SCALE, LONGEST_LINE, LONGEST_PAYLOAD};
use captions::limits::{MOST_CUES, RECORD_BYTES};
use captions::wvtt::{judge_identifier, judge_payload};
use captions::{judge_list, tick, Reason, Refusal};

use super::text::{bad_text, too_long, Rule};
use crate::bytes::{be16, be32};
use crate::files::List;
use crate::shown::count;
use crate::time::Clock;

/// The kind of a refusal's place in a list, and what is wrong there.
pub fn in_list(list: &List, scale: u32, t: u32, refusal: &Refusal) -> (&'static str, String) {
    let rows = list.records.chunks_exact(RECORD_BYTES);
    let left_over = rows.remainder().len();
    if judge_list(scale, t, &[], &[]).is_err() {
        return ("place", in_times(scale, t));
    }
    if left_over != 0 {
        let has = count(left_over, "byte");
        let what = format!("the last record has {has} of its {RECORD_BYTES}");
        return ("place", what);
    }
    if rows.len() > MOST_CUES {
        return (
            "place",
            format!("the list has more than {MOST_CUES} records"),
        );
    }
    let record = Record::of(list, refusal.place);
    (
        "record",
        record.map_or(refusal.reason.to_string(), |record| {
            record.says(list, scale, t, refusal)
        }),
    )
}

/// What is wrong with a scale or a timeline.
pub fn in_times(scale: u32, t: u32) -> String {
    if !(1..=LARGEST_SCALE).contains(&scale) {
        return format!("the scale is {scale} ticks a second; it is 1 to {LARGEST_SCALE}");
    }
    if !(1..=LARGEST_MS).contains(&t) {
        return format!("T is {t} ms; it is 1 to {LARGEST_MS}");
    }
    let tick = tick(scale, t);
    format!(
        "T is tick {tick} at scale {scale}; a track lasts 1 to {} ticks",
        u32::MAX
    )
}

/// A record whose texts may lie outside the pool.
struct Record<'a> {
    bytes: &'a [u8],
}

impl<'a> Record<'a> {
    fn of(list: &'a List, index: usize) -> Option<Self> {
        let bytes = list.records.chunks_exact(RECORD_BYTES).nth(index)?;
        Some(Record { bytes })
    }

    fn id(&self) -> u32 {
        be32(self.bytes, 0)
    }

    fn start(&self) -> u32 {
        be32(self.bytes, 4)
    }

    fn end(&self) -> u32 {
        be32(self.bytes, 8)
    }

    /// The three texts: name, rule, limit, and where each stands in the pool.
    fn texts(&self) -> [(&'static str, Rule, usize, std::ops::Range<usize>); 3] {
        let mut at = be32(self.bytes, 12) as usize;
        let rows = [
            ("identifier", Rule::Line, LONGEST_LINE),
            ("settings", Rule::Line, LONGEST_LINE),
            ("payload", Rule::Payload, LONGEST_PAYLOAD),
        ];
        let mut field = 16;
        rows.map(|(name, rule, limit)| {
            let from = at;
            at += usize::from(be16(self.bytes, field));
            field += 2;
            (name, rule, limit, from..at)
        })
    }

    fn says(&self, list: &List, scale: u32, t: u32, refusal: &Refusal) -> String {
        match refusal.reason {
            Reason::BytesMissing => self.past_pool(list),
            Reason::BadText => self.bad_text(list, refusal.offset),
            Reason::BadValue => self.bad_value(),
            Reason::PastLimit => self.too_long(),
            Reason::BadTime => self.bad_time(scale, t),
            Reason::BadOrder => self.early(list, refusal.place),
            Reason::IdTwice => self.twice(list, refusal.place),
            other => other.to_string(),
        }
    }

    fn past_pool(&self, list: &List) -> String {
        let [.., (_, _, _, payload)] = self.texts();
        let pool = list.pool.len();
        format!(
            "its texts end at byte {} of a pool of {pool} bytes",
            payload.end
        )
    }

    fn bad_text(&self, list: &List, offset: usize) -> String {
        let bad = self.texts().into_iter().find_map(|(name, rule, _, range)| {
            let text = list.pool.get(range)?;
            let judged = if rule == Rule::Payload {
                judge_payload(text)
            } else {
                judge_identifier(text)
            };
            judged.err().map(|_| bad_text(name, rule, text, offset))
        });
        bad.unwrap_or_else(|| Reason::BadText.to_string())
    }

    fn bad_value(&self) -> String {
        match self.id() {
            ..=LARGEST_ID => "its last two bytes are not zero".into(),
            id => format!("its ID is {id}; it is at most {LARGEST_ID}"),
        }
    }

    fn too_long(&self) -> String {
        let mut texts = self.texts().into_iter();
        let long = texts.find(|(_, _, limit, range)| range.len() > *limit);
        long.map_or(Reason::PastLimit.to_string(), |(name, _, limit, range)| {
            too_long(name, range.len(), limit)
        })
    }

    fn bad_time(&self, scale: u32, t: u32) -> String {
        let [start, end, last] = [self.start(), self.end(), t].map(|ms| Clock(ms.into()));
        if self.end() <= self.start() {
            return format!("it starts at {start} and ends at {end}, not after it");
        }
        if self.end() > t {
            return format!("it ends at {end}, after T, which is {last}");
        }
        let tick = tick(scale, self.start());
        format!("it lasts from {start} to {end}, less than a tick: both are tick {tick} at scale {scale}")
    }

    fn early(&self, list: &List, index: usize) -> String {
        let before = index
            .checked_sub(1)
            .and_then(|before| Record::of(list, before));
        let before = Clock(before.map_or(0, |record| record.start().into()));
        format!(
            "it starts at {}, before the record in front of it, which starts at {before}",
            Clock(self.start().into())
        )
    }

    fn twice(&self, list: &List, index: usize) -> String {
        let ids = (0..index).find(|&earlier| {
            Record::of(list, earlier).is_some_and(|record| record.id() == self.id())
        });
        format!(
            "its ID {} is record {}'s already",
            self.id(),
            ids.unwrap_or(0)
        )
    }
}

#[cfg(test)]
mod tests {
    use super::*;
    use captions::{CueList, ListedCue};

    const CUE: ListedCue = ListedCue {
        id: 7,
        start_ms: 1000,
        end_ms: 2000,
        identifier: "i",
        settings: "line:1",
        payload: "Hi",
    };

    fn list(cues: &[ListedCue]) -> List {
        let mut list = CueList::new();
        for &cue in cues {
            list.push(cue).expect("it fits");
        }
        let (records, pool) = list.into_parts();
        let header = None;
        List {
            records,
            pool,
            header,
        }
    }

    /// What is said about a list that the library refuses.
    fn said(list: &List, scale: u32, t: u32) -> String {
        let judged = judge_list(scale, t, &list.records, &list.pool);
        let refusal = judged.expect_err("a bad list");
        let (kind, what) = in_list(list, scale, t, &refusal);
        format!(
            "{} {kind} {}: {what}",
            refusal.reason.number(),
            refusal.place
        )
    }

    #[test]
    fn scale_and_timeline() {
        let one = list(&[CUE]);
        assert_eq!(
            said(&one, 0, 1),
            "10 place 0: the scale is 0 ticks a second; it is 1 to 1000000"
        );
        assert_eq!(
            said(&one, 1000, 0),
            "10 place 0: T is 0 ms; it is 1 to 359999999"
        );
        assert_eq!(
            said(&one, 1, 999),
            "10 place 0: T is tick 0 at scale 1; a track lasts 1 to 4294967295 ticks"
        );
        let long = "10 place 0: T is tick 359999999000 at scale 1000000; a track lasts 1 to 4294967295 ticks";
        assert_eq!(said(&one, 1_000_000, 359_999_999), long);
    }

    #[test]
    fn records_as_a_whole() {
        let mut cut = list(&[CUE]);
        cut.records.truncate(20);
        assert_eq!(
            said(&cut, 1000, 5000),
            "1 place 0: the last record has 20 bytes of its 24"
        );
        let many = list(&[CUE; 1025]);
        assert_eq!(
            said(&many, 1000, 5000),
            "9 place 0: the list has more than 1024 records"
        );
    }

    #[test]
    fn fields_of_a_record() {
        let (mut reserved, mut past) = (list(&[CUE, CUE]), list(&[CUE]));
        reserved.records[47] = 1;
        assert_eq!(
            said(&reserved, 1000, 5000),
            "8 record 1: its last two bytes are not zero"
        );
        past.pool.pop();
        assert_eq!(
            said(&past, 1000, 5000),
            "1 record 0: its texts end at byte 9 of a pool of 8 bytes"
        );
        let large = ListedCue { id: 1 << 31, ..CUE };
        let words = "8 record 0: its ID is 2147483648; it is at most 2147483647";
        assert_eq!(said(&list(&[large]), 1000, 5000), words);
        let twice = [CUE, ListedCue { id: 8, ..CUE }, CUE];
        assert_eq!(
            said(&list(&twice), 1000, 5000),
            "12 record 2: its ID 7 is record 0's already"
        );
    }

    #[test]
    fn texts_of_a_record() {
        let long = "a".repeat(256);
        let words = "9 record 0: the settings have 256 bytes; at most 255 are allowed";
        assert_eq!(
            said(
                &list(&[ListedCue {
                    settings: &long,
                    ..CUE
                }]),
                1000,
                5000
            ),
            words
        );
        let words = "9 record 0: the identifier has 256 bytes; at most 255 are allowed";
        assert_eq!(
            said(
                &list(&[ListedCue {
                    identifier: &long,
                    ..CUE
                }]),
                1000,
                5000
            ),
            words
        );
        let mut bad = list(&[CUE]);
        bad.pool[8] = 0xff;
        assert_eq!(
            said(&bad, 1000, 5000),
            "6 record 0: the payload's byte 1 is not UTF-8"
        );
        bad.pool[0] = b'\n';
        assert_eq!(
            said(&bad, 1000, 5000),
            "6 record 0: the identifier's byte 0 is a line end"
        );
    }

    #[test]
    fn times_of_a_record() {
        let time = |start_ms, end_ms| {
            list(&[ListedCue {
                start_ms,
                end_ms,
                ..CUE
            }])
        };
        let words = "10 record 0: it starts at 00:00:02.000 and ends at 00:00:01.000, not after it";
        assert_eq!(said(&time(2000, 1000), 1000, 5000), words);
        let words = "10 record 0: it ends at 00:00:05.001, after T, which is 00:00:05.000";
        assert_eq!(said(&time(2000, 5001), 1000, 5000), words);
        let words = "10 record 0: it lasts from 00:00:00.041 to 00:00:00.079, less than a tick: both are tick 1 at scale 25";
        assert_eq!(said(&time(41, 79), 25, 5000), words);
        let early = ListedCue {
            id: 8,
            start_ms: 999,
            ..CUE
        };
        let words = "11 record 1: it starts at 00:00:00.999, before the record in front of it, which starts at 00:00:01.000";
        assert_eq!(said(&list(&[CUE, early]), 1000, 5000), words);
    }
}
