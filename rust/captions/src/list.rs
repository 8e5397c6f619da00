//! Cue lists.

use std::iter::FusedIterator;

use crate::bytes::{be16, be32, text};
use crate::limits::RECORD_BYTES;
use crate::refusal::judged;
use crate::{ffi, Reason, Refusal};

/// Judges a cue list of 24-byte records and their pool on the timeline of `t` ms.
/// Refused: 1, 6, 8 to 12; the place is the record's index, 0 for the whole.
pub fn judge_list(scale: u32, t: u32, records: &[u8], pool: &[u8]) -> Result<(), Refusal> {
    // SAFETY: pointers and lengths of slices.
    let answer = unsafe {
        ffi::captions_judge_list(
            scale,
            t,
            records.as_ptr(),
            records.len(),
            pool.as_ptr(),
            pool.len(),
        )
    };
    judged(answer)
}

/// A cue of a list. No identifier and an empty one are alike, as with settings.
#[derive(Clone, Copy, Debug, Default, PartialEq, Eq, Hash)]
pub struct ListedCue<'a> {
    /// The source ID, distinct in a list.
    pub id: u32,
    /// When it starts, in milliseconds.
    pub start_ms: u32,
    /// When it ends, in milliseconds.
    pub end_ms: u32,
    /// The cue's name.
    pub identifier: &'a str,
    /// The cue's settings.
    pub settings: &'a str,
    /// What is shown.
    pub payload: &'a str,
}

impl ListedCue<'_> {
    /// Its record, with texts from `offset` of a pool on; none where a length does not fit.
    fn record(&self, offset: usize) -> Option<[u8; RECORD_BYTES]> {
        let mut record = [0; RECORD_BYTES];
        let offset = u32::try_from(offset).ok()?;
        for (at, number) in [self.id, self.start_ms, self.end_ms, offset]
            .into_iter()
            .enumerate()
        {
            record[4 * at..][..4].copy_from_slice(&number.to_be_bytes());
        }
        let texts = [self.identifier, self.settings, self.payload];
        for (at, text) in texts.into_iter().enumerate() {
            let length = u16::try_from(text.len()).ok()?;
            record[16 + 2 * at..][..2].copy_from_slice(&length.to_be_bytes());
        }
        Some(record)
    }
}

/// A cue list that owns its records and their pool. It need not be good: packing and
/// [`judge`](CueList::judge) say whether it is.
///
/// ```
/// use captions::{CueList, ListedCue};
///
/// let mut list = CueList::new();
/// let cue = ListedCue { start_ms: 0, end_ms: 900, payload: "Hi", ..Default::default() };
/// assert_eq!(list.push_auto(cue)?, 1);
/// assert_eq!(list.push_auto(ListedCue { start_ms: 900, end_ms: 1000, ..cue })?, 2);
/// list.judge(90_000, 1000)?;
/// let texts: Vec<&str> = list.iter().map(|cue| cue.payload).collect();
/// assert_eq!(texts, ["Hi", "Hi"]);
/// # Ok::<(), captions::Refusal>(())
/// ```
#[derive(Clone, Debug, Default, PartialEq, Eq)]
pub struct CueList {
    /// Whole records, whose texts lie in the pool and are UTF-8.
    records: Vec<u8>,
    pool: Vec<u8>,
    /// The largest ID, 0 without cues.
    largest: u32,
}

impl CueList {
    /// A list without cues.
    pub fn new() -> Self {
        CueList::default()
    }

    /// A list from records and their pool, judged on the timeline of `t` ms. Refused: as
    /// [`judge_list`].
    pub fn from_parts(
        scale: u32,
        t: u32,
        records: Vec<u8>,
        pool: Vec<u8>,
    ) -> Result<Self, Refusal> {
        judge_list(scale, t, &records, &pool)?;
        Ok(CueList::from_good(records, pool))
    }

    /// A list from records and a pool that are known to be good.
    pub(crate) fn from_good(records: Vec<u8>, pool: Vec<u8>) -> Self {
        let ids = records.chunks_exact(RECORD_BYTES);
        let largest = ids.map(|record| be32(record, 0)).max().unwrap_or(0);
        CueList {
            records,
            pool,
            largest,
        }
    }

    /// Puts a cue at the end. Refused: 9, place its index, where a text's length or its place in
    /// the pool does not fit the record; nothing is added then.
    pub fn push(&mut self, cue: ListedCue<'_>) -> Result<(), Refusal> {
        let Some(record) = cue.record(self.pool.len()) else {
            return Err(Refusal {
                reason: Reason::PastLimit,
                place: self.len(),
                offset: 0,
            });
        };
        self.records.extend(record);
        self.largest = self.largest.max(cue.id);
        for text in [cue.identifier, cue.settings, cue.payload] {
            self.pool.extend(text.as_bytes());
        }
        Ok(())
    }

    /// As [`push`](CueList::push), with one more than the largest ID of the list for the cue's
    /// ID, 1 at first; gives the ID.
    pub fn push_auto(&mut self, cue: ListedCue<'_>) -> Result<u32, Refusal> {
        let id = self.largest.saturating_add(1);
        self.push(ListedCue { id, ..cue })?;
        Ok(id)
    }

    /// Judges the list on the timeline of `t` ms. Refused: as [`judge_list`].
    pub fn judge(&self, scale: u32, t: u32) -> Result<(), Refusal> {
        judge_list(scale, t, &self.records, &self.pool)
    }

    /// The number of cues.
    pub fn len(&self) -> usize {
        self.view().len()
    }

    /// Whether there is no cue.
    pub fn is_empty(&self) -> bool {
        self.records.is_empty()
    }

    /// The cues in order.
    pub fn iter(&self) -> ListedCues<'_> {
        self.view().iter()
    }

    /// The records, 24 bytes each.
    pub fn records(&self) -> &[u8] {
        &self.records
    }

    /// The texts of the records.
    pub fn pool(&self) -> &[u8] {
        &self.pool
    }

    /// The records and their pool.
    pub fn into_parts(self) -> (Vec<u8>, Vec<u8>) {
        (self.records, self.pool)
    }

    /// The list, borrowed.
    pub fn view(&self) -> CueListRef<'_> {
        CueListRef {
            records: &self.records,
            pool: &self.pool,
        }
    }
}

impl<'a> IntoIterator for &'a CueList {
    type Item = ListedCue<'a>;
    type IntoIter = ListedCues<'a>;

    fn into_iter(self) -> ListedCues<'a> {
        self.iter()
    }
}

/// A cue list over lent records and their pool.
///
/// ```
/// let record = b"\0\0\0\x07\0\0\0\0\0\0\x03\xE8\0\0\0\0\0\0\0\0\0\x02\0\0";
/// let list = captions::CueListRef::read(90_000, 1000, record, b"Hi")?;
/// let cue = list.iter().next().expect("a cue");
/// assert_eq!((cue.id, cue.end_ms, cue.payload), (7, 1000, "Hi"));
/// # Ok::<(), captions::Refusal>(())
/// ```
#[derive(Clone, Copy, Debug, PartialEq, Eq)]
pub struct CueListRef<'a> {
    /// Whole records, whose texts lie in the pool and are UTF-8.
    records: &'a [u8],
    pool: &'a [u8],
}

impl<'a> CueListRef<'a> {
    /// Judges a list on the timeline of `t` ms. Refused: as [`judge_list`].
    pub fn read(scale: u32, t: u32, records: &'a [u8], pool: &'a [u8]) -> Result<Self, Refusal> {
        judge_list(scale, t, records, pool)?;
        Ok(CueListRef { records, pool })
    }

    /// The number of cues.
    pub fn len(self) -> usize {
        self.records.len() / RECORD_BYTES
    }

    /// Whether there is no cue.
    pub fn is_empty(self) -> bool {
        self.records.is_empty()
    }

    /// The cues in order.
    pub fn iter(self) -> ListedCues<'a> {
        ListedCues { rest: self }
    }

    /// The records, 24 bytes each.
    pub fn records(self) -> &'a [u8] {
        self.records
    }

    /// The texts of the records.
    pub fn pool(self) -> &'a [u8] {
        self.pool
    }
}

impl<'a> From<&'a CueList> for CueListRef<'a> {
    fn from(list: &'a CueList) -> Self {
        list.view()
    }
}

impl From<CueListRef<'_>> for CueList {
    fn from(list: CueListRef<'_>) -> Self {
        CueList::from_good(list.records.to_vec(), list.pool.to_vec())
    }
}

impl<'a> IntoIterator for CueListRef<'a> {
    type Item = ListedCue<'a>;
    type IntoIter = ListedCues<'a>;

    fn into_iter(self) -> ListedCues<'a> {
        self.iter()
    }
}

/// The cues of a list; see [`CueList::iter`].
#[derive(Clone, Debug)]
pub struct ListedCues<'a> {
    rest: CueListRef<'a>,
}

impl<'a> Iterator for ListedCues<'a> {
    type Item = ListedCue<'a>;

    fn next(&mut self) -> Option<ListedCue<'a>> {
        let (record, rest) = self.rest.records.split_at_checked(RECORD_BYTES)?;
        self.rest.records = rest;
        let mut at = be32(record, 12) as usize;
        let mut next_text = |length: usize| {
            let from = at;
            at += usize::from(be16(record, length));
            // SAFETY: the texts of a list's records lie in its pool and are UTF-8: `push` put
            // strings there, or the list was judged, and a list without fault has no other texts
            // (crate `cues`, `judgeList`).
            unsafe { text(self.rest.pool, from..at) }
        };
        Some(ListedCue {
            identifier: next_text(16),
            settings: next_text(18),
            payload: next_text(20),
            id: be32(record, 0),
            start_ms: be32(record, 4),
            end_ms: be32(record, 8),
        })
    }

    fn size_hint(&self) -> (usize, Option<usize>) {
        (self.rest.len(), Some(self.rest.len()))
    }
}

impl ExactSizeIterator for ListedCues<'_> {}
impl FusedIterator for ListedCues<'_> {}

#[cfg(test)]
mod tests {
    use super::*;

    const CUE: ListedCue = ListedCue {
        id: 7,
        start_ms: 1,
        end_ms: 0x0102_0304,
        identifier: "i",
        settings: "line:1",
        payload: "é",
    };

    #[test]
    fn a_list_gives_back_what_was_pushed() {
        let mut list = CueList::new();
        let second = ListedCue { payload: "", ..CUE };
        list.push(CUE).expect("it fits");
        list.push(second).expect("it fits");
        assert_eq!(list.push_auto(CUE), Ok(8));
        assert_eq!(list.len(), 3);
        let mut cues = list.iter();
        assert_eq!(cues.len(), 3);
        assert_eq!(cues.next(), Some(CUE));
        assert_eq!(cues.next(), Some(second));
        assert_eq!(cues.next(), Some(ListedCue { id: 8, ..CUE }));
        assert_eq!((cues.next(), cues.next()), (None, None));
        assert_eq!(&list.records()[12..24], b"\0\0\0\0\0\x01\0\x06\0\x02\0\0");
        assert_eq!(list.pool(), "iline:1éiline:1iline:1é".as_bytes());
    }

    #[test]
    fn a_text_that_does_not_fit_is_not_added() {
        let mut list = CueList::new();
        list.push(CUE).expect("it fits");
        let before = list.clone();
        let long = "a".repeat(65_536);
        let refused = list.push(ListedCue {
            settings: &long,
            ..CUE
        });
        let refused = refused.expect_err("its length does not fit");
        assert_eq!(refused.to_string(), "refused 9 1: a limit passed");
        assert_eq!(list, before);
    }
}
