//! Tracks that own their bytes, and tracks in lent ones.

use std::iter::FusedIterator;

use super::pack::{check, judge_track, pack_to_vecs, unpack_to_vecs};
use super::sample::{Cues, Sample};
use crate::bytes::be32;
use crate::limits::ROW_BYTES;
use crate::{CueList, CueListRef, Fault, Refusal};

/// A track without fault: a table of durations and sizes, and the samples back to back.
///
/// ```
/// use captions::wvtt::Track;
/// use captions::{CueList, ListedCue};
///
/// # fn main() -> Result<(), Box<dyn std::error::Error>> {
/// let mut list = CueList::new();
/// list.push(ListedCue { id: 7, start_ms: 500, end_ms: 1000, payload: "Hi", ..Default::default() })?;
/// let track = Track::pack(90_000, 1000, &list)?;
/// for sample in track.samples() {
///     for cue in sample.cues() {
///         assert_eq!((sample.start_tick, sample.duration, cue.payload), (45_000, 45_000, "Hi"));
///     }
/// }
/// assert_eq!(track.unpack(90_000)?, (list, 1000));
/// # Ok(())
/// # }
/// ```
#[derive(Clone, Debug, PartialEq, Eq)]
pub struct Track {
    table: Vec<u8>,
    samples: Vec<u8>,
}

impl Track {
    /// Packs a cue list at a scale in ticks a second, on a timeline of `t` ms. Refused: as
    /// [`judge_list`](crate::judge_list).
    pub fn pack<'a>(scale: u32, t: u32, list: impl Into<CueListRef<'a>>) -> Result<Self, Refusal> {
        let list = list.into();
        let (table, samples) = pack_to_vecs(scale, t, list.records(), list.pool())?;
        Ok(Track { table, samples })
    }

    /// A track from its table and its samples. Refused: as [`judge_track`].
    pub fn from_parts(table: Vec<u8>, samples: Vec<u8>) -> Result<Self, Refusal> {
        judge_track(&table, &samples)?;
        Ok(Track { table, samples })
    }

    /// Unpacks the track; gives the list and T in milliseconds. Refused: as
    /// [`unpack_room`](super::unpack_room).
    pub fn unpack(&self, scale: u32) -> Result<(CueList, u32), Refusal> {
        self.view().unpack(scale)
    }

    /// Checks that the track shows the list's cues at every tick. Refused: as [`check`].
    pub fn check<'a>(
        &self,
        scale: u32,
        t: u32,
        list: impl Into<CueListRef<'a>>,
    ) -> Result<(), Fault> {
        self.view().check(scale, t, list)
    }

    /// The samples in order.
    pub fn samples(&self) -> TrackSamples<'_> {
        self.view().samples()
    }

    /// The number of samples.
    pub fn len(&self) -> usize {
        self.view().len()
    }

    /// How many ticks the track lasts: the sum of the durations.
    pub fn ticks(&self) -> u64 {
        self.view().ticks()
    }

    /// Whether there is no sample.
    pub fn is_empty(&self) -> bool {
        self.table.is_empty()
    }

    /// The table: duration and size of each sample, four bytes each.
    pub fn table(&self) -> &[u8] {
        &self.table
    }

    /// The bytes of all samples.
    pub fn sample_bytes(&self) -> &[u8] {
        &self.samples
    }

    /// The table and the bytes of all samples.
    pub fn into_parts(self) -> (Vec<u8>, Vec<u8>) {
        (self.table, self.samples)
    }

    /// The track as one in lent bytes.
    pub fn view(&self) -> TrackRef<'_> {
        TrackRef {
            table: &self.table,
            samples: &self.samples,
        }
    }
}

impl<'a> IntoIterator for &'a Track {
    type Item = TrackSample<'a>;
    type IntoIter = TrackSamples<'a>;

    fn into_iter(self) -> TrackSamples<'a> {
        self.samples()
    }
}

/// A track without fault in lent bytes.
///
/// ```
/// let table = [0, 0, 0, 9, 0, 0, 0, 8];
/// let track = captions::wvtt::TrackRef::read(&table, b"\0\0\0\x08vtte")?;
/// let sample = track.samples().next().expect("a sample");
/// assert_eq!((track.ticks(), sample.cues().count()), (9, 0));
/// # Ok::<(), captions::Refusal>(())
/// ```
#[derive(Clone, Copy, Debug, PartialEq, Eq)]
pub struct TrackRef<'a> {
    table: &'a [u8],
    samples: &'a [u8],
}

impl<'a> TrackRef<'a> {
    /// Judges a track. Refused: as [`judge_track`].
    pub fn read(table: &'a [u8], samples: &'a [u8]) -> Result<Self, Refusal> {
        judge_track(table, samples)?;
        Ok(TrackRef { table, samples })
    }

    /// As [`Track::unpack`].
    pub fn unpack(self, scale: u32) -> Result<(CueList, u32), Refusal> {
        let (records, pool, t) = unpack_to_vecs(scale, self.table, self.samples)?;
        Ok((CueList::from_good(records, pool), t))
    }

    /// As [`Track::check`].
    pub fn check<'b>(
        self,
        scale: u32,
        t: u32,
        list: impl Into<CueListRef<'b>>,
    ) -> Result<(), Fault> {
        let (list, TrackRef { table, samples }) = (list.into(), self);
        check(scale, t, list.records(), list.pool(), table, samples)
    }

    /// The samples in order.
    pub fn samples(self) -> TrackSamples<'a> {
        let TrackRef { table, samples } = self;
        TrackSamples {
            table,
            samples,
            tick: 0,
        }
    }

    /// The number of samples.
    pub fn len(self) -> usize {
        self.samples().len()
    }

    /// How many ticks the track lasts: the sum of the durations.
    pub fn ticks(self) -> u64 {
        let durations = self.samples().map(|sample| u64::from(sample.duration));
        durations.sum()
    }

    /// Whether there is no sample.
    pub fn is_empty(self) -> bool {
        self.table.is_empty()
    }

    /// The table: duration and size of each sample, four bytes each.
    pub fn table(self) -> &'a [u8] {
        self.table
    }

    /// The bytes of all samples.
    pub fn sample_bytes(self) -> &'a [u8] {
        self.samples
    }
}

impl<'a> From<&'a Track> for TrackRef<'a> {
    fn from(track: &'a Track) -> Self {
        track.view()
    }
}

impl From<TrackRef<'_>> for Track {
    fn from(track: TrackRef<'_>) -> Self {
        Track {
            table: track.table.to_vec(),
            samples: track.samples.to_vec(),
        }
    }
}

impl<'a> IntoIterator for TrackRef<'a> {
    type Item = TrackSample<'a>;
    type IntoIter = TrackSamples<'a>;

    fn into_iter(self) -> TrackSamples<'a> {
        self.samples()
    }
}

/// A sample of a track and its time.
#[derive(Clone, Copy, Debug, PartialEq, Eq, Hash)]
pub struct TrackSample<'a> {
    /// The tick at which it begins.
    pub start_tick: u64,
    /// How many ticks it lasts.
    pub duration: u32,
    /// What it holds.
    pub sample: Sample<'a>,
}

impl<'a> TrackSample<'a> {
    /// The sample's bytes.
    pub fn bytes(&self) -> &'a [u8] {
        self.sample.bytes()
    }

    /// The sample's cues from left to right.
    pub fn cues(&self) -> Cues<'a> {
        self.sample.cues()
    }
}

/// The samples of a track; see [`Track::samples`].
#[derive(Clone, Debug)]
pub struct TrackSamples<'a> {
    /// What is left of a track without fault, and its tick.
    table: &'a [u8],
    samples: &'a [u8],
    tick: u64,
}

impl<'a> Iterator for TrackSamples<'a> {
    type Item = TrackSample<'a>;

    fn next(&mut self) -> Option<TrackSample<'a>> {
        let (row, table) = self.table.split_at_checked(ROW_BYTES)?;
        let (duration, size) = (be32(row, 0), be32(row, 4));
        // The sizes of a track without fault use up its samples, and each of these is good.
        let (sample, samples) = self.samples.split_at(size as usize);
        let start_tick = self.tick;
        let tick = start_tick + u64::from(duration);
        *self = TrackSamples {
            table,
            samples,
            tick,
        };
        Some(TrackSample {
            start_tick,
            duration,
            sample: Sample::of_good(sample),
        })
    }

    fn size_hint(&self) -> (usize, Option<usize>) {
        let left = self.table.len() / ROW_BYTES;
        (left, Some(left))
    }
}

impl ExactSizeIterator for TrackSamples<'_> {}
impl FusedIterator for TrackSamples<'_> {}
