//! The cues of a good list in ticks, and the cues that run at a tick.

use crate::list::{records, MOST_RECORDS};
use crate::time::tick;

/// The ticks of a good list.
pub(crate) struct Timeline {
    count: usize,
    /// Start ticks in list order, which never fall.
    starts: [u32; MOST_RECORDS],
    /// End ticks in list order.
    ends: [u32; MOST_RECORDS],
    /// End ticks in rising order.
    sorted_ends: [u32; MOST_RECORDS],
    /// T's tick.
    pub end: u32,
}

impl Timeline {
    pub fn new(scale: u32, t: u32, list: &[u8]) -> Self {
        let ticks = |ms| tick(scale, ms) as u32;
        let mut starts = [0; MOST_RECORDS];
        let mut ends = [0; MOST_RECORDS];
        for (index, record) in records(list).enumerate() {
            starts[index] = ticks(record.start);
            ends[index] = ticks(record.end);
        }
        let count = records(list).len();
        let mut sorted_ends = ends;
        sorted_ends[..count].sort_unstable();
        Timeline {
            count,
            starts,
            ends,
            sorted_ends,
            end: ticks(t),
        }
    }

    /// Calls `visit` with duration and cues of each stretch between neighbouring cuts.
    pub fn stretches(&self, mut visit: impl FnMut(u32, &[u16])) {
        let mut running = Running::new(self);
        let mut begin = 0;
        while begin < self.end {
            running.move_to(begin);
            let end = running.next_cut();
            visit(end - begin, running.cues());
            begin = end;
        }
    }
}

/// The cues that run at a tick; it only moves forward.
pub(crate) struct Running<'a> {
    line: &'a Timeline,
    /// How many cues have started.
    started: usize,
    /// How many cues have ended.
    ended: usize,
    /// The running cues' indices in list order.
    cues: [u16; MOST_RECORDS],
    len: usize,
}

impl<'a> Running<'a> {
    pub fn new(line: &'a Timeline) -> Self {
        Running {
            line,
            started: 0,
            ended: 0,
            cues: [0; MOST_RECORDS],
            len: 0,
        }
    }

    /// Moves forward to `tick`.
    pub fn move_to(&mut self, tick: u32) {
        self.drop_ended(tick);
        let line = self.line;
        let fresh = line.starts[self.started..line.count]
            .iter()
            .take_while(|&&start| start <= tick)
            .count();
        for index in self.started..self.started + fresh {
            if line.ends[index] > tick {
                self.cues[self.len] = index as u16;
                self.len += 1;
            }
        }
        self.started += fresh;
    }

    fn drop_ended(&mut self, tick: u32) {
        let line = self.line;
        let gone = line.sorted_ends[self.ended..line.count]
            .iter()
            .take_while(|&&end| end <= tick)
            .count();
        if gone == 0 {
            return;
        }
        self.ended += gone;
        let mut kept = 0;
        for from in 0..self.len {
            let index = self.cues[from];
            self.cues[kept] = index;
            kept += usize::from(line.ends[usize::from(index)] > tick);
        }
        self.len = kept;
    }

    /// The running cues in list order.
    pub fn cues(&self) -> &[u16] {
        &self.cues[..self.len]
    }

    /// The first cut after the tick moved to.
    pub fn next_cut(&self) -> u32 {
        let line = self.line;
        let start = line.starts[..line.count].get(self.started);
        let end = line.sorted_ends[..line.count].get(self.ended);
        let cut = start.into_iter().chain(end).copied().min();
        cut.unwrap_or(line.end).min(line.end)
    }
}
