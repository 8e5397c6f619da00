//! Which cues stand beside each other.

use captions::{CueListRef, ListedCue};

/// A lane for each cue, the first that is free when it starts, and how many there are.
pub fn lanes(list: CueListRef) -> (Vec<usize>, usize) {
    let mut ends: Vec<u32> = Vec::new();
    let lanes = list.iter().map(|cue| lane(&mut ends, &cue)).collect();
    (lanes, ends.len())
}

/// The first lane whose last cue has ended, or another one behind them.
fn lane(ends: &mut Vec<u32>, cue: &ListedCue) -> usize {
    let free = ends.iter().position(|&end| end <= cue.start_ms);
    let lane = free.unwrap_or(ends.len());
    if free.is_none() {
        ends.push(0);
    }
    ends[lane] = cue.end_ms;
    lane
}

#[cfg(test)]
mod tests {
    use super::*;
    use captions::CueList;

    #[test]
    fn a_cue_takes_the_first_free_lane() {
        let mut list = CueList::new();
        for (start_ms, end_ms) in [(0, 5), (1, 2), (1, 9), (2, 3), (5, 6), (5, 7)] {
            let cue = ListedCue {
                start_ms,
                end_ms,
                ..Default::default()
            };
            list.push_auto(cue).expect("it fits");
        }
        assert_eq!(lanes(list.view()), (vec![0, 1, 2, 1, 0, 1], 3));
        assert_eq!(lanes(CueList::new().view()), (vec![], 0));
    }
}
