//! Runs of characters of one style.

use std::slice;

use crate::tx3g::{read_both, style_range, Entry, Sample, STYLE};
use crate::{Fault, Span};

/// Font, face, size and colour: a style without its range.
pub type Look = [u8; STYLE - 4];

/// The look of a style record.
pub fn look(style: &[u8; STYLE]) -> Look {
    let [_, _, _, _, look @ ..] = *style;
    look
}

/// Characters of one style, from `from` to before `end`.
#[derive(Clone, Copy, Debug, PartialEq, Eq)]
pub struct Run {
    pub from: usize,
    pub end: usize,
    pub look: Look,
}

/// The runs of a sample: its styles that hold a character, and between them the longest
/// stretches of characters that are in none.
pub fn runs<'a>(entry: &[u8], sample: &'a [u8]) -> Result<Runs<'a>, Fault> {
    let (entry, read) = read_both(entry, sample)?;
    Ok(runs_of(&entry, &read, sample))
}

/// As [`runs`], of what was read.
pub(crate) fn runs_of<'a>(entry: &Entry, read: &Sample, sample: &'a [u8]) -> Runs<'a> {
    Runs {
        styles: read.style_records(sample).iter(),
        default: look(&entry.style()),
        from: 0,
        characters: read.characters,
        waiting: None,
    }
}

/// See [`runs`].
#[derive(Clone)]
pub struct Runs<'a> {
    styles: slice::Iter<'a, [u8; STYLE]>,
    default: Look,
    from: usize,
    characters: usize,
    /// A style's run, behind a default one that was just given.
    waiting: Option<Run>,
}

impl Runs<'_> {
    /// The run of the next style that holds a character.
    fn next_styled(&mut self) -> Option<Run> {
        let style = self.styles.find(|style| {
            let (start, end) = style_range(style);
            start < end
        })?;
        let (start, end) = style_range(style);
        Some(Run {
            from: start.into(),
            end: end.into(),
            look: look(style),
        })
    }
}

impl Iterator for Runs<'_> {
    type Item = Run;

    fn next(&mut self) -> Option<Run> {
        let styled = self.waiting.take().or_else(|| self.next_styled());
        let (from, look) = (self.from, self.default);
        match styled {
            Some(run) if run.from == from => {
                self.from = run.end;
                styled
            }
            _ => {
                let end = styled.map_or(self.characters, |run| run.from);
                self.waiting = styled;
                self.from = end;
                (from < end).then_some(Run { from, end, look })
            }
        }
    }
}

/// A run, and what stands behind it.
#[derive(Clone, Copy, Debug, PartialEq, Eq)]
pub struct RunAt {
    pub range: Span,
    /// None for the default style.
    pub look: Option<Look>,
    /// The styles behind the run: how many, and where the first stands.
    pub styles: usize,
    pub styles_from: usize,
}

/// The run from character `k` on, of `styles` style records from a byte of the sample on, which
/// may be any. Records past the sample are none.
pub fn next_run(
    sample: &[u8],
    styles: usize,
    styles_from: usize,
    k: usize,
    characters: usize,
) -> Option<RunAt> {
    if k >= characters {
        return None;
    }
    let span = |end: usize| Span {
        start: k,
        end: end.min(characters),
    };
    let there = sample.get(styles_from..).unwrap_or_default();
    let records = there.as_chunks::<STYLE>().0.iter().take(styles);
    for (passed, record) in records.enumerate() {
        let (start, end) = style_range(record);
        let (start, end) = (usize::from(start), usize::from(end));
        if start == end || end <= k || end < start {
            continue;
        }
        let styled = start <= k;
        let gone = passed + usize::from(styled);
        return Some(RunAt {
            range: span(if styled { end } else { start }),
            look: styled.then(|| look(record)),
            styles: styles - gone,
            styles_from: styles_from + gone * STYLE,
        });
    }
    Some(RunAt {
        range: span(characters),
        look: None,
        styles: 0,
        styles_from: 0,
    })
}
