//! Settings, read and written.

use crate::bytes::text as text_at;
use crate::ffi::{self, CaptionsSettings};
use crate::refusal::{judged, judged_settings};
use crate::Refusal;

/// Whether the lines of a cue run from top to bottom, and which way they grow.
#[derive(Clone, Copy, Debug, Default, PartialEq, Eq, Hash)]
pub enum Vertical {
    /// They are horizontal.
    #[default]
    None,
    /// `rl`: from right to left.
    Rl,
    /// `lr`: from left to right.
    Lr,
}

/// Where a cue stands among the lines.
#[derive(Clone, Copy, Debug, Default, PartialEq, Eq, Hash)]
pub enum Line {
    /// Where there is room.
    #[default]
    Auto,
    /// At a line; those below 0 count from the end.
    Number(i16),
    /// In hundredths of a percent, 0 to 10,000.
    Percent(u16),
}

/// Which part of a cue stands at its line.
#[derive(Clone, Copy, Debug, Default, PartialEq, Eq, Hash)]
pub enum LineAlign {
    /// `start`
    #[default]
    Start,
    /// `center`
    Center,
    /// `end`
    End,
}

/// Where a cue stands along the line.
#[derive(Clone, Copy, Debug, Default, PartialEq, Eq, Hash)]
pub enum Position {
    /// By the alignment of its text.
    #[default]
    Auto,
    /// In hundredths of a percent, 0 to 10,000.
    Percent(u16),
}

/// Which part of a cue stands at its position.
#[derive(Clone, Copy, Debug, Default, PartialEq, Eq, Hash)]
pub enum PositionAlign {
    /// By the alignment of its text.
    #[default]
    Auto,
    /// `line-left`
    LineLeft,
    /// `center`
    Center,
    /// `line-right`
    LineRight,
}

/// How the text of a cue is aligned.
#[derive(Clone, Copy, Debug, Default, PartialEq, Eq, Hash)]
pub enum Align {
    /// `start`
    Start,
    /// `center`
    #[default]
    Center,
    /// `end`
    End,
    /// `left`
    Left,
    /// `right`
    Right,
}

/// What a cue's settings say. The default is what an empty text says.
#[derive(Clone, Copy, Debug, PartialEq, Eq, Hash)]
pub struct Settings<'a> {
    /// Whether its lines are vertical.
    pub vertical: Vertical,
    /// Its line.
    pub line: Line,
    /// The alignment at the line; `Start` beside `Auto`.
    pub line_align: LineAlign,
    /// Its position.
    pub position: Position,
    /// The alignment at the position; `Auto` beside `Auto`.
    pub position_align: PositionAlign,
    /// Its size in hundredths of a percent, 0 to 10,000.
    pub size: u16,
    /// The alignment of its text.
    pub align: Align,
    /// The name of its region; empty where it has none.
    pub region: &'a str,
}

impl Default for Settings<'_> {
    fn default() -> Self {
        Settings {
            vertical: Vertical::None,
            line: Line::Auto,
            line_align: LineAlign::Start,
            position: Position::Auto,
            position_align: PositionAlign::Auto,
            size: 10_000,
            align: Align::Center,
            region: "",
        }
    }
}

/// The enums by the numbers of the library, which gives no others.
const VERTICALS: [Vertical; 3] = [Vertical::None, Vertical::Rl, Vertical::Lr];
const LINE_ALIGNS: [LineAlign; 3] = [LineAlign::Start, LineAlign::Center, LineAlign::End];
const POSITION_ALIGNS: [PositionAlign; 4] = [
    PositionAlign::Auto,
    PositionAlign::LineLeft,
    PositionAlign::Center,
    PositionAlign::LineRight,
];
const ALIGNS: [Align; 5] = [
    Align::Start,
    Align::Center,
    Align::End,
    Align::Left,
    Align::Right,
];

impl<'a> Settings<'a> {
    fn of(read: CaptionsSettings, region: &'a str) -> Self {
        Settings {
            vertical: VERTICALS[usize::from(read.vertical)],
            line: match read.line {
                0 => Line::Auto,
                1 => Line::Number(read.line_number),
                _ => Line::Percent(read.line_percent),
            },
            line_align: LINE_ALIGNS[usize::from(read.line_align)],
            position: match read.position {
                0 => Position::Auto,
                _ => Position::Percent(read.position_percent),
            },
            position_align: POSITION_ALIGNS[usize::from(read.position_align)],
            size: read.size,
            align: ALIGNS[usize::from(read.align)],
            region,
        }
    }

    /// As the library takes them, the region aside.
    fn numbers(&self) -> CaptionsSettings {
        let (line, line_number, line_percent) = match self.line {
            Line::Auto => (0, 0, 0),
            Line::Number(number) => (1, number, 0),
            Line::Percent(percent) => (2, 0, percent),
        };
        let (position, position_percent) = match self.position {
            Position::Auto => (0, 0),
            Position::Percent(percent) => (1, percent),
        };
        CaptionsSettings {
            vertical: self.vertical as u8,
            line,
            line_align: self.line_align as u8,
            position,
            position_align: self.position_align as u8,
            align: self.align as u8,
            line_number,
            line_percent,
            position_percent,
            size: self.size,
        }
    }
}

/// Reads a settings text: settings of the form `name:value` with spaces and tabs between them,
/// before and behind.
///
/// Refused: 9, place 0, for more than [`LONGEST_LINE`] bytes; 6, place 0, as by
/// [`judge_identifier`]; 20, whose place is where the first setting begins that is unknown or
/// malformed, or whose name was there before.
///
/// ```
/// use captions::wvtt::{read_settings, Line, Position, PositionAlign, Settings};
/// use captions::Reason;
///
/// let settings = read_settings(b"line:0 position:12.5%,line-left region:fred")?;
/// let expected = Settings {
///     line: Line::Number(0),
///     position: Position::Percent(1250),
///     position_align: PositionAlign::LineLeft,
///     region: "fred",
///     ..Default::default()
/// };
/// assert_eq!(settings, expected);
/// let refused = read_settings(b"align:left size:50").unwrap_err();
/// assert_eq!((refused.reason, refused.place), (Reason::BadSetting, 11));
/// # Ok::<(), captions::Refusal>(())
/// ```
///
/// [`LONGEST_LINE`]: crate::limits::LONGEST_LINE
/// [`judge_identifier`]: crate::wvtt::judge_identifier
pub fn read_settings(text: &[u8]) -> Result<Settings<'_>, Refusal> {
    // SAFETY: pointer and length of a slice.
    let read = unsafe { ffi::captions_wvtt_read_settings(text.as_ptr(), text.len()) };
    judged_settings(read.refusal)?;
    // SAFETY: of a text that is not refused, the name stands in it and is UTF-8 (crate `demands`,
    // `region-stands`).
    let region = unsafe { text_at(text, read.region_from..read.region_end) };
    Ok(Settings::of(read.settings, region))
}

/// The length that settings need as a text. Refused: as [`write_settings`], but for 15.
pub fn settings_room(settings: &Settings) -> Result<usize, Refusal> {
    let region = settings.region;
    // SAFETY: pointer and length of a slice.
    let room = unsafe {
        ffi::captions_wvtt_settings_room(settings.numbers(), region.as_ptr(), region.len())
    };
    judged(room.refusal)?;
    Ok(room.bytes)
}

/// Writes settings at the front of `text` and gives their length; reading them gives the same.
/// There is one form: the order of [`Settings`], one space between, each value as short as it can
/// be, and no default.
///
/// Refused: 8, place 0, for what no text gives: a percentage above 10,000, an alignment other than
/// the default beside `Auto`, a region's name with white space or bad as an identifier, or a text
/// of more than 255 bytes; last 15, place 0.
pub fn write_settings(settings: &Settings, text: &mut [u8]) -> Result<usize, Refusal> {
    let region = settings.region;
    // SAFETY: pointers and lengths of slices; a mutable one overlaps nothing.
    let written = unsafe {
        ffi::captions_wvtt_write_settings(
            settings.numbers(),
            region.as_ptr(),
            region.len(),
            text.as_mut_ptr(),
            text.len(),
        )
    };
    judged(written.refusal)?;
    Ok(written.bytes)
}

/// Settings as a text of its own. Refused: as [`write_settings`], but for 15.
///
/// ```
/// use captions::wvtt::{read_settings, settings_to_string, LineAlign, Settings};
///
/// let settings = read_settings(b"\tsize:33.30%  line:007,start align:center")?;
/// assert_eq!(settings_to_string(&settings)?, "line:7 size:33.3%");
/// let beside_auto = Settings { line_align: LineAlign::End, ..Default::default() };
/// assert_eq!(settings_to_string(&beside_auto).unwrap_err().reason.number(), 8);
/// # Ok::<(), captions::Refusal>(())
/// ```
pub fn settings_to_string(settings: &Settings) -> Result<String, Refusal> {
    let mut text = vec![0; settings_room(settings)?];
    write_settings(settings, &mut text)?;
    Ok(String::from_utf8(text).expect("a region's name is UTF-8"))
}
