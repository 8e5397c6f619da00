//! Settings of the Rust crate as the harness has them, and back.

use captions::ffi::CaptionsSettings;
use captions::wvtt;
use captions_harness::{settings as model, Settings, Span};

use crate::convert::span;

/// Enums that have the same names here and there, in both directions.
macro_rules! alike {
    ($($there:ident $back:ident $kind:ident { $($name:ident)* })*) => {$(
        fn $there(value: wvtt::$kind) -> model::$kind {
            match value {
                $(wvtt::$kind::$name => model::$kind::$name,)*
            }
        }

        fn $back(value: model::$kind) -> wvtt::$kind {
            match value {
                $(model::$kind::$name => wvtt::$kind::$name,)*
            }
        }
    )*};
}

alike! {
    vertical back_vertical Vertical { None Rl Lr }
    line_align back_line_align LineAlign { Start Center End }
    position_align back_position_align PositionAlign { Auto LineLeft Center LineRight }
    align back_align Align { Start Center End Left Right }
}

/// What was read in a text, and where the region's name stands in it.
pub fn read(text: &[u8], read: &wvtt::Settings) -> (Settings, Span) {
    let settings = Settings {
        vertical: vertical(read.vertical),
        line: match read.line {
            wvtt::Line::Auto => model::Line::Auto,
            wvtt::Line::Number(number) => model::Line::Number(number),
            wvtt::Line::Percent(percent) => model::Line::Percent(percent),
        },
        line_align: line_align(read.line_align),
        position: match read.position {
            wvtt::Position::Auto => model::Position::Auto,
            wvtt::Position::Percent(percent) => model::Position::Percent(percent),
        },
        position_align: position_align(read.position_align),
        size: read.size,
        align: align(read.align),
    };
    (settings, span(text, read.region.as_bytes()))
}

/// What is to be written.
pub fn given<'a>(settings: &Settings, region: &'a str) -> wvtt::Settings<'a> {
    wvtt::Settings {
        vertical: back_vertical(settings.vertical),
        line: match settings.line {
            model::Line::Auto => wvtt::Line::Auto,
            model::Line::Number(number) => wvtt::Line::Number(number),
            model::Line::Percent(percent) => wvtt::Line::Percent(percent),
        },
        line_align: back_line_align(settings.line_align),
        position: match settings.position {
            model::Position::Auto => wvtt::Position::Auto,
            model::Position::Percent(percent) => wvtt::Position::Percent(percent),
        },
        position_align: back_position_align(settings.position_align),
        size: settings.size,
        align: back_align(settings.align),
        region,
    }
}

/// As C has it, with numbers in what is not looked at.
pub fn numbers(settings: &Settings) -> CaptionsSettings {
    let (line, line_number, line_percent) = match settings.line {
        model::Line::Auto => (0, -7, 10_007),
        model::Line::Number(number) => (1, number, 10_007),
        model::Line::Percent(percent) => (2, -7, percent),
    };
    let (position, position_percent) = match settings.position {
        model::Position::Auto => (0, 10_007),
        model::Position::Percent(percent) => (1, percent),
    };
    CaptionsSettings {
        vertical: settings.vertical as u8,
        line,
        line_align: settings.line_align as u8,
        position,
        position_align: settings.position_align as u8,
        align: settings.align as u8,
        line_number,
        line_percent,
        position_percent,
        size: settings.size,
    }
}
