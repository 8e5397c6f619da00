//! Rows of settings.

use captions_model::number::NO_ROOM;
use captions_model::settings::{self, Line, Position, PositionAlign, Settings, Vertical};
use captions_model::Span;

use super::{both, compare, compare_judged, holds, Verdict, UNTOUCHED};
use crate::library::Library;
use crate::rows::{bytes, Row};

pub(super) fn run_read_settings(library: &dyn Library, row: &Row) -> Verdict {
    let text = row.bytes(0);
    let (expected, more) = row.judged();
    let named = |(settings, region): (Settings, Span)| (settings, region.of(&text).to_vec());
    let got = library.read_settings(&text).map(|answer| answer.map(named));
    compare_judged(got, expected.map(|()| record(more)))
}

/// Writing with the row's room, and the room that it needs.
pub(super) fn run_write_settings(library: &dyn Library, row: &Row) -> Verdict {
    let (settings, region) = record(&row.inputs[..8]);
    let mut text = vec![UNTOUCHED; row.size(8)];
    let got = library.write_settings(&settings, &region, &mut text);
    let room = library.settings_room(&settings, &region);
    let (expected, more) = row.judged();
    let wanted = expected.map_or(Vec::new(), |()| bytes(more[0]));
    let answer = compare_judged(got, expected.map(|()| wanted.len()));
    let written = compare(got.map(|_| holds(&text, &wanted)), true);
    let room = match expected {
        Err(refused) if refused.number == NO_ROOM => {
            let past = |bytes: usize| bytes > text.len();
            compare_judged(room.map(|room| room.map(past)), Ok(true))
        }
        _ => compare_judged(room, expected.map(|()| wanted.len())),
    };
    both(both(answer, written), room)
}

/// The record in eight columns.
fn record(columns: &[&str]) -> (Settings, Vec<u8>) {
    let settings = Settings {
        vertical: or_word(columns[0], ("none", Vertical::None), &settings::VERTICALS),
        line: line(columns[1]),
        line_align: of_word(columns[2], &settings::LINE_ALIGNS),
        position: match columns[3] {
            "auto" => Position::Auto,
            percent => Position::Percent(hundredths(percent)),
        },
        position_align: or_word(
            columns[4],
            ("auto", PositionAlign::Auto),
            &settings::POSITION_ALIGNS,
        ),
        size: hundredths(columns[5]),
        align: of_word(columns[6], &settings::ALIGNS),
    };
    (settings, bytes(columns[7]))
}

/// A line. A number past 16 bits becomes a percentage past its range, which is not allowed either.
fn line(column: &str) -> Line {
    match column.split_once(':') {
        None if column == "auto" => Line::Auto,
        Some(("number", number)) => {
            let number = number.parse().map(Line::Number);
            number.unwrap_or(Line::Percent(u16::MAX))
        }
        Some(("percent", percent)) => Line::Percent(hundredths(percent)),
        _ => panic!("no line: {column}"),
    }
}

fn hundredths(column: &str) -> u16 {
    let number = column.parse();
    number.unwrap_or_else(|_| panic!("no hundredths: {column}"))
}

fn of_word<T: Copy>(column: &str, words: &[(&str, T)]) -> T {
    let found = words.iter().find(|(word, _)| *word == column);
    found.unwrap_or_else(|| panic!("no word: {column}")).1
}

/// As [`of_word`], with a word that settings are not written with.
fn or_word<T: Copy>(column: &str, unwritten: (&str, T), words: &[(&str, T)]) -> T {
    match column == unwritten.0 {
        true => unwritten.1,
        false => of_word(column, words),
    }
}
