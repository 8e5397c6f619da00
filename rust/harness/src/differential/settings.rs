//! Settings.

use captions_model::settings::Settings;
use captions_model::{Refusal, Span};

use super::outputs::{Outputs, Written};
use super::{counted, plain, show, Compared, Pair};
use crate::generate as make;
use crate::generate::SettingsRecord;
use crate::library::{Library, Offered};
use crate::random::Random;
use crate::rows::hex;

pub(super) fn compare_reading(pair: &mut Pair, random: &mut Random) -> Compared {
    for _ in 0..4 {
        let text = make::settings_text(random);
        pair.judge("read_settings", &[&text], |l| {
            let plain = |(settings, region): (Settings, Span)| (settings, plain(region));
            Some(l.read_settings(&text)?.map(plain))
        })?;
    }
    Ok(())
}

/// What writing needs, then writing with exactly that, with a byte less and with any; then what
/// each library reads in its own text.
pub(super) fn compare_writing(pair: &mut Pair, random: &mut Random) -> Compared {
    let record = make::settings_record(random);
    let SettingsRecord { settings, region } = &record;
    let shown = || format!("{settings:?} {}", hex(region));
    let ask = |l: &dyn Library| l.settings_room(settings, region);
    pair.ask("settings_room", shown, ask, counted)?;
    let need = captions_model::settings::settings_room(settings, region);
    let exact = need.unwrap_or(0);
    for room in [exact, exact.saturating_sub(1), make::room(random, exact)] {
        let input = || format!("{} {}", shown(), show(&[room as u64], &[]));
        let ask = |l: &dyn Library| {
            let mut out = Outputs::new([room, 0]);
            let answer = l.write_settings(settings, region, &mut out.0[0])?;
            Some(Written::new(answer, out, |&bytes| [bytes, 0]))
        };
        pair.write("write_settings", input, ask)?;
    }
    need.map_or(Ok(()), |room| compare_again(pair, &record, room))
}

/// What is read in the text that was written is the record.
fn compare_again(pair: &mut Pair, record: &SettingsRecord, room: usize) -> Compared {
    let operation = "read_written_settings";
    let input = || format!("{record:?}");
    let ask = |l: &dyn Library| read_again(l, record, room);
    match pair.common(operation, input, ask, counted)? {
        Some(read) if read.as_ref() != Ok(record) => {
            let (read, record) = (format!("{read:?}"), format!("{record:?}"));
            Err(pair.difference(operation, input(), read, record))
        }
        _ => Ok(()),
    }
}

/// Writes a good record and reads the text.
fn read_again(
    library: &dyn Library,
    record: &SettingsRecord,
    room: usize,
) -> Offered<Result<SettingsRecord, Refusal>> {
    let SettingsRecord { settings, region } = record;
    let mut text = vec![0; room];
    let written = library.write_settings(settings, region, &mut text)?;
    let text = &text[..written.ok()?];
    let read = library.read_settings(text)?;
    Some(read.map(|(settings, region)| SettingsRecord {
        settings,
        region: region.of(text).to_vec(),
    }))
}
