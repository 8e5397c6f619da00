//! The proved library as a harness [`Library`]. Each call is lent copies of its inputs, which
//! must come back as they were.

mod convert;
mod raw;
mod settings;

use std::hint::black_box;
use std::str::from_utf8;

use captions::limits::LARGEST_MS;
use captions::{tx3g, vtt, wvtt, CueList};
use captions_harness::{BoxAt, Converted, Cue, Dropped, Entry, Fault, Fields, Font, Library};
use captions_harness::{Modifier, Next, Offered, Packed, Refusal, Run, RunAt, RunInput, Span};
use captions_harness::{Settings, TextBoxAt, Tx3gSample, Unpacked, VttRead};

use convert::{fault, refusal};

/// The proved library.
pub struct Proved;

/// Asks with copies of the inputs, and sees that nothing was written to them.
fn lend<const N: usize, T>(inputs: [&[u8]; N], ask: impl for<'a> FnOnce([&'a [u8]; N]) -> T) -> T {
    let mut copies = inputs.map(<[u8]>::to_vec);
    let answer = ask(copies.each_ref().map(Vec::as_slice));
    black_box(&mut copies);
    assert!(copies == inputs, "an input was written to");
    answer
}

impl Library for Proved {
    fn tick(&self, scale: u32, ms: u32) -> Offered<u64> {
        Some(captions::tick(scale, ms))
    }

    fn milliseconds(&self, scale: u32, tick: u64) -> Offered<u64> {
        captions::milliseconds(scale, tick)
    }

    fn judge_utf8(&self, text: &[u8]) -> Offered<Result<(), Refusal>> {
        let judged = lend([text], |[text]| captions::judge_utf8(text));
        Some(judged.map_err(refusal))
    }

    fn judge_identifier(&self, text: &[u8]) -> Offered<Result<(), Refusal>> {
        let judged = lend([text], |[text]| wvtt::judge_identifier(text));
        Some(judged.map_err(refusal))
    }

    fn judge_payload(&self, text: &[u8]) -> Offered<Result<(), Refusal>> {
        let judged = lend([text], |[text]| wvtt::judge_payload(text));
        Some(judged.map_err(refusal))
    }

    fn judge_profile(&self, text: &[u8]) -> Offered<Result<(), Refusal>> {
        let judged = lend([text], |[text]| wvtt::judge_profile(text));
        Some(judged.map_err(refusal))
    }

    fn read_settings(&self, text: &[u8]) -> Offered<Result<(Settings, Span), Refusal>> {
        Some(lend([text], |[text]| {
            let read = wvtt::read_settings(text).map_err(refusal)?;
            Ok(settings::read(text, &read))
        }))
    }

    /// The C function; where the region is a string, the safe one answers the same.
    fn settings_room(&self, settings: &Settings, region: &[u8]) -> Offered<Result<usize, Refusal>> {
        let numbers = settings::numbers(settings);
        let room = lend([region], |[region]| raw::settings_room(numbers, region));
        if let Ok(region) = from_utf8(region) {
            let safe = wvtt::settings_room(&settings::given(settings, region));
            assert_eq!(safe.map_err(refusal), room);
        }
        Some(room)
    }

    /// The safe function where the region is a string.
    fn write_settings(
        &self,
        settings: &Settings,
        region: &[u8],
        text: &mut [u8],
    ) -> Offered<Result<usize, Refusal>> {
        Some(lend([region], |[region]| match from_utf8(region) {
            Ok(region) => {
                let given = settings::given(settings, region);
                wvtt::write_settings(&given, text).map_err(refusal)
            }
            Err(_) => raw::write_settings(settings::numbers(settings), region, text),
        }))
    }

    fn judge_configuration(&self, text: &[u8]) -> Offered<Result<(), Refusal>> {
        let judged = lend([text], |[text]| wvtt::judge_configuration(text));
        Some(judged.map_err(refusal))
    }

    fn judge_label(&self, text: &[u8]) -> Offered<Result<(), Refusal>> {
        let judged = lend([text], |[text]| wvtt::judge_label(text));
        Some(judged.map_err(refusal))
    }

    fn characters(&self, text: &[u8]) -> Offered<Result<usize, Refusal>> {
        let counted = lend([text], |[text]| tx3g::count_characters(text));
        Some(counted.map_err(refusal))
    }

    /// At the end, where the model has a header of no bytes, the proved step has no box.
    fn box_step(&self, bytes: &[u8], at: usize) -> Offered<Result<BoxAt, Refusal>> {
        let step = lend([bytes], |[bytes]| captions::step(bytes, at));
        Some(match step.map_err(refusal) {
            Ok(Some(found)) => Ok(BoxAt {
                place: found.place,
                kind: found.kind,
                body: Span {
                    start: found.body,
                    end: found.next,
                },
            }),
            Ok(None) => {
                assert_eq!(at, bytes.len(), "no box before the end");
                Err(Refusal::new(1, at))
            }
            Err(refusal) => Err(refusal),
        })
    }

    fn judge_sample(&self, sample: &[u8]) -> Offered<Result<(), Refusal>> {
        let judged = lend([sample], |[sample]| wvtt::judge_sample(sample));
        Some(judged.map_err(refusal))
    }

    fn cues(&self, sample: &[u8]) -> Offered<Result<Vec<Cue>, Refusal>> {
        Some(lend([sample], |[sample]| {
            let read = wvtt::Sample::read(sample).map_err(refusal)?;
            Ok(read.cues().map(|cue| convert::cue(sample, cue)).collect())
        }))
    }

    fn next_cue(&self, sample: &[u8], from: usize) -> Offered<Result<Next<Cue>, Refusal>> {
        let found = lend([sample], |[sample]| wvtt::next_cue(sample, from));
        let found = found.map(|cue| cue.map(convert::cue_at));
        Some(found.map_err(refusal))
    }

    fn read_wvtt_entry(&self, entry: &[u8]) -> Offered<Result<Entry, Refusal>> {
        Some(lend([entry], |[entry]| {
            let read = wvtt::Entry::read(entry).map_err(refusal)?;
            Ok(convert::wvtt_entry(entry, read))
        }))
    }

    /// The safe function where the texts are strings.
    fn wvtt_entry_room(
        &self,
        configuration: &[u8],
        label: Option<&[u8]>,
    ) -> Offered<Result<usize, Refusal>> {
        Some(lend(
            [configuration, label.unwrap_or_default()],
            |[configuration, text]| {
                let label = label.map(|_| text);
                match raw::strings(configuration, label) {
                    Some((configuration, label)) => {
                        wvtt::entry_room(configuration, label).map_err(refusal)
                    }
                    None => raw::entry_room(configuration, label),
                }
            },
        ))
    }

    fn write_wvtt_entry(
        &self,
        configuration: &[u8],
        label: Option<&[u8]>,
        index: u16,
        entry: &mut [u8],
    ) -> Offered<Result<usize, Refusal>> {
        Some(lend(
            [configuration, label.unwrap_or_default()],
            |[configuration, text]| {
                let label = label.map(|_| text);
                match raw::strings(configuration, label) {
                    Some((configuration, label)) => {
                        wvtt::write_entry(configuration, label, index, entry).map_err(refusal)
                    }
                    None => raw::write_entry(configuration, label, index, entry),
                }
            },
        ))
    }

    fn judge_list(
        &self,
        scale: u32,
        t: u32,
        records: &[u8],
        pool: &[u8],
    ) -> Offered<Result<(), Refusal>> {
        let judged = lend([records, pool], |[records, pool]| {
            captions::judge_list(scale, t, records, pool)
        });
        Some(judged.map_err(refusal))
    }

    fn judge_track(&self, table: &[u8], samples: &[u8]) -> Offered<Result<(), Refusal>> {
        let judged = lend([table, samples], |[table, samples]| {
            wvtt::judge_track(table, samples)
        });
        Some(judged.map_err(refusal))
    }

    fn pack_room(
        &self,
        scale: u32,
        t: u32,
        records: &[u8],
        pool: &[u8],
    ) -> Offered<Result<Packed, Refusal>> {
        let room = lend([records, pool], |[records, pool]| {
            wvtt::pack_room(scale, t, records, pool)
        });
        Some(room.map(packed).map_err(refusal))
    }

    fn pack(
        &self,
        scale: u32,
        t: u32,
        records: &[u8],
        pool: &[u8],
        table: &mut [u8],
        samples: &mut [u8],
    ) -> Offered<Result<Packed, Refusal>> {
        let answer = lend([records, pool], |[records, pool]| {
            wvtt::pack(scale, t, records, pool, table, samples)
        });
        Some(answer.map(packed).map_err(refusal))
    }

    fn unpack_room(
        &self,
        scale: u32,
        table: &[u8],
        samples: &[u8],
    ) -> Offered<Result<Unpacked, Refusal>> {
        let room = lend([table, samples], |[table, samples]| {
            wvtt::unpack_room(scale, table, samples)
        });
        Some(room.map(unpacked).map_err(refusal))
    }

    fn unpack(
        &self,
        scale: u32,
        table: &[u8],
        samples: &[u8],
        records: &mut [u8],
        pool: &mut [u8],
    ) -> Offered<Result<Unpacked, Refusal>> {
        let answer = lend([table, samples], |[table, samples]| {
            wvtt::unpack(scale, table, samples, records, pool)
        });
        Some(answer.map(unpacked).map_err(refusal))
    }

    /// As the static library measures it; what the safe function copies must agree.
    fn drop_zero_durations_room(
        &self,
        table: &[u8],
        samples: &[u8],
    ) -> Offered<Result<Dropped, Refusal>> {
        Some(lend([table, samples], |[table, samples]| {
            let room = captions::drop_zero_durations_room(table, samples);
            let copied = captions::drop_zero_durations_to_vecs(table, samples);
            let measure = |(rows, bytes): (Vec<u8>, Vec<u8>)| captions::Dropped {
                samples: rows.len() / 8,
                table_bytes: rows.len(),
                sample_bytes: bytes.len(),
            };
            assert_eq!(copied.map(measure), room);
            room.map(convert::dropped).map_err(refusal)
        }))
    }

    fn drop_zero_durations(
        &self,
        table: &[u8],
        samples: &[u8],
        table_out: &mut [u8],
        samples_out: &mut [u8],
    ) -> Offered<Result<Dropped, Refusal>> {
        let answer = lend([table, samples], |[table, samples]| {
            captions::drop_zero_durations(table, samples, table_out, samples_out)
        });
        Some(answer.map(convert::dropped).map_err(refusal))
    }

    fn check(
        &self,
        scale: u32,
        t: u32,
        records: &[u8],
        pool: &[u8],
        table: &[u8],
        samples: &[u8],
    ) -> Offered<Result<(), Fault>> {
        let checked = lend(
            [records, pool, table, samples],
            |[records, pool, table, samples]| wvtt::check(scale, t, records, pool, table, samples),
        );
        Some(checked.map_err(fault))
    }

    /// As the static library measures it; the list that the safe function reads must agree.
    fn read_vtt_room(&self, file: &[u8]) -> Offered<Result<VttRead, Refusal>> {
        Some(lend([file], |[file]| {
            let room = vtt::read_room(file);
            let list = vtt::read(file).map(|list| vtt::Read {
                cues: list.len(),
                record_bytes: list.records().len(),
                pool_bytes: list.pool().len(),
            });
            assert_eq!(list, room);
            room.map(vtt_read).map_err(refusal)
        }))
    }

    fn read_vtt(
        &self,
        file: &[u8],
        records: &mut [u8],
        pool: &mut [u8],
    ) -> Offered<Result<VttRead, Refusal>> {
        let answer = lend([file], |[file]| vtt::read_into(file, records, pool));
        Some(answer.map(vtt_read).map_err(refusal))
    }

    /// As the static library measures it; the file that the safe function writes must agree.
    fn write_vtt_room(
        &self,
        configuration: &[u8],
        records: &[u8],
        pool: &[u8],
    ) -> Offered<Result<usize, Fault>> {
        Some(lend(
            [configuration, records, pool],
            |[configuration, records, pool]| {
                let room = vtt::write_room(configuration, records, pool);
                if let Some(file) = safe_file(configuration, records, pool) {
                    assert_eq!(file.map(|file| file.len()), room);
                }
                room.map_err(fault)
            },
        ))
    }

    fn write_vtt(
        &self,
        configuration: &[u8],
        records: &[u8],
        pool: &[u8],
        file: &mut [u8],
    ) -> Offered<Result<usize, Fault>> {
        let answer = lend(
            [configuration, records, pool],
            |[configuration, records, pool]| vtt::write_into(configuration, records, pool, file),
        );
        Some(answer.map_err(fault))
    }

    fn read_tx3g_entry(&self, entry: &[u8]) -> Offered<Result<Fields, Refusal>> {
        let read = lend([entry], |[entry]| {
            tx3g::Entry::read(entry).map(|entry| convert::fields(&entry))
        });
        Some(read.map_err(refusal))
    }

    fn fonts(&self, entry: &[u8]) -> Offered<Result<Vec<Font>, Refusal>> {
        Some(lend([entry], |[bytes]| {
            let entry = tx3g::Entry::read(bytes).map_err(refusal)?;
            let fonts = entry.fonts().map(|font| convert::font(bytes, font));
            Ok(fonts.collect())
        }))
    }

    fn font_at(&self, entry: &[u8], at: usize) -> Offered<Option<Font>> {
        let font = lend([entry], |[entry]| tx3g::font_at(entry, at));
        Some(font.map(convert::font_at))
    }

    /// As the static library reads it; the safe sample must agree.
    fn read_tx3g_sample(&self, entry: &[u8], sample: &[u8]) -> Offered<Result<Tx3gSample, Fault>> {
        Some(lend([entry, sample], |[entry, sample]| {
            let read = tx3g::Sample::read(entry, sample).map_err(fault)?;
            let found = convert::tx3g_sample(raw::read_sample(entry, sample));
            assert_eq!(convert::text(&read), (found.utf16, found.text));
            assert_eq!(read.text().chars().count(), found.characters);
            assert_eq!(read.characters(), found.characters);
            assert_eq!(read.retired_blinking(), found.retired_blinking);
            Ok(found)
        }))
    }

    fn runs(&self, entry: &[u8], sample: &[u8]) -> Offered<Result<Vec<Run>, Fault>> {
        Some(lend([entry, sample], |[entry, sample]| {
            let read = tx3g::Sample::read(entry, sample).map_err(fault)?;
            Ok(read.runs().map(convert::run).collect())
        }))
    }

    fn next_run(&self, sample: &[u8], input: RunInput) -> Offered<Option<RunAt>> {
        let RunInput {
            styles,
            styles_from,
            k,
            characters,
        } = input;
        let run = lend([sample], |[sample]| {
            tx3g::next_run(sample, styles, styles_from, k, characters)
        });
        Some(run.map(convert::run_at))
    }

    fn style(&self, entry: &[u8], sample: &[u8], k: usize) -> Offered<Result<[u8; 12], Fault>> {
        let style = lend([entry, sample], |[entry, sample]| {
            tx3g::style(entry, sample, k)
        });
        Some(style.map(convert::style).map_err(fault))
    }

    /// As the static library finds them; what the safe sample decodes must be their bytes.
    fn modifiers(&self, entry: &[u8], sample: &[u8]) -> Offered<Result<Vec<Modifier>, Fault>> {
        Some(lend([entry, sample], |[entry, sample]| {
            let read = tx3g::Sample::read(entry, sample).map_err(fault)?;
            let found = raw::modifiers(sample, raw::read_sample(entry, sample).modifiers);
            let bodies = found.iter().map(|m| raw::body(sample, m));
            assert!(read.modifiers().map(convert::body).eq(bodies));
            Ok(found.iter().map(convert::modifier).collect())
        }))
    }

    /// As the static library finds it; what the safe function decodes must be its bytes.
    fn next_modifier(
        &self,
        sample: &[u8],
        from: usize,
    ) -> Offered<Result<Next<Modifier>, Refusal>> {
        Some(lend([sample], |[sample]| {
            let found = tx3g::next_modifier(sample, from).map_err(refusal)?;
            Ok(found.map(|(decoded, next)| {
                let modifier = raw::next_modifier(sample, from);
                assert_eq!(next, modifier.next);
                if modifier.kind != u32::from_be_bytes(*b"twrp") {
                    assert_eq!(convert::body(decoded), raw::body(sample, &modifier));
                }
                (convert::modifier(&modifier), next)
            }))
        }))
    }

    fn text_box(&self, entry: &[u8], sample: &[u8]) -> Offered<Result<TextBoxAt, Fault>> {
        Some(lend([entry, sample], |[entry, sample]| {
            let found = tx3g::text_box(entry, sample).map_err(fault)?;
            Ok(convert::text_box(entry, sample, found))
        }))
    }

    /// As the static library measures it; the list that the safe function makes must agree.
    fn convert_tx3g_room(
        &self,
        scale: u32,
        entry: &[u8],
        table: &[u8],
        samples: &[u8],
    ) -> Offered<Result<Converted, Fault>> {
        Some(lend([entry, table, samples], |[entry, table, samples]| {
            let room = tx3g::convert_room(scale, entry, table, samples);
            let made = tx3g::convert(scale, entry, table, samples);
            let measure = |made: tx3g::Converted| tx3g::ConvertedSizes {
                cues: made.list.len(),
                record_bytes: made.list.records().len(),
                pool_bytes: made.list.pool().len(),
                t: made.t,
                dropped: made.dropped,
            };
            assert_eq!(made.map(measure), room);
            room.map(convert::converted).map_err(fault)
        }))
    }

    fn convert_tx3g(
        &self,
        scale: u32,
        entry: &[u8],
        table: &[u8],
        samples: &[u8],
        records: &mut [u8],
        pool: &mut [u8],
    ) -> Offered<Result<Converted, Fault>> {
        let answer = lend([entry, table, samples], |[entry, table, samples]| {
            tx3g::convert_into(scale, entry, table, samples, records, pool)
        });
        Some(answer.map(convert::converted).map_err(fault))
    }
}

/// What the safe function writes, if the configuration is a string and the list is good.
fn safe_file(
    configuration: &[u8],
    records: &[u8],
    pool: &[u8],
) -> Option<Result<Vec<u8>, captions::Fault>> {
    let configuration = std::str::from_utf8(configuration).ok()?;
    let (records, pool) = (records.to_vec(), pool.to_vec());
    let list = CueList::from_parts(1000, LARGEST_MS, records, pool).ok()?;
    Some(vtt::write(configuration, &list))
}

fn packed(packed: wvtt::Packed) -> Packed {
    Packed {
        samples: packed.samples as u32,
        table_bytes: packed.table_bytes,
        sample_bytes: packed.sample_bytes,
    }
}

fn unpacked(unpacked: wvtt::Unpacked) -> Unpacked {
    Unpacked {
        record_bytes: unpacked.record_bytes,
        pool_bytes: unpacked.pool_bytes,
        t: unpacked.t,
    }
}

fn vtt_read(read: vtt::Read) -> VttRead {
    VttRead {
        cues: read.cues,
        record_bytes: read.record_bytes,
        pool_bytes: read.pool_bytes,
    }
}
