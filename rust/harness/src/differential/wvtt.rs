//! WebVTT, cue lists and tracks.

use captions_model::wvtt::Cue;

use super::outputs::{Outputs, Written};
use super::{counted, plain, show, Compared, Pair};
use crate::generate as make;
use crate::library::Library;
use crate::random::Random;
use crate::rows::hex;

pub(super) fn compare_sample(pair: &mut Pair, random: &mut Random) -> Compared {
    let sample = make::wvtt_sample(random);
    pair.judge("judge_sample", &[&sample], |l| l.judge_sample(&sample))?;
    pair.judge("cues", &[&sample], |l| {
        let plain = |cues: Vec<Cue>| cues.into_iter().map(plain_cue).collect::<Vec<_>>();
        Some(l.cues(&sample)?.map(plain))
    })?;
    for from in make::places(random, sample.len()) {
        let input = || show(&[from as u64], &[&sample]);
        let ask = |l: &dyn Library| {
            let plain = |(cue, next)| (plain_cue(cue), next);
            Some(l.next_cue(&sample, from)?.map(|found| found.map(plain)))
        };
        pair.ask("next_cue", input, ask, counted)?;
    }
    Ok(())
}

fn plain_cue(cue: Cue) -> Cue {
    Cue {
        id: cue.id,
        identifier: plain(cue.identifier),
        settings: plain(cue.settings),
        payload: plain(cue.payload),
    }
}

pub(super) fn compare_entry(pair: &mut Pair, random: &mut Random) -> Compared {
    let entry = make::wvtt_entry(random);
    pair.judge("read_wvtt_entry", &[&entry], |l| l.read_wvtt_entry(&entry))
}

pub(super) fn compare_entry_writing(pair: &mut Pair, random: &mut Random) -> Compared {
    let make::EntryParts {
        configuration,
        label,
        index,
    } = make::entry_parts(random);
    let label = label.as_deref();
    let need = captions_model::wvtt::entry_room(&configuration, label);
    let room = make::room(random, need.unwrap_or(0));
    let labelled = u64::from(label.is_some());
    let numbers = [labelled, index.into(), room as u64];
    let input = || show(&numbers, &[&configuration, label.unwrap_or_default()]);
    let ask = |l: &dyn Library| l.wvtt_entry_room(&configuration, label);
    pair.ask("wvtt_entry_room", input, ask, counted)?;
    let ask = |l: &dyn Library| {
        let mut out = Outputs::new([room, 0]);
        let answer = l.write_wvtt_entry(&configuration, label, index, &mut out.0[0])?;
        Some(Written::new(answer, out, |&bytes| [bytes, 0]))
    };
    pair.write("write_wvtt_entry", input, ask)
}

pub(super) fn compare_list(pair: &mut Pair, random: &mut Random) -> Compared {
    let make::CueList {
        scale,
        t,
        records,
        pool,
    } = make::list(random);
    let input = || show(&[scale.into(), t.into()], &[&records, &pool]);
    let ask = |l: &dyn Library| l.judge_list(scale, t, &records, &pool);
    pair.ask("judge_list", input, ask, counted)?;
    let ask = |l: &dyn Library| l.pack_room(scale, t, &records, &pool);
    pair.ask("pack_room", input, ask, counted)
}

pub(super) fn compare_pack(pair: &mut Pair, random: &mut Random) -> Compared {
    let list = make::list(random);
    let need = make::packed(&list).unwrap_or_default();
    let rooms = [need.table.len(), need.samples.len()].map(|n| make::room(random, n));
    let make::CueList {
        scale,
        t,
        records,
        pool,
    } = list;
    let numbers = [scale, t, rooms[0] as u32, rooms[1] as u32].map(u64::from);
    let input = || show(&numbers, &[&records, &pool]);
    let ask = |l: &dyn Library| {
        let mut out = Outputs::new(rooms);
        let [table, samples] = &mut out.0;
        let answer = l.pack(scale, t, &records, &pool, table, samples)?;
        Some(Written::new(answer, out, |p| {
            [p.table_bytes, p.sample_bytes]
        }))
    };
    pair.write("pack", input, ask)
}

pub(super) fn compare_track(pair: &mut Pair, random: &mut Random) -> Compared {
    let (_, track) = make::unpack_input(random);
    let make::Track { table, samples } = track;
    pair.judge("judge_track", &[&table, &samples], |l| {
        l.judge_track(&table, &samples)
    })
}

pub(super) fn compare_unpack(pair: &mut Pair, random: &mut Random) -> Compared {
    let (scale, make::Track { table, samples }) = make::unpack_input(random);
    let need = captions_model::unpack::room(scale, &table, &samples);
    let need = need.map_or([0, 0], |u| [u.record_bytes, u.pool_bytes]);
    let rooms = need.map(|n| make::room(random, n));
    let numbers = [u64::from(scale), rooms[0] as u64, rooms[1] as u64];
    let input = || show(&numbers, &[&table, &samples]);
    let ask = |l: &dyn Library| l.unpack_room(scale, &table, &samples);
    pair.ask("unpack_room", input, ask, counted)?;
    let ask = |l: &dyn Library| {
        let mut out = Outputs::new(rooms);
        let [records, pool] = &mut out.0;
        let answer = l.unpack(scale, &table, &samples, records, pool)?;
        Some(Written::new(answer, out, |u| {
            [u.record_bytes, u.pool_bytes]
        }))
    };
    pair.write("unpack", input, ask)
}

pub(super) fn compare_check(pair: &mut Pair, random: &mut Random) -> Compared {
    let (list, track) = make::check_input(random);
    let make::CueList {
        scale,
        t,
        records,
        pool,
    } = list;
    let make::Track { table, samples } = track;
    let input = || {
        show(
            &[scale.into(), t.into()],
            &[&records, &pool, &table, &samples],
        )
    };
    let ask = |l: &dyn Library| l.check(scale, t, &records, &pool, &table, &samples);
    pair.ask("check", input, ask, counted)
}

pub(super) fn compare_program(pair: &mut Pair, random: &mut Random) -> Compared {
    let make::ProgramInput {
        input,
        records,
        pool,
    } = make::program_input(random);
    let (records, pool) = (records.as_deref(), pool.as_deref());
    let shown = || {
        let file = |f: Option<&[u8]>| f.map_or("-".to_string(), hex);
        format!("{} {} {}", hex(&input), file(records), file(pool))
    };
    let ask = |l: &dyn Library| l.program(&input, records, pool);
    pair.ask("program", shown, ask, |out| (refused_number(out), None))
}

/// The number in a line `refused 10 0`.
fn refused_number(output: &[u8]) -> u32 {
    let text = String::from_utf8_lossy(output);
    let number = text
        .strip_prefix("refused ")
        .and_then(|rest| rest.split(' ').next());
    number.and_then(|n| n.parse().ok()).unwrap_or(0)
}
