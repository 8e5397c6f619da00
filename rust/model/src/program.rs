//! The program's answer.

use std::io::Write;

use crate::list::MOST_RECORDS;
use crate::number::{BAD_TIME, PAST_LIMIT};
use crate::pack::pack;
use crate::track::{table_records, TABLE_RECORD};
use crate::{refuse, Refusal};

/// The longest record or pool file.
pub const MOST_FILE: usize = 32 * 1024;
/// The room for samples.
pub const SAMPLE_ROOM: usize = 64 * 1024;
/// The room for every table.
pub const TABLE_ROOM: usize = (2 * MOST_RECORDS + 1) * TABLE_RECORD;

/// The output for an input line and two files, none where a file is missing.
pub fn answer(input: &[u8], records: Option<&[u8]>, pool: Option<&[u8]>) -> Vec<u8> {
    let mut out = Vec::new();
    let mut table = [0; TABLE_ROOM];
    match packed_table(input, records, pool, &mut table) {
        Ok(len) => {
            for (duration, size) in table_records(&table[..len]) {
                line(&mut out, format_args!("{duration} {size}"));
            }
        }
        Err(r) => line(&mut out, format_args!("refused {} {}", r.number, r.place)),
    }
    out
}

fn line(out: &mut Vec<u8>, text: std::fmt::Arguments) {
    writeln!(out, "{text}").expect("a vector takes every byte");
}

/// Packs and gives the table's length.
fn packed_table(
    input: &[u8],
    records: Option<&[u8]>,
    pool: Option<&[u8]>,
    table: &mut [u8],
) -> Result<usize, Refusal> {
    let Some((scale, t)) = parse_input(input) else {
        return refuse(BAD_TIME, 0);
    };
    let fits = |file: &&[u8]| file.len() <= MOST_FILE;
    let (Some(records), Some(pool)) = (records.filter(fits), pool.filter(fits)) else {
        return refuse(PAST_LIMIT, 0);
    };
    let mut samples = vec![0; SAMPLE_ROOM];
    pack(scale, t, records, pool, table, &mut samples).map(|packed| packed.table_bytes)
}

/// Two decimal numbers, a space between, LF after.
fn parse_input(input: &[u8]) -> Option<(u32, u32)> {
    let line = input.strip_suffix(b"\n")?;
    let space = line.iter().position(|&b| b == b' ')?;
    Some((
        parse_decimal(&line[..space])?,
        parse_decimal(&line[space + 1..])?,
    ))
}

/// A decimal number; one too large becomes the largest, which is never allowed.
fn parse_decimal(digits: &[u8]) -> Option<u32> {
    if digits.is_empty() || !digits.iter().all(u8::is_ascii_digit) {
        return None;
    }
    let add = |n: u32, &d: &u8| n.saturating_mul(10).saturating_add(u32::from(d - b'0'));
    Some(digits.iter().fold(0, add))
}
