//! The program's inputs.

use super::cue_list::list;
use super::damage::damage_bytes;
use crate::random::Random;

/// Standard input and the two files, none where a file is missing.
#[derive(Clone, Debug)]
pub struct ProgramInput {
    pub input: Vec<u8>,
    pub records: Option<Vec<u8>>,
    pub pool: Option<Vec<u8>>,
}

pub fn program_input(random: &mut Random) -> ProgramInput {
    let list = list(random);
    let mut input = format!("{} {}\n", list.scale, list.t).into_bytes();
    match random.below(12) {
        0 => damage_bytes(random, &mut input),
        1 => input = odd_line(random),
        2 => input = format!("000{} 0{}\n", list.scale, list.t).into_bytes(),
        _ => {}
    }
    ProgramInput {
        input,
        records: file(random, list.records),
        pool: file(random, list.pool),
    }
}

fn odd_line(random: &mut Random) -> Vec<u8> {
    let lines: [&[u8]; 14] = [
        b"",
        b"\n",
        b" \n",
        b"1000 \n",
        b" 1000\n",
        b"1000  1000\n",
        b"1000 1000",
        b"1000 1000\r\n",
        b"1000 1000\n\n",
        b"1000 1000 \n",
        b"+1000 1000\n",
        b"4294968296 1000\n",
        b"1000 18446744073709552616\n",
        b"1000\t1000\n",
    ];
    random.pick(&lines).to_vec()
}

/// The file as it is, or rarely missing, at the limit or past it.
fn file(random: &mut Random, mut bytes: Vec<u8>) -> Option<Vec<u8>> {
    match random.below(40) {
        0 => return None,
        1 => bytes.resize(32 * 1024, b'x'),
        2 => bytes.resize(32 * 1024 + 1, b'x'),
        _ => {}
    }
    Some(bytes)
}
