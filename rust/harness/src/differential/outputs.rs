//! Lent outputs.

use std::fmt::{self, Debug};

use captions_model::Refusal;

use crate::rows::hex;

/// Two lent outputs with a pattern in them.
#[derive(Clone, PartialEq)]
pub(super) struct Outputs(pub [Vec<u8>; 2]);

impl Outputs {
    pub fn new(rooms: [usize; 2]) -> Self {
        Outputs(rooms.map(|room| (0..room).map(pattern).collect()))
    }

    /// Whether each output is untouched from its length in `results` on.
    fn kept_from(&self, results: [usize; 2]) -> bool {
        let kept = |out: &[u8], from: usize| {
            out.iter()
                .enumerate()
                .skip(from)
                .all(|(at, &byte)| byte == pattern(at))
        };
        kept(&self.0[0], results[0]) && kept(&self.0[1], results[1])
    }
}

impl Debug for Outputs {
    fn fmt(&self, f: &mut fmt::Formatter) -> fmt::Result {
        write!(f, "{} {}", hex(&self.0[0]), hex(&self.0[1]))
    }
}

fn pattern(at: usize) -> u8 {
    (at as u8).wrapping_mul(37) ^ (at >> 8) as u8 ^ 0x5A
}

/// An answer and both outputs after it.
#[derive(Debug, PartialEq)]
pub(super) struct Written<T, E = Refusal> {
    pub answer: Result<T, E>,
    outputs: Outputs,
    /// Whether the bytes past the result, all on refusal, are as they were.
    pub kept: bool,
}

impl<T, E> Written<T, E> {
    pub fn new(answer: Result<T, E>, outputs: Outputs, lengths: impl Fn(&T) -> [usize; 2]) -> Self {
        let kept = outputs.kept_from(answer.as_ref().map_or([0, 0], lengths));
        Written {
            answer,
            outputs,
            kept,
        }
    }
}
