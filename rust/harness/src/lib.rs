//! Runs an implementation of the captions library against rows of input and answer, and
//! two implementations against each other.
//!
//! An implementation offers what it has through [`Library`].

mod differential;
pub mod generate;
mod library;
mod model;
pub mod random;
mod rows;
mod vectors;

pub use differential::{differential, differential_round, Counts, Difference};
pub use library::{Library, Next, Offered, RunInput, TextBoxAt, Tx3gSample};
pub use model::Model;
pub use vectors::{run_vectors, FileReport, Report};

pub use captions_model::boxes::BoxAt;
pub use captions_model::lasting::Dropped;
pub use captions_model::pack::Packed;
pub use captions_model::runs::{Look, Run, RunAt};
pub use captions_model::settings::{self, Settings};
pub use captions_model::tx3g::{Converted, DroppedBoxes, Fields, Font, Modifier};
pub use captions_model::unpack::Unpacked;
pub use captions_model::vtt::Read as VttRead;
pub use captions_model::wvtt::{Cue, Entry};
pub use captions_model::{Fault, Refusal, Span, Who};
