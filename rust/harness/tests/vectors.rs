//! Every row, every foreign track and every foreign file against the model.

use std::path::Path;

use captions_harness::{run_vectors, Library, Model};

fn vectors() -> &'static Path {
    Path::new(concat!(env!("CARGO_MANIFEST_DIR"), "/../vectors"))
}

#[test]
fn model_agrees_with_every_row() {
    let report = run_vectors(&Model, vectors()).expect("the vectors can be read");
    print!("{report}");
    assert_eq!(report.faults(), 0, "\n{report}");
    assert_eq!(report.skipped(), 0);
    assert!(report.agreed() > 5000);
    let offsets = report.files.iter().filter(|f| f.name.starts_with("02/"));
    let offsets: Vec<usize> = offsets.map(|file| file.agreed).collect();
    assert_eq!(offsets.len(), 16);
    assert!(offsets.iter().all(|&agreed| agreed > 50), "\n{report}");
}

struct Nothing;

impl Library for Nothing {}

#[test]
fn rows_not_offered_are_skipped() {
    let report = run_vectors(&Nothing, vectors()).expect("the vectors can be read");
    assert_eq!((report.agreed(), report.faults()), (0, 0));
    assert!(report.skipped() > 5000);
}
