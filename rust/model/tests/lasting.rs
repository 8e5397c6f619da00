//! The cases of dropping the samples of duration 0.

use captions_model::lasting::{drop_zero_durations, room, Dropped};
use captions_model::Refusal;

/// Durations and sizes as a table.
fn table(rows: &[(u32, u32)]) -> Vec<u8> {
    let bytes = rows.iter().flat_map(|&(d, s)| [d, s]);
    bytes.flat_map(u32::to_be_bytes).collect()
}

/// What is left. A byte more is lent than it has, and stays.
fn left(rows: &[(u32, u32)], samples: &[u8]) -> Result<(Vec<u8>, Vec<u8>), Refusal> {
    let table = table(rows);
    let need = room(&table, samples)?;
    let mut rows = vec![0xA5; need.table_bytes + 1];
    let mut bytes = vec![0xA5; need.sample_bytes + 1];
    let dropped = drop_zero_durations(&table, samples, &mut rows, &mut bytes);
    assert_eq!(dropped, Ok(need));
    assert_eq!((rows.pop(), bytes.pop()), (Some(0xA5), Some(0xA5)));
    assert_eq!(rows.len(), 8 * need.samples);
    Ok((rows, bytes))
}

#[test]
fn samples_that_last_are_copied() {
    let some = |rows: &[(u32, u32)], bytes: &[u8]| Ok((table(rows), bytes.to_vec()));
    assert_eq!(left(&[], b""), some(&[], b""));
    assert_eq!(
        left(&[(1, 1), (2, 2)], b"abb"),
        some(&[(1, 1), (2, 2)], b"abb")
    );
    assert_eq!(left(&[(1, 1), (0, 2)], b"abb"), some(&[(1, 1)], b"a"));
    assert_eq!(left(&[(0, 2), (1, 1)], b"bba"), some(&[(1, 1)], b"a"));
    let rows = [(0, 1), (5, 2), (0, 1), (0, 3), (u32::MAX, 1), (0, 1)];
    let kept = some(&[(5, 2), (u32::MAX, 1)], b"bbe");
    assert_eq!(left(&rows, b"abbcdddef"), kept);
    assert_eq!(left(&[(0, 1), (0, 1)], b"ab"), some(&[], b""));
}

#[test]
fn faults_come_in_order() {
    let refused = |rows: &[(u32, u32)], samples: &[u8]| left(rows, samples).err();
    let at = |number, place| Some(Refusal::new(number, place));
    assert_eq!(refused(&[(0, 1), (1, 0), (1, 9)], b"a"), at(4, 1));
    assert_eq!(refused(&[(0, 1), (0, 2), (1, 0)], b"ab"), at(1, 1));
    assert_eq!(refused(&[(0, 1), (1, 1)], b"abc"), at(2, 2));
    assert_eq!(refused(&[], b"a"), at(2, 0));
    assert_eq!(room(&[0; 9], b""), Err(Refusal::new(1, 0)));
    assert_eq!(refused(&vec![(0, 0); 65_537], b""), at(9, 0));
    assert_eq!(refused(&vec![(0, 0); 65_536], b""), at(4, 0));
    assert_eq!(refused(&vec![(0, 1); 65_536], &[7; 65_536]), None);
}

#[test]
fn room_comes_last() {
    let table = table(&[(3, 2), (0, 1)]);
    let write = |rows: usize, bytes: usize| {
        let (mut rows, mut bytes) = (vec![1; rows], vec![1; bytes]);
        let dropped = drop_zero_durations(&table, b"abc", &mut rows, &mut bytes);
        let kept = rows.iter().chain(&bytes).all(|&b| b == 1);
        (dropped, kept)
    };
    assert_eq!(write(7, 0), (Err(Refusal::new(15, 0)), true));
    assert_eq!(write(8, 1), (Err(Refusal::new(15, 1)), true));
    let dropped = Dropped {
        samples: 1,
        table_bytes: 8,
        sample_bytes: 2,
    };
    assert_eq!(write(8, 2), (Ok(dropped), false));
    assert_eq!(room(&table, b"abc"), Ok(dropped));
}
