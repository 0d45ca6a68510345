//! Document 01's worked windows A to H and its run-only cases, through the binding.

use point_store::{Added, Laid, PointStore, ProvedPointStore, Refusal, Result, NONE};

/// Dimensions 4, shingle size 2, internal shingling, labels off, capacity 10.
fn opened(initial_capacity: usize, internal_rotation: bool) -> ProvedPointStore {
    ProvedPointStore::new(
        4,
        2,
        10,
        initial_capacity,
        true,
        internal_rotation,
        false,
        false,
    )
    .unwrap()
}

fn kept(index: usize, laid: Laid, free_indices: usize) -> Result<Added> {
    Ok(Added::Kept {
        index,
        label: NONE,
        laid,
        free_indices,
    })
}

/// The adds 1 2, 3 4, 5 6 of A, B and C.
fn add_three(store: &mut ProvedPointStore, start: usize) {
    assert_eq!(store.add_laid(&[1.0, 2.0], 0), Ok(Added::Waiting));
    assert_eq!(store.free_start(), Ok(0));
    let (first, second) = (
        kept(0, Laid::Whole(0), start - 1),
        kept(1, Laid::Joined(1), start - 2),
    );
    assert_eq!(store.add_laid(&[3.0, 4.0], 0), first);
    assert_eq!(store.free_start(), Ok(4));
    assert_eq!(store.add_laid(&[5.0, 6.0], 0), second);
    assert_eq!(store.free_start(), Ok(6));
}

/// These and 7 8, 9 10.
fn add_five(store: &mut ProvedPointStore, start: usize) {
    add_three(store, start);
    let (third, fourth) = (
        kept(2, Laid::Joined(2), start - 3),
        kept(3, Laid::Joined(3), start - 4),
    );
    assert_eq!(store.add_laid(&[7.0, 8.0], 0), third);
    assert_eq!(store.add_laid(&[9.0, 10.0], 0), fourth);
    assert_eq!(store.free_start(), Ok(10));
    assert_eq!(store.live_number(), Ok(4));
}

#[test]
fn a_b_c_windows_are_laid() {
    let mut store = opened(5, false);
    add_five(&mut store, 5);
    assert_eq!(store.copy(0), Ok(vec![1.0, 2.0, 3.0, 4.0]));
    assert_eq!(store.copy(1), Ok(vec![3.0, 4.0, 5.0, 6.0]));
    assert_eq!(store.copy(2), Ok(vec![5.0, 6.0, 7.0, 8.0]));
    assert_eq!(store.copy(3), Ok(vec![7.0, 8.0, 9.0, 10.0]));
}

#[test]
fn d_e_compaction_moves_windows_down() {
    let mut store = opened(5, false);
    add_five(&mut store, 5);
    store.dec(0, NONE).unwrap();
    store.dec(1, NONE).unwrap();
    store.compact().unwrap();
    assert_eq!(store.free_start(), Ok(6));
    assert_eq!(store.copy(2), Ok(vec![5.0, 6.0, 7.0, 8.0]));
    assert_eq!(store.copy(3), Ok(vec![7.0, 8.0, 9.0, 10.0]));
    let again = kept(0, Laid::Joined(2), 2);
    assert_eq!(store.add_laid(&[11.0, 12.0], 0), again);
    assert_eq!(store.copy(0), Ok(vec![9.0, 10.0, 11.0, 12.0]));
}

#[test]
fn f_a_rotating_copy_is_turned() {
    let mut store = opened(5, true);
    add_three(&mut store, 5);
    assert_eq!(store.copy(1), Ok(vec![5.0, 6.0, 3.0, 4.0]));
}

#[test]
fn g_rotation_keeps_the_turn_with_zeros() {
    for (rotating, free_start) in [(true, 10), (false, 8)] {
        let mut store = opened(5, rotating);
        add_five(&mut store, 5);
        let before = store.copy(1);
        store.dec(0, NONE).unwrap();
        store.compact().unwrap();
        assert_eq!(store.free_start(), Ok(free_start));
        assert_eq!(store.copy(1), before);
    }
}

/// H up to its last add.
fn rows_of_h() -> ProvedPointStore {
    let mut store = ProvedPointStore::new(4, 2, 2, 2, false, true, false, false).unwrap();
    assert_eq!(
        store.add_laid(&[1.0, 2.0, 3.0, 4.0], 0),
        kept(0, Laid::Whole(0), 1)
    );
    assert_eq!(
        store.add_laid(&[3.0, 4.0, 5.0, 6.0], 0),
        kept(1, Laid::Joined(1), 0)
    );
    store.dec(0, NONE).unwrap();
    store
}

#[test]
fn h_a_row_that_finds_no_space_is_refused() {
    let mut store = rows_of_h();
    assert_eq!(store.add_laid(&[9.0; 4], 0), Err(Refusal::FloatSpaceFull));
    assert_eq!(store.free_start(), Ok(6));
    assert_eq!(store.live_number(), Ok(1));
    assert_eq!(store.copy(1), Ok(vec![5.0, 6.0, 3.0, 4.0]));
}

#[test]
fn h_a_row_that_joins_is_kept() {
    let mut store = rows_of_h();
    assert_eq!(
        store.add_laid(&[5.0, 6.0, 9.0, 9.0], 0),
        kept(0, Laid::Joined(2), 0)
    );
    assert_eq!(store.free_start(), Ok(8));
}

#[test]
fn a_start_of_four_gives_a_fifth_index() {
    let mut store = opened(4, false);
    add_five(&mut store, 4);
    let fifth = kept(4, Laid::Joined(4), 0);
    assert_eq!(store.add_laid(&[11.0, 12.0], 0), fifth);
    assert_eq!(store.live_number(), Ok(5));
}

#[test]
fn a_start_of_five_gives_a_sixth_index() {
    let mut store = opened(5, false);
    add_five(&mut store, 5);
    let (fifth, sixth) = (kept(4, Laid::Joined(4), 0), kept(5, Laid::Joined(5), 0));
    assert_eq!(store.add_laid(&[11.0, 12.0], 0), fifth);
    assert_eq!(store.add_laid(&[1.0, 2.0], 0), sixth);
}

/// A table of ten grows by two: the new one is taken, and one more is free.
#[test]
fn the_figure_counts_the_grown_table() {
    let mut store = ProvedPointStore::new(1, 1, 12, 10, false, false, false, false).unwrap();
    let figures: Vec<usize> = (0..12)
        .map(|k| match store.add_laid(&[k as f32], 0) {
            Ok(Added::Kept { free_indices, .. }) => free_indices,
            other => panic!("{other:?}"),
        })
        .collect();
    assert_eq!(figures, [9, 8, 7, 6, 5, 4, 3, 2, 1, 0, 1, 0]);
    store.inc(3, NONE).unwrap();
    store.dec(3, NONE).unwrap();
    store.dec(3, NONE).unwrap();
    store.dec(7, NONE).unwrap();
    let again = kept(7, Laid::Whole(10), 1);
    assert_eq!(store.add_laid(&[7.5], 0), again);
}

#[test]
fn a_count_ends_at_65_535() {
    let mut store = opened(5, false);
    add_three(&mut store, 5);
    for _ in 0..65_533 {
        store.inc(0, NONE).unwrap();
    }
    assert_eq!(store.count(0), Ok(65_534));
    assert_eq!(store.inc(0, NONE), Ok(()));
    assert_eq!(store.inc(0, NONE), Err(Refusal::CountFull));
    assert_eq!(store.count(0), Ok(65_535));
}
