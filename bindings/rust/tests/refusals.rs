//! Each refusal that a store's caller can meet, and that a refused call changes nothing.

use point_store::{PointStore, ProvedPointStore, Refusal, Result, Shape, NONE};

/// Two floats to a point, no shingling, labels on, capacity 2.
fn labelled() -> ProvedPointStore {
    ProvedPointStore::new(2, 1, 2, 2, false, false, true, false).unwrap()
}

/// The record and every table.
fn state(store: &ProvedPointStore) -> String {
    format!("{store:?}")
}

fn opening(shape: [usize; 4]) -> Result<ProvedPointStore> {
    ProvedPointStore::new(
        shape[0], shape[1], shape[2], shape[3], true, true, true, true,
    )
}

#[test]
fn a_shape_outside_the_bounds_opens_nothing() {
    for shape in [
        [0, 1, 1, 1],
        [65, 1, 1, 1],
        [4, 0, 1, 1],
        [4, 3, 1, 1],
        [4, 8, 1, 1],
        [1, 1, 0, 0],
        [1, 1, 1_025, 1],
        [17, 1, 1_024, 1],
        [1, 1, 4, 0],
        [1, 1, 4, 5],
        [1 << 32, 1 << 32, 1 << 32, 1],
        [1 << 60, 1, 1 << 60, 1 << 60],
        [NONE, NONE, NONE, NONE],
    ] {
        assert_eq!(opening(shape).map(|_| ()), Err(Refusal::Shape), "{shape:?}");
    }
}

#[test]
fn the_bounds_themselves_are_taken() {
    for shape in [
        [1, 1, 1, 1],
        [64, 64, 256, 256],
        [16, 1, 1_024, 1],
        [16, 16, 1_024, 1_024],
    ] {
        assert_eq!(opening(shape).unwrap().live_number(), Ok(0));
    }
}

#[test]
fn a_wrong_length_is_refused() {
    let mut store = labelled();
    store.add(&[1.0, 2.0], 0).unwrap();
    let before = state(&store);
    assert_eq!(store.add(&[], 0), Err(Refusal::Length));
    assert_eq!(store.add(&[1.0], 0), Err(Refusal::Length));
    assert_eq!(store.add(&[1.0, 2.0, 3.0], 0), Err(Refusal::Length));
    assert_eq!(store.is_equal(&[1.0], 0), Err(Refusal::Length));
    assert_eq!(store.shingled_point(&[1.0]), Err(Refusal::Length));
    assert_eq!(state(&store), before);
}

#[test]
fn a_code_above_23_is_refused_where_labels_are_on() {
    let mut store = labelled();
    for code in [24, 256, NONE] {
        assert_eq!(store.add(&[1.0, 2.0], code), Err(Refusal::LabelCode));
    }
    assert_eq!(store.live_number(), Ok(0));
    let mut unlabelled = ProvedPointStore::new(2, 1, 2, 2, false, false, false, false).unwrap();
    assert_eq!(unlabelled.add(&[1.0, 2.0], NONE), Ok((0, NONE, None)));
}

#[test]
fn an_index_not_in_use_is_refused() {
    let mut store = labelled();
    store.add(&[1.0, 2.0], 0).unwrap();
    let before = state(&store);
    for index in [1, 2, 65_536, NONE] {
        assert_eq!(store.inc(index, 0), Err(Refusal::PointNotInUse));
        assert_eq!(store.dec(index, 0), Err(Refusal::PointNotInUse));
        assert_eq!(store.count(index), Err(Refusal::PointNotInUse));
        assert_eq!(store.copy(index), Err(Refusal::PointNotInUse));
        assert_eq!(store.is_equal(&[], index), Err(Refusal::PointNotInUse));
        assert_eq!(
            store.point_sum(&[(0, 1), (index, 1)]),
            Err(Refusal::PointNotInUse)
        );
    }
    assert_eq!(state(&store), before);
}

#[test]
fn a_label_not_in_use_is_refused() {
    let mut store = labelled();
    store.add(&[1.0, 2.0], 0).unwrap();
    let before = state(&store);
    for label in [1, 2, NONE] {
        assert_eq!(store.inc(0, label), Err(Refusal::LabelNotInUse));
        assert_eq!(store.dec(0, label), Err(Refusal::LabelNotInUse));
        assert_eq!(store.label(label), Err(Refusal::LabelNotInUse));
        assert_eq!(store.attribute(label), Err(Refusal::LabelNotInUse));
        assert_eq!(store.attribute_vec(label), Err(Refusal::LabelNotInUse));
    }
    assert_eq!(state(&store), before);
}

#[test]
fn labels_off_dec_takes_none_alone() {
    let mut store = ProvedPointStore::new(2, 1, 2, 2, false, false, false, false).unwrap();
    store.add(&[1.0, 2.0], 0).unwrap();
    assert_eq!(store.inc(0, 7), Ok(()));
    assert_eq!(store.dec(0, 0), Err(Refusal::LabelNotInUse));
    assert_eq!(store.dec(0, NONE), Ok(()));
    assert_eq!(store.label(0), Err(Refusal::LabelNotInUse));
}

#[test]
fn an_add_without_a_free_label_is_refused() {
    let mut store = labelled();
    store.add(&[1.0, 2.0], 0).unwrap();
    store.add(&[3.0, 4.0], 0).unwrap();
    // Point 1 is given up while both labels stay.
    store.inc(0, 1).unwrap();
    store.dec(1, 1).unwrap();
    assert_eq!(store.add(&[5.0, 6.0], 0), Err(Refusal::LabelsFull));
    store.dec(0, 0).unwrap();
    assert_eq!(store.add(&[5.0, 6.0], 5), Ok((1, 0, None)));
}

#[test]
fn an_add_without_a_free_index_is_refused() {
    let mut store = ProvedPointStore::new(2, 1, 2, 2, false, false, false, false).unwrap();
    store.add(&[1.0, 2.0], 0).unwrap();
    store.add(&[3.0, 4.0], 0).unwrap();
    let before = state(&store);
    assert_eq!(store.add(&[5.0, 6.0], 0), Err(Refusal::PointsFull));
    assert_eq!(state(&store), before);
}

#[test]
fn values_too_large_are_refused() {
    let mut store = labelled();
    store.add(&[1.0, 2.0], 0).unwrap();
    assert_eq!(
        store.missing_indices(0, &[0, 1, 2]),
        Err(Refusal::ValueTooLarge)
    );
    assert_eq!(store.missing_indices(65_535, &[0, 1]), Ok(vec![0, 1]));
    assert_eq!(
        store.missing_indices(65_536, &[]),
        Err(Refusal::ValueTooLarge)
    );
    assert_eq!(store.next_indices(65_536), Err(Refusal::ValueTooLarge));
    assert!(store.point_sum(&[(0, 16_777_216)]).is_ok());
    assert_eq!(
        store.point_sum(&[(0, 16_777_217), (1, 1)]),
        Err(Refusal::ValueTooLarge)
    );
    assert_eq!(
        store.point_sum(&[(1, 16_777_217)]),
        Err(Refusal::PointNotInUse)
    );
}

#[test]
fn a_refused_pair_ends_an_adjust() {
    let mut store = labelled();
    store.add(&[1.0, 2.0], 0).unwrap();
    store.add(&[3.0, 4.0], 9).unwrap();
    let none = (NONE, NONE);
    let pairs = [
        (none, (1, 1)),
        ((0, 0), none),
        ((0, 0), (1, 5)),
        ((0, 0), none),
    ];
    let refused = store.adjust_count_detailed(&pairs).unwrap_err();
    assert_eq!(refused.refusal, Refusal::LabelNotInUse);
    assert_eq!(refused.pairs_before, 2);
    assert_eq!(store.count(0), Ok(2));
    assert_eq!(store.count(1), Ok(1));
    assert_eq!(store.adjust_count(&pairs), Err(Refusal::LabelNotInUse));
    assert_eq!(store.count(0), Ok(3));
}

#[test]
fn a_pair_may_give_its_count_to_another_point() {
    let mut store = labelled();
    store.add(&[1.0, 2.0], 0).unwrap();
    store.add(&[3.0, 4.0], 9).unwrap();
    assert_eq!(store.adjust_count(&[]), Ok(()));
    assert_eq!(
        store.adjust_count(&[((0, 0), (1, 1)), ((0, 0), (0, 0))]),
        Ok(())
    );
    assert_eq!(store.count(0), Ok(2));
    assert_eq!(store.count(1), Err(Refusal::PointNotInUse));
    assert_eq!(store.label(1), Err(Refusal::LabelNotInUse));
}

#[test]
fn point_and_label_keep_their_positions() {
    let mut store = labelled();
    store.add(&[1.0, 2.0], 0).unwrap();
    store.add(&[3.0, 4.0], 9).unwrap();
    // Point 0 takes over label 1, and point 1 is given up.
    store.adjust_count(&[((0, 1), (1, 1))]).unwrap();
    assert_eq!(store.count(0), Ok(2));
    assert_eq!(store.count(1), Err(Refusal::PointNotInUse));
    store.dec(0, 0).unwrap();
    assert_eq!(store.count(0), Ok(1));
    assert_eq!(store.label(0), Err(Refusal::LabelNotInUse));
    assert_eq!(store.label(1), Ok(9));
    store.inc(0, 1).unwrap();
    assert_eq!(store.count(0), Ok(2));
}

// The text of a table, code by code.
fn text_of(classes: impl Fn(usize) -> usize) -> Vec<u8> {
    let lines = (0..24).map(|code| format!("{code:4}{:4}\n", classes(code)));
    lines.collect::<String>().into_bytes()
}

#[test]
fn the_class_is_that_of_the_loaded_table() {
    // the classes fall
    let text = text_of(|code| 2_usize.saturating_sub(code));
    let shape = Shape::new(1, 4).labels(true).classes(&text);
    let mut store = shape.open().unwrap();
    for code in 0..4 {
        let (_, label, _) = store.add(&[1.0], code).unwrap();
        assert_eq!(
            store.attribute(label).unwrap(),
            2_usize.saturating_sub(code)
        );
    }
    let built_in = Shape::new(1, 4).labels(true);
    let mut store = built_in.open().unwrap();
    let (_, label, _) = store.add(&[1.0], 23).unwrap();
    assert_eq!(store.attribute(label).unwrap(), 9);
}

#[test]
fn any_other_text_is_refused_after_shape_width_and_memory() {
    let good = text_of(|code| code % 3);
    let refused = |shape: Shape<'_>| shape.open().unwrap_err();
    let shape = Shape::new(1, 2);
    assert!(shape.classes(&good).open().is_ok());
    for text in [
        text_of(|code| if code == 23 { 2 } else { 0 }),
        text_of(|_| 1),
        text_of(|code| code % 11),
        good[9..].to_vec(),
        [&good[..], b"\n"].concat(),
        good.iter()
            .map(|b| if *b == b' ' { b'0' } else { *b })
            .collect(),
        Vec::new(),
    ] {
        assert_eq!(refused(shape.classes(&text)), Refusal::ClassText);
        assert_eq!(
            shape.classes(&text).open_hold(1).unwrap_err(),
            Refusal::ClassText
        );
        assert_eq!(
            shape.classes(&text).open_hold(2).unwrap_err(),
            Refusal::HoldWidth
        );
        assert_eq!(refused(Shape::new(65, 1).classes(&text)), Refusal::Shape);
    }
}
