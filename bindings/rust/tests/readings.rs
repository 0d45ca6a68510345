//! The readings: what they answer, and that a float's bits come back as they were given.

use point_store::{PointStore, ProvedPointStore, NONE};

/// Document 01's classes of the codes 0 to 23.
const CLASSES: [usize; 24] = [
    0, 0, 0, 1, 1, 2, 2, 2, 3, 3, 4, 4, 5, 5, 5, 6, 6, 6, 7, 7, 8, 8, 9, 9,
];

fn shingling(internal_rotation: bool) -> ProvedPointStore {
    ProvedPointStore::new(4, 2, 10, 5, true, internal_rotation, false, false).unwrap()
}

#[test]
fn bits_come_back_as_they_were() {
    let bits = [0x7fc0_0001, 0xffa1_2345, 0x8000_0000, 0x0000_0001];
    let row = bits.map(f32::from_bits);
    let mut store = ProvedPointStore::new(4, 1, 4, 4, false, false, false, false).unwrap();
    let (index, _, _) = store.add(&row, 0).unwrap();
    let copied: Vec<u32> = store
        .copy(index)
        .unwrap()
        .iter()
        .map(|x| x.to_bits())
        .collect();
    assert_eq!(copied, bits);
    let unchanged: Vec<u32> = store
        .shingled_point(&row)
        .unwrap()
        .iter()
        .map(|x| x.to_bits())
        .collect();
    assert_eq!(unchanged, bits);
}

#[test]
fn equality_is_that_of_bits() {
    let [nan, other_nan] = [0x7fc0_0001, 0x7fc0_0002].map(f32::from_bits);
    let mut store = ProvedPointStore::new(2, 1, 4, 4, false, false, false, false).unwrap();
    store.add(&[0.0, 1.0], 0).unwrap();
    store.add(&[nan, 1.0], 0).unwrap();
    assert_eq!(store.is_equal(&[0.0, 1.0], 0), Ok(true));
    assert_eq!(store.is_equal(&[-0.0, 1.0], 0), Ok(false));
    assert_eq!(store.is_equal(&[0.0, 1.5], 0), Ok(false));
    assert_eq!(store.is_equal(&[nan, 1.0], 1), Ok(true));
    assert_eq!(store.is_equal(&[other_nan, 1.0], 1), Ok(false));
}

#[test]
fn equality_is_with_the_turned_copy() {
    let mut store = shingling(true);
    for reading in [[1.0, 2.0], [3.0, 4.0], [5.0, 6.0]] {
        store.add(&reading, 0).unwrap();
    }
    assert_eq!(store.is_equal(&[5.0, 6.0, 3.0, 4.0], 1), Ok(true));
    assert_eq!(store.is_equal(&[3.0, 4.0, 5.0, 6.0], 1), Ok(false));
}

#[test]
fn a_nan_row_is_joined() {
    let mut store = ProvedPointStore::new(2, 2, 4, 4, true, false, false, false).unwrap();
    for reading in [1.0, f32::NAN, 2.0] {
        store.add(&[reading], 0).unwrap();
    }
    assert_eq!(store.free_start(), Ok(3));
}

#[test]
fn a_zero_of_the_other_sign_is_not_joined() {
    let mut store = ProvedPointStore::new(2, 2, 4, 4, false, false, false, false).unwrap();
    store.add(&[1.0, 0.0], 0).unwrap();
    let (index, _, _) = store.add(&[-0.0, 2.0], 0).unwrap();
    assert_eq!(store.free_start(), Ok(4));
    assert!(store.copy(index).unwrap()[0].is_sign_negative());
}

#[test]
fn a_sum_is_weighted_and_not_turned() {
    let mut store = shingling(true);
    for reading in [[1.0, 2.0], [3.0, 4.0], [5.0, 6.0]] {
        store.add(&reading, 0).unwrap();
    }
    assert_eq!(store.point_sum(&[]), Ok(vec![0.0; 4]));
    assert_eq!(store.point_sum(&[(1, 1)]), Ok(vec![3.0, 4.0, 5.0, 6.0]));
    assert_eq!(
        store.point_sum(&[(0, 10), (1, 2)]),
        Ok(vec![16.0, 28.0, 40.0, 52.0])
    );
}

#[test]
fn the_next_window_is_previewed() {
    let mut store = shingling(false);
    store.add(&[1.0, 2.0], 0).unwrap();
    store.add(&[3.0, 4.0], 0).unwrap();
    assert_eq!(
        store.shingled_point(&[5.0, 6.0]),
        Ok(vec![3.0, 4.0, 5.0, 6.0])
    );
    assert_eq!(
        store.shingled_point(&[5.0, 6.0]),
        Ok(vec![3.0, 4.0, 5.0, 6.0])
    );
    let mut rotating = shingling(true);
    for reading in [[1.0, 2.0], [3.0, 4.0], [5.0, 6.0]] {
        rotating.add(&reading, 0).unwrap();
    }
    // The window is 3 4 5 6; the fourth reading goes over entry 6 mod 4.
    assert_eq!(
        rotating.shingled_point(&[7.0, 8.0]),
        Ok(vec![3.0, 4.0, 7.0, 8.0])
    );
}

#[test]
fn index_lists() {
    let store = shingling(false);
    assert_eq!(store.missing_indices(7, &[1, 0]), Ok(vec![3, 2]));
    assert_eq!(store.next_indices(7), Ok(vec![2, 3]));
    let mut rotating = shingling(true);
    rotating.add(&[1.0, 2.0], 0).unwrap();
    assert_eq!(rotating.missing_indices(0, &[1, 0]), Ok(vec![3, 2]));
    assert_eq!(rotating.missing_indices(1, &[1, 0]), Ok(vec![1, 0]));
    assert_eq!(rotating.next_indices(2), Ok(vec![2, 3]));
    let whole = ProvedPointStore::new(4, 2, 10, 5, false, false, false, false).unwrap();
    assert_eq!(whole.missing_indices(3, &[3, 0]), Ok(vec![3, 0]));
    assert_eq!(whole.next_indices(3), Ok(vec![0, 1]));
}

#[test]
fn every_code_has_its_class() {
    let mut store = ProvedPointStore::new(1, 1, 24, 24, false, false, true, false).unwrap();
    for (code, class) in CLASSES.into_iter().enumerate() {
        assert_eq!(store.add(&[code as f32], code), Ok((code, code, None)));
        assert_eq!(store.label(code), Ok(code));
        assert_eq!(store.attribute(code), Ok(class));
    }
}

#[test]
fn one_hot_is_at_the_slot_and_not_at_the_class() {
    let mut store = ProvedPointStore::new(1, 1, 4, 4, false, false, true, false).unwrap();
    let (_, first, _) = store.add(&[1.0], 9).unwrap();
    let (_, second, _) = store.add(&[2.0], 22).unwrap();
    let mut expected = vec![0.0; 10];
    expected[0] = 1.0;
    assert_eq!(store.attribute_vec(first), Ok(expected));
    let mut expected = vec![0.0; 10];
    expected[1] = 1.0;
    assert_eq!(store.attribute_vec(second), Ok(expected));
}

#[test]
fn the_name_is_the_librarys() {
    let name = ProvedPointStore::name();
    let version = concat!("point store ", env!("CARGO_PKG_VERSION"), ";");
    assert!(name.starts_with(version), "{name}");
    assert!(name.contains("05b18fcda4"), "{name}");
}

#[test]
fn a_page_has_a_line_for_each_live_index() {
    let mut store = shingling(false);
    assert_eq!(store.page().as_deref(), Ok(""));
    for k in 0..5 {
        let x = (2 * k + 1) as f32;
        store.add(&[x, x + 1.0], 0).unwrap();
    }
    for index in [0, 1] {
        store.dec(index, NONE).unwrap();
    }
    store.compact().unwrap();
    let page = "     2     1     0\n     3     1     1\n";
    assert_eq!(store.page().as_deref(), Ok(page));
}
