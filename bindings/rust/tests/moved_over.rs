//! An analyser written against the trait, as the Rust original's callers write theirs: it names no
//! store but where one is made.

use point_store::{PointStore, ProvedPointStore, Result};
use std::thread;

/// Keeps the latest `keep` windows of a series, and gives the mean of those kept.
fn mean_of_latest<Store: PointStore<usize, usize>>(
    store: &mut Store,
    series: &[f32],
    keep: usize,
) -> Result<Vec<f32>> {
    let mut held: Vec<(usize, usize)> = Vec::new();
    for &reading in series {
        let (index, label, attributes) = store.add(&[reading], 3)?;
        assert_eq!(attributes, None);
        if index == usize::MAX {
            continue;
        }
        held.push((index, label));
        if held.len() > keep {
            let oldest = held.remove(0);
            store.dec(oldest.0, oldest.1)?;
        }
    }
    store.compact()?;
    let weights: Vec<(usize, usize)> = held.iter().map(|&(index, _)| (index, 1)).collect();
    let sum = store.point_sum(&weights)?;
    Ok(sum.iter().map(|x| x / held.len() as f32).collect())
}

#[test]
fn an_analyser_moves_over() {
    let series: Vec<f32> = (1..=100).map(|n| n as f32).collect();
    for labels in [false, true] {
        let mut store = ProvedPointStore::new(4, 4, 8, 5, true, false, labels, false).unwrap();
        let mean = mean_of_latest(&mut store, &series, 3).unwrap();
        assert_eq!(mean, [96.0, 97.0, 98.0, 99.0]);
        assert_eq!(store.live_number(), Ok(3));
        assert_eq!(store.free_start(), Ok(6));
    }
}

/// Generic over the label as well, as the original's callers may be.
fn class_of_first<Label, Attributes, Store>(
    store: &mut Store,
    row: &[f32],
    label: Label,
) -> Result<Attributes>
where
    Label: Copy + Sync + Into<Attributes>,
    Attributes: Copy + Sync + std::hash::Hash + Eq + Send,
    Store: PointStore<Label, Attributes>,
{
    let (_, label_index, _) = store.add(row, label)?;
    store.attribute(label_index)
}

#[test]
fn a_caller_generic_over_labels_moves_over() {
    let mut store = ProvedPointStore::new(1, 1, 4, 4, false, false, true, false).unwrap();
    assert_eq!(class_of_first(&mut store, &[60.0], 23), Ok(9));
}

#[test]
fn a_store_can_be_lent_to_another_thread() {
    let mut store = ProvedPointStore::new(1, 1, 4, 4, false, false, false, false).unwrap();
    store.add(&[60.0], 0).unwrap();
    let copied = thread::scope(|scope| {
        let readers = [0, 1].map(|_| scope.spawn(|| store.copy(0)));
        readers.map(|reader| reader.join().unwrap())
    });
    assert_eq!(copied, [Ok(vec![60.0]), Ok(vec![60.0])]);
}

#[test]
fn a_clone_has_memory_of_its_own() {
    let mut store = ProvedPointStore::new(1, 1, 4, 4, false, false, false, false).unwrap();
    store.add(&[60.0], 0).unwrap();
    let kept = store.clone();
    store.dec(0, usize::MAX).unwrap();
    assert_eq!(store.live_number(), Ok(0));
    assert_eq!(kept.copy(0), Ok(vec![60.0]));
}
