//! A store over lent memory answers as the one that owns its memory, and its block is all that it
//! touches; the shape's builder; the manager by itself.

use point_store::{
    Added, AdjustRefusal, Given, IntervalManager, Item, LentMemory, LentPointStore, Pair,
    PointStore, ProvedPointStore, Refusal, Result, Shape, NONE,
};

const UNTOUCHED: u64 = 0xa5a5_a5a5_a5a5_a5a5;

fn shape(rotating: bool, labels: bool) -> Shape<'static> {
    Shape::new(4, 7)
        .shingle_size(2)
        .initial_capacity(5)
        .internal_shingling(true)
        .internal_rotation(rotating)
        .labels(labels)
}

/// The same calls to both, with the answers compared; every call is met, and some are refused.
fn compared(rotating: bool, labels: bool) {
    let shape = shape(rotating, labels);
    let words = shape.block_words();
    let mut block = vec![UNTOUCHED; words + 3];
    let mut lent = shape
        .open_in(LentMemory::in_block(&mut block[1..=words], &shape).unwrap())
        .unwrap();
    let mut owned = shape.open().unwrap();
    assert_eq!((lent.dimensions(), lent.base()), (4, 2));
    let mut row = [0.0; 4];
    let mut numbers = [0; 2];
    let mut vec = [0.0; 10];
    for step in 0..200_usize {
        let reading = [(step / 3) as f32, 1.0];
        assert_eq!(
            lent.add(&reading, step % 25),
            owned.add_laid(&reading, step % 25)
        );
        let index = step % 7;
        let label = if labels { step % 5 } else { NONE };
        if step % 4 == 0 {
            assert_eq!(lent.inc(index, label), owned.inc(index, label));
        } else {
            assert_eq!(lent.dec(index, label), owned.dec(index, label));
        }
        let pair = Pair {
            insert_index: index,
            insert_label: label,
            delete_index: (step + 1) % 7,
            delete_label: label,
        };
        let as_tuple = ((index, label), ((step + 1) % 7, label));
        assert_eq!(
            lent.adjust(&[pair, pair]),
            owned.adjust_count_detailed(&[as_tuple; 2])
        );
        if step % 10 == 0 {
            assert_eq!(lent.compact(), owned.compact());
        }
        assert_eq!(
            lent.copy(index, &mut row).map(|()| row.to_vec()),
            owned.copy(index)
        );
        assert_eq!(lent.count(index), owned.count(index));
        assert_eq!(lent.live_number(), owned.live_number());
        assert_eq!(lent.free_start(), owned.free_start());
        let page = owned.page().unwrap();
        let mut text = vec![b'#'; page.len() + 1];
        assert_eq!(lent.page(&mut text), Ok(page.len()));
        assert_eq!(text, (page.clone() + "#").into_bytes());
        let short = page.len().saturating_sub(1);
        if short < page.len() {
            assert_eq!(lent.page(&mut text[..short]), Err(Refusal::TextLength));
        }
        assert_eq!(lent.is_equal(&row, index), owned.is_equal(&row, index));
        let items = [
            Item { index, weight: 3 },
            Item {
                index,
                weight: step,
            },
        ];
        assert_eq!(
            lent.point_sum(&items, &mut row).map(|()| row.to_vec()),
            owned.point_sum(&[(index, 3), (index, step)])
        );
        assert_eq!(
            lent.shingled_point(&reading, &mut row)
                .map(|()| row.to_vec()),
            owned.shingled_point(&reading)
        );
        assert_eq!(
            lent.missing_indices(step, &[1, 0], &mut numbers)
                .map(|()| numbers.to_vec()),
            owned.missing_indices(step, &[1, 0])
        );
        assert_eq!(
            lent.next_indices(step, &mut numbers)
                .map(|()| numbers.to_vec()),
            owned.next_indices(step)
        );
        assert_eq!(lent.label(label), owned.label(label));
        assert_eq!(lent.attribute(label), owned.attribute(label));
        assert_eq!(
            lent.attribute_vec(label, &mut vec).map(|()| vec.to_vec()),
            owned.attribute_vec(label)
        );
    }
    assert_eq!(
        [block[0], block[words + 1], block[words + 2]],
        [UNTOUCHED; 3]
    );
}

#[test]
fn lent_and_owned_answer_alike() {
    for rotating in [false, true] {
        for labels in [false, true] {
            compared(rotating, labels);
        }
    }
}

#[test]
fn a_short_block_or_a_bad_shape_lends_nothing() {
    let shape = shape(false, true);
    let mut block = vec![0; shape.block_words()];
    let short = block.len() - 1;
    assert!(LentMemory::in_block(&mut block, &shape).is_ok());
    let refused = LentMemory::in_block(&mut block[..short], &shape);
    assert_eq!(refused.unwrap_err(), Refusal::IllFormed);
    for bad in [
        Shape::new(65, 1),
        Shape::new(4, 4).shingle_size(3),
        Shape::new(NONE, NONE),
    ] {
        assert_eq!(bad.check(), Err(Refusal::Shape));
        assert_eq!(bad.block_words(), 0);
        assert_eq!(bad.open().map(|_| ()), Err(Refusal::Shape));
        assert_eq!(
            LentMemory::in_block(&mut block, &bad).unwrap_err(),
            Refusal::Shape
        );
    }
}

#[test]
fn memory_that_holds_no_store_is_not_resumed() {
    let shape = shape(false, false);
    let mut block = vec![0; shape.block_words()];
    let memory = LentMemory::in_block(&mut block, &shape).unwrap();
    assert_eq!(
        LentPointStore::resume(memory).map(|_| ()).unwrap_err(),
        Refusal::IllFormed
    );
    let memory = LentMemory::in_block(&mut block, &shape).unwrap();
    let mut store = shape.open_in(memory).unwrap();
    store.add(&[1.0, 2.0], 0).unwrap();
    let mut store = LentPointStore::resume(store.into_memory()).unwrap();
    assert!(matches!(
        store.add(&[3.0, 4.0], 0),
        Ok(Added::Kept { index: 0, .. })
    ));
    let memory = store.into_memory();
    memory.reference_count[3] = 1;
    assert_eq!(
        LentPointStore::resume(memory).map(|_| ()).unwrap_err(),
        Refusal::IllFormed
    );
}

#[test]
fn an_output_of_another_length_is_refused() {
    let shape = Shape::new(2, 2);
    let mut block = vec![0; shape.block_words()];
    let mut store = shape
        .open_in(LentMemory::in_block(&mut block, &shape).unwrap())
        .unwrap();
    store.add(&[1.0, 2.0], 0).unwrap();
    assert_eq!(store.copy(0, &mut [0.0; 3]), Err(Refusal::Length));
    assert_eq!(store.copy(0, &mut []), Err(Refusal::Length));
    assert_eq!(store.point_sum(&[], &mut [0.0; 1]), Err(Refusal::Length));
    let refused = store.adjust(&[Pair {
        insert_index: 1,
        insert_label: NONE,
        delete_index: NONE,
        delete_label: NONE,
    }]);
    assert_eq!(
        refused,
        Err(AdjustRefusal {
            refusal: Refusal::PointNotInUse,
            pairs_before: 0
        })
    );
}

#[test]
fn new_and_the_builder_open_the_same_store() {
    let built = ProvedPointStore::builder(4, 7)
        .shingle_size(2)
        .initial_capacity(5)
        .internal_shingling(true)
        .labels(true)
        .open()
        .unwrap();
    let made = ProvedPointStore::new(4, 2, 7, 5, true, false, true, false).unwrap();
    assert_eq!(format!("{built:?}"), format!("{made:?}"));
}

fn given(index: usize, free_indices: usize) -> Result<Given> {
    Ok(Given {
        index,
        free_indices,
    })
}

#[test]
fn the_manager_refuses_and_answers() {
    assert_eq!(
        IntervalManager::new([0; 4], [0; 4], 0).unwrap_err(),
        Refusal::ManagerCapacity
    );
    assert_eq!(
        IntervalManager::new([0; 4], [0; 4], 1_025).unwrap_err(),
        Refusal::ManagerCapacity
    );
    assert_eq!(
        IntervalManager::new([0; 4], [0; 4], 5).unwrap_err(),
        Refusal::IllFormed
    );
    let (mut starts, mut ends) = ([0; 6], [0; 6]);
    let mut manager = IntervalManager::new(&mut starts[..], &mut ends[..], 3).unwrap();
    assert_eq!(manager.get_capacity(), Ok(3));
    assert_eq!(
        [manager.get(), manager.get(), manager.get()],
        [given(0, 2), given(1, 1), given(2, 0)]
    );
    assert_eq!(
        (manager.get(), manager.is_empty()),
        (Err(Refusal::PointsFull), Ok(true))
    );
    assert_eq!(manager.release(3), Err(Refusal::NotReleasable));
    assert_eq!(
        (manager.release(1), manager.release(1)),
        (Ok(()), Err(Refusal::NotReleasable))
    );
    assert_eq!((manager.used(), manager.is_empty()), (Ok(2), Ok(false)));
    assert_eq!(manager.change_capacity(7), Err(Refusal::IllFormed));
    assert_eq!(
        manager.change_capacity(1_025),
        Err(Refusal::ManagerCapacity)
    );
    assert_eq!(
        (manager.change_capacity(5), manager.get_capacity()),
        (Ok(()), Ok(5))
    );
    assert_eq!(
        [manager.get(), manager.get(), manager.get()],
        [given(3, 2), given(4, 1), given(1, 0)]
    );
}
