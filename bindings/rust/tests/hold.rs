//! A hold that owns its memory, one over lent memory, and what each refuses.

use point_store::{
    Added, Hold, Laid, LentHold, LentHoldMemory, PointStore, Refusal, Result, Shape, HOLD_WORDS,
    NONE,
};

const LABELLED: Shape = Shape::new(2, 4).labels(true);

fn windows(hold: &Hold) -> Result<Vec<Vec<f32>>> {
    let held = hold.held()?;
    held.into_iter()
        .map(|index| hold.store().copy(index))
        .collect()
}

#[test]
fn the_newest_are_held() {
    let mut hold = LABELLED.open_hold(2).unwrap();
    assert_eq!((hold.width(), hold.number()), (2, Ok(0)));
    assert_eq!(hold.held(), Ok(vec![]));
    for k in 0..7 {
        let k = k as f32;
        hold.add(&[k, k + 0.5], 9).unwrap();
    }
    assert_eq!(hold.number(), Ok(2));
    assert_eq!(windows(&hold).unwrap(), [[5.0, 5.5], [6.0, 6.5]]);
    assert_eq!(hold.store().live_number(), Ok(2));
    for index in hold.held().unwrap() {
        assert_eq!(hold.store().count(index), Ok(1));
    }
}

#[test]
fn a_waiting_or_refused_add_gives_up_nothing() {
    let shape = Shape::new(2, 4).shingle_size(2).internal_shingling(true);
    let mut hold = shape.open_hold(1).unwrap();
    assert_eq!(hold.add(&[1.0], 0), Ok(Added::Waiting));
    assert_eq!(hold.number(), Ok(0));
    let kept = Added::Kept {
        index: 0,
        label: NONE,
        laid: Laid::Whole(0),
        free_indices: 3,
    };
    assert_eq!(hold.add(&[2.0], 0), Ok(kept));
    assert_eq!(hold.add(&[3.0, 4.0], 0), Err(Refusal::Length));
    assert_eq!(hold.held(), Ok(vec![0]));
}

#[test]
fn the_figure_is_from_before_the_oldest_goes() {
    let mut hold = LABELLED.open_hold(2).unwrap();
    let figures: Vec<usize> = (0..5)
        .map(|k| match hold.add(&[k as f32, 0.0], 0) {
            Ok(Added::Kept { free_indices, .. }) => free_indices,
            other => panic!("{other:?}"),
        })
        .collect();
    assert_eq!(figures, [3, 2, 1, 1, 1]);
    assert_eq!(hold.store().live_number(), Ok(2));
}

#[test]
fn compacting_leaves_what_is_held() {
    let mut hold = LABELLED.open_hold(2).unwrap();
    for k in 0..4 {
        hold.add(&[k as f32, 0.0], 0).unwrap();
    }
    let before = windows(&hold).unwrap();
    hold.compact().unwrap();
    assert_eq!(windows(&hold).unwrap(), before);
    assert_eq!(hold.store().free_start(), Ok(4));
}

#[test]
fn a_width_is_judged_after_the_shape() {
    for width in [0, 4, usize::MAX] {
        assert_eq!(LABELLED.open_hold(width).unwrap_err(), Refusal::HoldWidth);
        assert_eq!(LABELLED.check_hold(width), Err(Refusal::HoldWidth));
    }
    assert_eq!(LABELLED.check_hold(3), Ok(()));
    assert_eq!(Shape::new(65, 4).open_hold(0).unwrap_err(), Refusal::Shape);
    assert_eq!(
        Shape::new(1, 1).open_hold(1).unwrap_err(),
        Refusal::HoldWidth
    );
}

#[test]
fn a_rotating_hold_can_be_refused_for_good() {
    let shape = Shape::new(2, 2).shingle_size(2).internal_rotation(true);
    let mut hold = shape.open_hold(1).unwrap();
    hold.add(&[1.0, 2.0], 0).unwrap();
    hold.add(&[2.0, 3.0], 0).unwrap();
    for _ in 0..5 {
        assert_eq!(hold.add(&[9.0, 9.0], 0), Err(Refusal::FloatSpaceFull));
    }
    assert_eq!(hold.number(), Ok(1));
    assert!(hold.add(&[3.0, 4.0], 0).is_ok());
}

#[test]
fn a_lent_hold_goes_on_in_its_memory() {
    let mut block = vec![0; LABELLED.hold_block_words()];
    let memory = LentHoldMemory::in_block(&mut block, &LABELLED).unwrap();
    let mut hold = LABELLED.open_hold_in(memory, 2).unwrap();
    for k in 0..3 {
        hold.add(&[k as f32, 0.0], 0).unwrap();
    }
    let mut held = [0; 2];
    assert_eq!(hold.held(&mut held[..1]), Err(Refusal::Length));
    hold.compact().unwrap();
    let hold = LentHold::resume(hold.into_memory()).unwrap();
    hold.held(&mut held).unwrap();
    assert_eq!((hold.width(), hold.number(), held), (2, Ok(2), [1, 2]));
    let mut row = [0.0; 2];
    hold.store().copy(2, &mut row).unwrap();
    assert_eq!(row, [2.0, 0.0]);
}

#[test]
fn memory_that_is_no_hold_is_refused() {
    let mut block = vec![0; LABELLED.hold_block_words()];
    let short = block.len() - 1;
    let refused = LentHoldMemory::in_block(&mut block[..short], &LABELLED);
    assert_eq!(refused.unwrap_err(), Refusal::IllFormed);
    let memory = LentHoldMemory::in_block(&mut block, &LABELLED).unwrap();
    assert_eq!(LentHold::resume(memory).unwrap_err(), Refusal::IllFormed);

    let mut memory = LentHoldMemory::in_block(&mut block, &LABELLED).unwrap();
    memory.store.words = &mut memory.store.words[..HOLD_WORDS - 1];
    let refused = LentHold::open(memory, &LABELLED, 2);
    assert_eq!(refused.unwrap_err(), Refusal::IllFormed);
}

#[test]
fn an_inc_inside_makes_a_hold_ill_formed() {
    let mut block = vec![0; LABELLED.hold_block_words()];
    let memory = LentHoldMemory::in_block(&mut block, &LABELLED).unwrap();
    let mut hold = LABELLED.open_hold_in(memory, 2).unwrap();
    hold.add(&[1.0, 2.0], 0).unwrap();
    let LentHoldMemory {
        store,
        held_indices,
        held_labels,
    } = hold.into_memory();
    let mut inside = point_store::LentPointStore::resume(store).unwrap();
    inside.inc(0, 0).unwrap();
    let memory = LentHoldMemory {
        store: inside.into_memory(),
        held_indices,
        held_labels,
    };
    assert_eq!(LentHold::resume(memory).unwrap_err(), Refusal::IllFormed);
}
