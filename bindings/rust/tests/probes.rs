//! The product for the eight-probe block, owned and lent, and what each refuses.

use point_store::{
    Added, Laid, LentMemory, LentProbes, PointStore,
    Reading::{self, *},
    Refusal, Shape, NONE, PROBES_WORDS,
};

const WINDOWED: Shape = Shape::new(16, 4).shingle_size(2).internal_shingling(true);
const PLAIN: Shape = Shape::new(8, 2).internal_shingling(true);

fn first(reading: Reading, rest: f32) -> [Reading; 8] {
    let mut readings = [Measured(rest); 8];
    readings[0] = reading;
    readings
}

#[test]
fn estimates_are_tallied_and_absent_readings_repeat() {
    let mut probes = WINDOWED.open_probes().unwrap();
    assert_eq!(probes.tallies(), Ok([0; 8]));
    assert_eq!(
        probes.set(first(Estimated(5.0), 1.0), 0),
        Ok(Added::Waiting)
    );
    assert_eq!(probes.tallies(), Ok([1, 0, 0, 0, 0, 0, 0, 0]));
    let kept = Added::Kept {
        index: 0,
        label: NONE,
        laid: Laid::Whole(0),
        free_indices: 3,
    };
    assert_eq!(probes.set(first(Measured(6.0), 2.0), 0), Ok(kept));
    probes.set(first(Absent, 3.0), 0).unwrap();
    let row = probes.store().copy(1).unwrap();
    assert_eq!((row[0], row[1], row[8], row[9]), (6.0, 2.0, 6.0, 3.0));
    assert_eq!(probes.tallies(), Ok([1, 0, 0, 0, 0, 0, 0, 0]));
}

#[test]
fn a_refused_set_alters_nothing() {
    let mut probes = PLAIN.open_probes().unwrap();
    let refusal = probes.set(first(Absent, 1.0), 0);
    assert_eq!(refusal, Err(Refusal::NoEarlierReading));
    probes.set([Estimated(1.0); 8], 0).unwrap();
    probes.set([Estimated(2.0); 8], 0).unwrap();
    assert_eq!(probes.set([Estimated(3.0); 8], 0), Err(Refusal::PointsFull));
    assert_eq!(probes.tallies(), Ok([2; 8]));
    probes.dec(0, NONE).unwrap();
    probes.set([Absent; 8], 0).unwrap();
    assert_eq!(probes.store().copy(0), Ok(vec![2.0; 8]));
}

#[test]
fn sixteen_comes_before_four() {
    let mut probes = WINDOWED.labels(true).open_probes().unwrap();
    let refusal = probes.set(first(Absent, 1.0), 24);
    assert_eq!(refusal, Err(Refusal::NoEarlierReading));
    let refusal = probes.set([Measured(1.0); 8], 24);
    assert_eq!(refusal, Err(Refusal::LabelCode));
}

#[test]
fn a_nan_keeps_its_bits_and_is_repeated() {
    let mut probes = PLAIN.open_probes().unwrap();
    let nan = f32::from_bits(0xffc0_1234);
    probes.set(first(Estimated(nan), 1.0), 0).unwrap();
    probes.set([Absent; 8], 0).unwrap();
    assert_eq!(probes.store().copy(1).unwrap()[0].to_bits(), 0xffc0_1234);
}

#[test]
fn other_shapes_are_refused() {
    for shape in [
        Shape::new(8, 2),
        WINDOWED.shingle_size(4),
        WINDOWED.shingle_size(1),
        Shape::new(72, 2).shingle_size(9).internal_shingling(true),
    ] {
        assert_eq!(shape.check_probes(), Err(Refusal::Shape));
        assert_eq!(shape.open_probes().unwrap_err(), Refusal::Shape);
    }
}

#[test]
fn lent_memory_is_taken_up_again() {
    let mut block = vec![0; WINDOWED.probes_block_words()];
    let memory = LentMemory::in_probes_block(&mut block, &WINDOWED).unwrap();
    assert_eq!(memory.words.len(), PROBES_WORDS);
    let mut probes = WINDOWED.open_probes_in(memory).unwrap();
    probes.set([Estimated(1.0); 8], 0).unwrap();
    let mut probes = LentProbes::resume(probes.into_memory()).unwrap();
    assert_eq!(probes.tallies(), Ok([1; 8]));
    probes.set([Absent; 8], 0).unwrap();
    let mut row = [0.0; 16];
    probes.store().copy(0, &mut row).unwrap();
    assert_eq!(row, [1.0; 16]);
}

#[test]
fn a_tally_above_the_sequence_is_ill_formed() {
    for tally in [2, 1 << 32, u64::MAX] {
        let mut block = vec![0; WINDOWED.probes_block_words()];
        let memory = LentMemory::in_probes_block(&mut block, &WINDOWED).unwrap();
        let mut probes = WINDOWED.open_probes_in(memory).unwrap();
        probes.set([Estimated(1.0); 8], 0).unwrap();
        let memory = probes.into_memory();
        memory.words[PROBES_WORDS - 1] = tally;
        assert_eq!(LentProbes::resume(memory).unwrap_err(), Refusal::IllFormed);
    }
}
