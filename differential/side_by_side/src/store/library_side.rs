//! The library's side of a call.
use super::call::{Call, Returned, NUMBERS};
use crate::mutant;
use library::store::{Added, Lent};

fn floats(words: &[u32]) -> Vec<f32> {
    words.iter().map(|w| f32::from_bits(*w)).collect()
}

fn keep(words: &mut [u32], floats: &[f32]) {
    for (word, x) in words.iter_mut().zip(floats) {
        *word = x.to_bits();
    }
}

pub fn made(call: &Call, m: &mut Lent) -> Returned {
    let mut r = Returned::lent(call);
    let first = &mut r.numbers[0];
    r.value = match call {
        Call::Open(opening) => m.open(*opening),
        Call::Add { point, label } => add(m, point, *label, &mut r),
        Call::Inc(index, label) if mutant::is("harness-swaps-index-and-label") => m.inc(*label, *index),
        Call::Inc(index, label) => m.inc(*index, *label),
        Call::Dec(index, label) => m.dec(*index, *label),
        Call::Adjust(pairs) => m.adjust(pairs, first),
        Call::Compact => m.compact(),
        Call::Copy { index, .. } => m.copy(*index, &mut r.words),
        Call::Count(index) => m.count(*index, first),
        Call::LiveNumber => m.live_number(first),
        Call::FreeStart => m.free_start(first),
        Call::IsEqual { index, point } => m.is_equal(*index, point, first),
        Call::PointSum { items, .. } => {
            let mut out = floats(&r.words);
            let value = m.point_sum(items, &mut out);
            keep(&mut r.words, &out);
            value
        }
        Call::ShingledPoint { point, .. } => m.shingled_point(point, &mut r.words),
        Call::MissingIndices { look_ahead, values, .. } => m.missing_indices(*look_ahead, values, &mut r.list),
        Call::NextIndices { look_ahead, .. } => m.next_indices(*look_ahead, &mut r.list),
        Call::Label(label) => m.label(*label, first),
        Call::Attribute(label) => m.attribute(*label, first),
        Call::AttributeVec { label, .. } => {
            let mut out = floats(&r.words);
            let value = m.attribute_vec(*label, &mut out);
            keep(&mut r.words, &out);
            value
        }
    };
    if r.value != 0 && mutant::is("harness-writes-the-answer-of-a-refused-store-call") {
        r.numbers[0] = 7;
    }
    r
}

fn add(m: &mut Lent, point: &[u32], label: usize, r: &mut Returned) -> u64 {
    let mut a = lent_to_an_add(r.numbers);
    let value = m.add(point, label, &mut a);
    r.numbers = written_by_an_add(value, a);
    value
}

/// The numbers that an add is lent.
pub fn lent_to_an_add(numbers: [u64; NUMBERS]) -> Added {
    let [kept, index, label_index, joined, place, free_indices] = numbers;
    Added {
        kept,
        index,
        label_index,
        joined,
        place,
        free_indices,
    }
}

/// What they hold after it.
pub fn written_by_an_add(value: u64, mut a: Added) -> [u64; NUMBERS] {
    let of_waiting = [
        "harness-writes-the-figure-of-a-waiting-add",
        "harness-writes-the-figure-of-a-waiting-set",
    ];
    let of_refused = [
        "harness-writes-the-figure-of-a-refused-add",
        "harness-writes-the-figure-of-a-refused-hold-add",
    ];
    if value == 0 && a.kept == 0 && of_waiting.into_iter().any(mutant::is)
        || value != 0 && of_refused.into_iter().any(mutant::is)
    {
        a.free_indices = 0;
    }
    [a.kept, a.index, a.label_index, a.joined, a.place, a.free_indices]
}
