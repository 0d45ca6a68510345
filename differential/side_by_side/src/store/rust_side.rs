//! The unchanged Rust's side of a call.
use super::call::{Call, Returned};
use super::kinds;
use super::memory::*;
use super::model::Met;
use super::model_rows::is_nan;
use crate::coverage::Coverage;
use crate::mutant;
use library::store::{Lent, Opening};
use reference::common::intervalstoremanager::IntervalStoreManager;
use reference::pointstore::PointStore;
use reference::reasons::Code;
use reference::Store;
use std::panic::{catch_unwind, AssertUnwindSafe};

pub enum Outcome {
    Answered(Returned),
    Error,
    Panic,
}

pub fn opened(o: Opening) -> Store {
    Store::new(
        o.dimensions,
        o.shingle_size,
        o.capacity,
        o.initial_capacity,
        o.internal_shingling == 1,
        o.internal_rotation == 1,
        o.store_labels == 1,
        false,
    )
    .expect("opening has no error")
}

pub fn made(call: &Call, s: Shape, rust: &mut Store) -> Outcome {
    match catch_unwind(AssertUnwindSafe(|| answered(call, s, rust))) {
        Ok(Ok(returned)) => Outcome::Answered(returned),
        Ok(Err(_)) => Outcome::Error,
        Err(_) => Outcome::Panic,
    }
}

/// What the Rust is to a call.
pub enum Ground {
    /// It takes part.
    Compared,
    /// It is not asked: a compared point holds a NaN or −0.0.
    NotAsked,
    /// From here on it is another store: a row holds a NaN or −0.0.
    Left,
}

/// 'The Rust remains the yardstick for runs whose rows and compared points hold no NaN and no −0.0.' What is refused is kept
/// nowhere, and only 10 comes after a comparison.
pub fn ground(call: &Call, value: u64, coverage: &mut Coverage) -> Ground {
    let otherwise = |point: &[u32]| point.iter().any(|w| compares_otherwise(*w));
    match (call, value) {
        _ if mutant::is("harness-compares-nans-with-the-rust") => Ground::Compared,
        (Call::Add { point, .. }, 0 | 10) if otherwise(point) => {
            coverage.meet(kinds::WITHOUT_THE_RUST);
            Ground::Left
        }
        (Call::IsEqual { point, .. }, 0) if otherwise(point) => {
            coverage.meet(kinds::NOT_ASKED);
            Ground::NotAsked
        }
        _ => Ground::Compared,
    }
}

pub fn meet_compared(met: &Met, coverage: &mut Coverage) {
    coverage.meet("compared with the Rust");
    if met.contains(&"a point with an infinity") || met.contains(&"a point with a denormal") {
        coverage.meet(kinds::ADDED_BESIDE);
    }
}

/// Whether float `==` says otherwise of this word and another, or itself, than their bits do: a NaN or −0.0.
pub fn compares_otherwise(word: u32) -> bool {
    is_nan(word) || word == 0x8000_0000
}

fn floats(words: &[u32]) -> Vec<f32> {
    words.iter().map(|w| f32::from_bits(*w)).collect()
}

fn words(floats: Vec<f32>) -> Vec<u32> {
    floats.into_iter().map(f32::to_bits).collect()
}

fn answered(call: &Call, s: Shape, rust: &mut Store) -> reference::types::Result<Returned> {
    let mut r = Returned::lent(call);
    let first = &mut r.numbers[0];
    match call {
        Call::Open(opening) => *rust = opened(*opening),
        Call::Add { point, label } => add(rust, s, point, *label, &mut r)?,
        Call::Inc(index, label) => rust.inc(*index, *label)?,
        Call::Dec(index, label) => rust.dec(*index, *label)?,
        Call::Adjust(pairs) => {
            let list: Vec<_> = pairs.iter().map(|p| ((p[0], p[1]), (p[2], p[3]))).collect();
            rust.adjust_count(&list)?;
        }
        Call::Compact => rust.compact()?,
        Call::Copy { index, .. } => r.words = words(rust.copy(*index)?),
        Call::Count(index) => *first = rust.point_count(*index) as u64,
        Call::LiveNumber => *first = rust.index_manager().used() as u64,
        Call::FreeStart => *first = rust.free_start() as u64,
        Call::IsEqual { index, point } => *first = rust.is_equal(&floats(point), *index)? as u64,
        Call::PointSum { items, .. } => {
            let list: Vec<_> = items.iter().map(|i| (i[0], i[1])).collect();
            r.words = words(rust.point_sum(&list)?);
        }
        Call::ShingledPoint { point, .. } => r.words = words(rust.shingled_point(&floats(point))?),
        Call::MissingIndices { look_ahead, values, .. } => r.list = rust.missing_indices(*look_ahead, values)?,
        Call::NextIndices { look_ahead, .. } => r.list = rust.next_indices(*look_ahead)?,
        Call::Label(label) => *first = rust.label(*label)?.0 as u64,
        Call::Attribute(label) => *first = rust.attribute(*label)?.0 as u64,
        Call::AttributeVec { label, .. } => r.words = words(rust.attribute_vec(*label)?),
    }
    Ok(r)
}

/// Place and free start are the Rust's; whether it joined shows in how far the free start went, and how many indices remain free in
/// its table's length and its manager's `used`.
fn add(rust: &mut Store, s: Shape, point: &[u32], label: usize, r: &mut Returned) -> reference::types::Result<()> {
    let mut from = rust.free_start();
    if from + s.dimensions > rust.floats().len() {
        let mut compacted = rust.clone();
        compacted.compact()?;
        from = compacted.free_start();
    }
    let (index, label_index, _) = rust.add(&floats(point), Code::of(label, &s.classes))?;
    r.numbers[0] = 0;
    if index != NONE {
        let joined = s.base != s.dimensions && rust.free_start() == from + s.base;
        let place = rust.places()[index];
        let free = rust.table_length() - rust.index_manager().used();
        r.numbers = [
            1,
            index as u64,
            label_index as u64,
            joined as u64,
            place as u64,
            free as u64,
        ];
    }
    Ok(())
}

/// Every entry that the Rust has, and every other entry as it was lent.
fn stack_agrees(starts: &[u16], ends: &[u16], lent: (&[u16], &[u16]), rust: &IntervalStoreManager<usize>) -> bool {
    let same = |ours: &[u16], lent: &[u16], rust: &[usize]| {
        let n = rust.len();
        ours[..n].iter().zip(rust).all(|(a, b)| *a as usize == *b) && ours[n..] == lent[n..]
    };
    same(starts, lent.0, rust.starts()) && same(ends, lent.1, rust.ends())
}

fn words_agree(m: &Lent, lent: &Lent, rust: &Store, slots: bool) -> bool {
    let (points, labels, attributes) = (rust.index_manager(), rust.label_manager(), rust.attribute_manager());
    let owed = [
        rust.floats().len(),
        rust.free_start(),
        rust.sequence(),
        points.get_capacity(),
        points.last_in_use(),
        labels.get_capacity(),
        labels.last_in_use(),
        attributes.get_capacity(),
        attributes.last_in_use(),
    ];
    let compared = if slots { 9 } else { 7 };
    let ours = &m.words[STORE_LENGTH..STORE_LENGTH + compared];
    rust.table_length() == points.get_capacity()
        && ours.iter().zip(owed).all(|(a, b)| *a == b as u64)
        && m.words[RECORD_WORDS..] == lent.words[RECORD_WORDS..]
}

fn points_agree(m: &Lent, lent: &Lent, rust: &Store) -> bool {
    let n = rust.table_length();
    rust.places().len() == n
        && m.location[..n] == *rust.places()
        && (0..n).all(|i| m.reference_count[i] as usize == rust.point_count(i))
        && m.reference_count[n..] == lent.reference_count[n..]
        && m.location[n..] == lent.location[n..]
}

fn floats_agree(m: &Lent, lent: &Lent, rust: &Store) -> bool {
    let same = |ours: &[u32], lent: &[u32], rust: &[f32]| {
        let n = rust.len();
        ours[..n].iter().zip(rust).all(|(a, b)| *a == b.to_bits()) && ours[n..] == lent[n..]
    };
    same(&m.store, &lent.store, rust.floats()) && same(&m.last_known_shingle, &lent.last_known_shingle, rust.window())
}

fn labels_agree(m: &Lent, lent: &Lent, rust: &Store, slots: bool) -> bool {
    let (capacity, given) = (word(m, CAPACITY), rust.labels_given());
    let each = (0..given).all(|l| {
        let (code, slot) = rust.label_entry(l);
        m.labels[l] == code.0
            && m.label_count[l] as usize == rust.label_count(l)
            && (!slots || m.label_attributes[l] as usize == slot)
    });
    each && m.labels[given..capacity].iter().all(|x| *x == 0)
        && m.label_attributes[given..capacity].iter().all(|x| *x == 0)
        && m.label_count[given..capacity].iter().all(|x| *x == 0)
        && m.labels[capacity..] == lent.labels[capacity..]
        && m.label_attributes[capacity..] == lent.label_attributes[capacity..]
        && m.label_count[capacity..] == lent.label_count[capacity..]
}

fn slots_agree(m: &Lent, lent: &Lent, rust: &Store) -> bool {
    let (capacity, given) = (word(m, CAPACITY), rust.classes().len());
    let each = (0..given)
        .all(|k| m.attributes[k] == rust.classes()[k].0 && m.attribute_count[k] as usize == rust.slot_count(k));
    each && m.attributes[given..capacity].iter().all(|x| *x == 0)
        && m.attribute_count[given..capacity].iter().all(|x| *x == 0)
        && m.attributes[capacity..] == lent.attributes[capacity..]
        && m.attribute_count[capacity..] == lent.attribute_count[capacity..]
}

/// With labels off nothing of labels and slots is written.
fn labels_untouched(m: &Lent, lent: &Lent) -> bool {
    m.labels == lent.labels
        && m.label_attributes == lent.label_attributes
        && m.label_count == lent.label_count
        && m.label_starts == lent.label_starts
        && m.label_ends == lent.label_ends
        && m.attributes == lent.attributes
        && m.attribute_count == lent.attribute_count
        && m.attribute_starts == lent.attribute_starts
        && m.attribute_ends == lent.attribute_ends
}

/// What of the memory is not as the Rust has it. `lent` is the memory before the opening; `slots` says whether a slot's count
/// has never reached 0 yet.
pub fn difference(m: &Lent, lent: &Lent, rust: &Store, slots: bool) -> Option<&'static str> {
    let labels = m.words[STORE_LABELS] == 1;
    let points = (&lent.index_starts[..], &lent.index_ends[..]);
    let of_labels = (&lent.label_starts[..], &lent.label_ends[..]);
    let of_slots = (&lent.attribute_starts[..], &lent.attribute_ends[..]);
    if !words_agree(m, lent, rust, slots) {
        return Some("lengths, free start, sequence or managers");
    }
    if !floats_agree(m, lent, rust) {
        return Some("floats or window");
    }
    if !points_agree(m, lent, rust) {
        return Some("counts or places");
    }
    if !stack_agrees(&m.index_starts, &m.index_ends, points, rust.index_manager()) {
        return Some("the point stack");
    }
    if !labels {
        return (!labels_untouched(m, lent)).then_some("a label table, with labels off");
    }
    if !labels_agree(m, lent, rust, slots) {
        return Some("labels");
    }
    if !stack_agrees(&m.label_starts, &m.label_ends, of_labels, rust.label_manager()) {
        return Some("the label stack");
    }
    if slots && !slots_agree(m, lent, rust) {
        return Some("slots");
    }
    if slots
        && !stack_agrees(
            &m.attribute_starts,
            &m.attribute_ends,
            of_slots,
            rust.attribute_manager(),
        )
    {
        return Some("the slot stack");
    }
    None
}
