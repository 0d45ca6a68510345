//! Document 01's store, written plainly from its text. It shares nothing with the library.
use super::call::{Call, Returned};
use super::classes::table_of;
use super::memory::*;
use super::well_formed::{is_well_formed, outside_the_bounds, too_short};
use super::{model_readings, model_rows};
use crate::mutant;
use library::store::{Lent, Opening};

/// What a call met on its way, for counting.
pub type Met = Vec<&'static str>;

/// The call as document 01 has it.
pub fn made(call: &Call, m: &mut Lent, met: &mut Met) -> Returned {
    let mut r = Returned::lent(call);
    r.value = match call {
        Call::Open(opening) => open(m, *opening),
        _ if !is_well_formed(m) => refused_as_ill_formed(call, &mut r),
        Call::Add { point, label } => model_rows::add(m, point, *label, &mut r, met),
        Call::Inc(index, label) => inc(m, *index, *label),
        Call::Dec(index, label) => dec(m, *index, *label, met),
        Call::Adjust(pairs) => adjust(m, pairs, &mut r, met),
        Call::Compact => {
            model_rows::compact(m, met);
            0
        }
        _ => model_readings::read(call, m, &mut r),
    };
    r
}

/// An adjust refusal carries how many pairs stand before the refused one: none here.
fn refused_as_ill_formed(call: &Call, r: &mut Returned) -> u64 {
    if let Call::Adjust(_) = call {
        r.numbers[0] = 0;
    }
    1
}

fn open(m: &mut Lent, o: Opening) -> u64 {
    let flags = [o.internal_shingling, o.internal_rotation, o.store_labels];
    let outside = outside_the_bounds(o.dimensions as u64, o.shingle_size as u64, o.capacity as u64);
    let start_is_wrong = o.initial_capacity == 0 || o.initial_capacity > o.capacity;
    if !outside.is_empty() || start_is_wrong || flags.iter().any(|f| *f > 1) {
        return 2;
    }
    let labels = o.store_labels == 1;
    let table = table_of(o.class_text.bytes());
    if table.is_none() && mutant::is("opening-refuses-17-before-1") {
        return 17;
    }
    if m.words.len() < RECORD_WORDS || !too_short(m, o.dimensions, o.capacity, labels).is_empty() {
        return 1;
    }
    let Some(table) = table else {
        return 17;
    };
    m.words[CLASSES..RECORD_WORDS].copy_from_slice(&table);
    let length = o.initial_capacity * o.dimensions;
    m.words[DIMENSIONS] = o.dimensions as u64;
    m.words[SHINGLE_SIZE] = o.shingle_size as u64;
    m.words[CAPACITY] = o.capacity as u64;
    for (k, flag) in flags.iter().enumerate() {
        m.words[INTERNAL_SHINGLING + k] = *flag as u64;
    }
    m.words[STORE_LENGTH] = length as u64;
    m.words[FREE_START] = 0;
    m.words[SEQUENCE] = 0;
    m.store[..length].fill(0);
    m.last_known_shingle[..o.dimensions].fill(0);
    m.reference_count[..o.initial_capacity].fill(0);
    m.location[..o.initial_capacity].fill(EMPTY);
    point_stack(m).open(o.initial_capacity);
    if labels {
        m.labels[..o.capacity].fill(0);
        m.label_attributes[..o.capacity].fill(0);
        m.label_count[..o.capacity].fill(0);
        m.attributes[..o.capacity].fill(0);
        m.attribute_count[..o.capacity].fill(0);
        label_stack(m).open(o.capacity);
        slot_stack(m).open(o.capacity);
    } else {
        for first in [LABEL_CAPACITY, SLOT_CAPACITY] {
            m.words[first] = o.capacity as u64;
            m.words[first + 1] = 1;
        }
    }
    0
}

/// Why an inc is refused: 5, 6, 7, or 0.
fn inc_refusal(m: &Lent, index: usize, label: usize) -> u64 {
    let labels = m.words[STORE_LABELS] == 1;
    if !is_live(m, index) {
        return 5;
    }
    if labels && !is_live_label(m, label) {
        return 6;
    }
    let full = m.reference_count[index] == LARGEST_COUNT || labels && m.label_count[label] == LARGEST_COUNT;
    if full && !mutant::is("inc-past-65535") {
        return 7;
    }
    0
}

fn inc(m: &mut Lent, index: usize, label: usize) -> u64 {
    let refusal = inc_refusal(m, index, label);
    if refusal == 0 {
        m.reference_count[index] = m.reference_count[index].wrapping_add(1);
        if m.words[STORE_LABELS] == 1 {
            m.label_count[label] = m.label_count[label].wrapping_add(1);
            m.attribute_count[m.label_attributes[label] as usize] += 1;
        }
    }
    refusal
}

/// Why a dec is refused: 5, 6, or 0.
fn dec_refusal(m: &Lent, index: usize, label: usize) -> u64 {
    if !is_live(m, index) {
        return 5;
    }
    let labels = m.words[STORE_LABELS] == 1;
    if labels && !is_live_label(m, label) || !labels && label != NONE && !mutant::is("dec-ignores-the-label-index") {
        return 6;
    }
    0
}

fn dec(m: &mut Lent, index: usize, label: usize, met: &mut Met) -> u64 {
    let refusal = dec_refusal(m, index, label);
    if refusal != 0 {
        return refusal;
    }
    m.reference_count[index] -= 1;
    if m.reference_count[index] == 0 {
        met.push("a point's count reached 0");
        if !mutant::is("dec-keeps-the-place") {
            m.location[index] = EMPTY;
        }
        point_stack(m).release(index);
    }
    if m.words[STORE_LABELS] == 1 {
        let slot = m.label_attributes[label] as usize;
        m.label_count[label] -= 1;
        if m.label_count[label] == 0 {
            met.push("a label's count reached 0");
            label_stack(m).release(label);
        }
        m.attribute_count[slot] -= 1;
        if m.attribute_count[slot] == 0 {
            met.push("a slot's count reached 0");
            if !mutant::is("dec-keeps-the-slot") {
                slot_stack(m).release(slot);
            }
        }
    }
    0
}

/// The dec of a pair is judged on the counts that its inc raised; a refused pair changes nothing and ends the call.
fn adjust(m: &mut Lent, pairs: &[[usize; 4]], r: &mut Returned, met: &mut Met) -> u64 {
    for (before, pair) in pairs.iter().enumerate() {
        let [insert, insert_label, delete, delete_label] = *pair;
        if insert == NONE {
            met.push("a skipped pair");
            continue;
        }
        let mut refusal = inc(m, insert, insert_label);
        if refusal == 0 && delete != NONE {
            refusal = dec_refusal(m, delete, delete_label);
            if refusal == 0 {
                dec(m, delete, delete_label, met);
            } else if !mutant::is("adjust-keeps-the-inc-of-a-refused-pair") {
                undo_inc(m, insert, insert_label);
            }
        }
        if refusal != 0 {
            let skipped = pairs[..before].iter().filter(|p| p[0] == NONE).count();
            let uncounted = if mutant::is("adjust-leaves-skipped-pairs-out") {
                skipped
            } else {
                0
            };
            r.numbers[0] = (before - uncounted) as u64;
            return refusal;
        }
    }
    0
}

fn undo_inc(m: &mut Lent, index: usize, label: usize) {
    m.reference_count[index] -= 1;
    if m.words[STORE_LABELS] == 1 {
        m.label_count[label] -= 1;
        m.attribute_count[m.label_attributes[label] as usize] -= 1;
    }
}
