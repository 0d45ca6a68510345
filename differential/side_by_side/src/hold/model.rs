//! A hold over the model of the store, written plainly from docs/STORE.md. It shares nothing with the library.
use super::call::{HoldCall, HoldReturned};
use super::memory::*;
use super::well_formed::{is_well_formed_hold, width_is_wrong};
use crate::mutant;
use crate::store::call::{Call, FIGURE};
use crate::store::memory::{live_indices, word, TABLE_LENGTH};
use crate::store::model::{self, Met};
use crate::store::well_formed::outside_the_bounds;
use library::hold::LentHold;
use library::store::Opening;

pub const GAVE_UP: &str = "a kept add that gave up the oldest";

pub fn made(call: &HoldCall, h: &mut LentHold, met: &mut Met) -> HoldReturned {
    let mut r = HoldReturned::lent(call);
    match call {
        HoldCall::Open(opening, width) => r.of_store.value = open(h, *opening, *width, met),
        HoldCall::Inside(call) => r.of_store = model::made(call, &mut h.store, met),
        _ if !is_well_formed_hold(h) => r.of_store.value = 1,
        HoldCall::Add { point, label } => add(h, point, *label, &mut r, met),
        HoldCall::Held { out } if *out != held(h) => r.of_store.value = 3,
        HoldCall::Held { out } => r.held.copy_from_slice(&h.held_indices[..*out]),
        HoldCall::Number => r.of_store.numbers[0] = held(h) as u64,
    }
    r
}

/// 2, 15, 1, 17. The two tables keep what they held.
fn open(h: &mut LentHold, o: Opening, width: usize, met: &mut Met) -> u64 {
    let flags = [o.internal_shingling, o.internal_rotation, o.store_labels];
    let outside = outside_the_bounds(o.dimensions as u64, o.shingle_size as u64, o.capacity as u64);
    let shape_is_wrong = !outside.is_empty()
        || o.initial_capacity == 0
        || o.initial_capacity > o.capacity
        || flags.iter().any(|flag| *flag > 1);
    let lent = h.store.words.len() >= HOLD_WORDS
        && h.held_indices.len() >= o.capacity
        && (o.store_labels == 0 || h.held_labels.len() >= o.capacity);
    let wrong = width_is_wrong(width, o.capacity);
    if shape_is_wrong {
        return 2;
    }
    if wrong && !(mutant::is("hold-refuses-1-before-15") && !lent) {
        return 15;
    }
    if !lent {
        return 1;
    }
    let value = model::made(&Call::Open(o), &mut h.store, met).value;
    if value == 0 {
        h.store.words[WIDTH] = width as u64;
        h.store.words[HELD] = 0;
    }
    value
}

/// The store's add; after a kept one the oldest is given up where more are held than the width.
fn add(h: &mut LentHold, point: &[u32], label: usize, r: &mut HoldReturned, met: &mut Met) {
    if mutant::is("hold-gives-up-before-the-add") && held(h) == width(h) {
        give_up(h, 0, met);
    }
    let call = Call::Add {
        point: point.to_vec(),
        label,
    };
    r.of_store = model::made(&call, &mut h.store, met);
    let Some((index, label_index)) = r.kept() else {
        let waiting = r.value() == 0;
        if waiting && held(h) > 0 && mutant::is("hold-gives-up-on-waiting") {
            give_up(h, 0, met);
        }
        return;
    };
    let mut list = listed(h);
    list.push((index, label_index));
    if list.len() > width(h) {
        let oldest = if mutant::is("hold-gives-up-the-newest") {
            list.len() - 1
        } else {
            0
        };
        let (index, label_index) = list.remove(oldest);
        // Never refused on a well-formed hold.
        let value = model::made(&Call::Dec(index, label_index), &mut h.store, met).value;
        r.of_store.value = value;
        met.push(GAVE_UP);
        if mutant::is("hold-figure-after-giving-up") {
            r.of_store.numbers[FIGURE] = free_now(h);
        }
    }
    write(h, &list);
}

/// How many indices of the store inside are free.
pub fn free_now(h: &LentHold) -> u64 {
    (word(&h.store, TABLE_LENGTH) - live_indices(&h.store).len()) as u64
}

fn give_up(h: &mut LentHold, which: usize, met: &mut Met) {
    let mut list = listed(h);
    let (index, label_index) = list.remove(which);
    model::made(&Call::Dec(index, label_index), &mut h.store, met);
    write(h, &list);
}

/// Entries past the list keep what they held.
fn write(h: &mut LentHold, list: &[(usize, usize)]) {
    let labels = has_labels(h);
    for (k, (index, label)) in list.iter().enumerate() {
        h.held_indices[k] = *index as u16;
        if labels {
            h.held_labels[k] = *label as u16;
        }
    }
    h.store.words[HELD] = list.len() as u64;
}
