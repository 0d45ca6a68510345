//! Well-formedness of a hold, clause by clause: the names of those that are broken.
use super::memory::*;
use crate::mutant;
use crate::store::memory::*;
use crate::store::well_formed::is_well_formed;
use library::hold::LentHold;

/// The hold's own clauses: each can be broken alone.
pub const CLAUSES: [&str; 14] = [
    "fewer words than a hold's",
    "held_indices too short",
    "held_labels too short",
    "width 0",
    "width not below the capacity",
    "more held than the width",
    "a held index is not below the table length",
    "a held index is free",
    "a live point is not held",
    "a point is held twice",
    "a held point's count is above 1",
    "a held label is not in use",
    "a held label's count is above 1",
    "a label is held twice",
];

pub const ILL_FORMED_STORE: &str = "the store is ill-formed";

pub fn is_well_formed_hold(h: &LentHold) -> bool {
    broken(h).is_empty()
}

pub fn width_is_wrong(width: usize, capacity: usize) -> bool {
    width == 0 || width >= capacity && !(width == capacity && mutant::is("hold-takes-the-width-of-the-capacity"))
}

/// A clause is looked at only where those that it rests on hold.
pub fn broken(h: &LentHold) -> Vec<&'static str> {
    let mut b = Vec::new();
    if h.store.words.len() < HOLD_WORDS {
        b.push("fewer words than a hold's");
    } else if !is_well_formed(&h.store) {
        b.push(ILL_FORMED_STORE);
    } else {
        lengths(h, &mut b);
        if !b.iter().any(|clause| LENGTHS.contains(clause)) {
            points(h, &mut b);
            if has_labels(h) {
                labels(h, &mut b);
            }
        }
    }
    b
}

const LENGTHS: [&str; 3] = [
    "held_indices too short",
    "held_labels too short",
    "more held than the width",
];

fn lengths(h: &LentHold, b: &mut Vec<&'static str>) {
    let capacity = word(&h.store, CAPACITY);
    for (clause, is_broken) in [
        ("held_indices too short", h.held_indices.len() < capacity),
        ("held_labels too short", has_labels(h) && h.held_labels.len() < capacity),
        ("width 0", width(h) == 0),
        (
            "width not below the capacity",
            width(h) > 0 && width_is_wrong(width(h), capacity),
        ),
        ("more held than the width", held(h) > width(h)),
    ] {
        if is_broken {
            b.push(clause);
        }
    }
    // A width that opening does not take may stand above the tables.
    if held(h) > capacity && !b.contains(&"more held than the width") {
        b.push("more held than the width");
    }
}

fn points(h: &LentHold, b: &mut Vec<&'static str>) {
    let table = word(&h.store, TABLE_LENGTH);
    let mut times = vec![0; table];
    let most = if mutant::is("hold-takes-a-count-of-2") { 2 } else { 1 };
    for (index, _) in listed(h) {
        if index >= table {
            b.push("a held index is not below the table length");
            continue;
        }
        times[index] += 1;
        if h.store.reference_count[index] == 0 {
            b.push("a held index is free");
        } else if h.store.reference_count[index] > most {
            b.push("a held point's count is above 1");
        }
    }
    if times.iter().any(|n| *n > 1) && !mutant::is("hold-takes-a-point-twice") {
        b.push("a point is held twice");
    }
    if (0..table).any(|i| is_live(&h.store, i) && times[i] == 0) {
        b.push("a live point is not held");
    }
    b.dedup();
}

fn labels(h: &LentHold, b: &mut Vec<&'static str>) {
    let mut seen = Vec::new();
    for (_, label) in listed(h) {
        if !is_live_label(&h.store, label) {
            b.push("a held label is not in use");
            continue;
        }
        if h.store.label_count[label] > 1 {
            b.push("a held label's count is above 1");
        }
        if seen.contains(&label) && !mutant::is("hold-takes-a-label-twice") {
            b.push("a label is held twice");
        }
        seen.push(label);
    }
    b.dedup();
}
