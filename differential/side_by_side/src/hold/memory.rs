//! The hold's own words, its list, and memory for it.
use crate::store::lent::rubbish_for;
use crate::store::memory::*;
use library::hold::LentHold;
use library::store::Opening;
use random::Random;

pub const HOLD_WORDS: usize = RECORD_WORDS + 2;
pub const WIDTH: usize = RECORD_WORDS;
pub const HELD: usize = RECORD_WORDS + 1;

pub fn width(h: &LentHold) -> usize {
    word(&h.store, WIDTH)
}

pub fn held(h: &LentHold) -> usize {
    word(&h.store, HELD)
}

pub fn has_labels(h: &LentHold) -> bool {
    h.store.words[STORE_LABELS] == 1
}

/// Index and label index of each held point, oldest first: no label index with labels off.
pub fn listed(h: &LentHold) -> Vec<(usize, usize)> {
    let label = |k: usize| {
        if has_labels(h) {
            h.held_labels[k] as usize
        } else {
            NONE
        }
    };
    (0..held(h)).map(|k| (h.held_indices[k] as usize, label(k))).collect()
}

/// Memory that an opening of a hold asks for and at most `more` entries more, full of rubbish.
pub fn hold_rubbish_for(o: Opening, more: usize, random: &mut Random) -> LentHold {
    let mut store = rubbish_for(o, more, random);
    while store.words.len() < HOLD_WORDS || random.one_in(3) {
        store.words.push(random.number());
    }
    let labels = if o.store_labels == 1 {
        o.capacity
    } else {
        random.below(2)
    };
    let mut table = |n: usize| -> Vec<u16> {
        let long = n + random.below(more + 1);
        (0..long).map(|_| random.number() as u16).collect()
    };
    LentHold {
        store,
        held_indices: table(o.capacity),
        held_labels: table(labels),
    }
}
