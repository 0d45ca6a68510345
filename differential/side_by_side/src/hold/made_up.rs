//! Well-formed holds that need not come from any list of adds: a made-up store whose live points are held in any order, each with
//! count 1 and a label of its own; other labels may be live.
use super::lists::any_width;
use super::memory::*;
use super::well_formed::{broken, is_well_formed_hold};
use crate::store::lent::Bounds;
use crate::store::made_up::{any_store, shuffle};
use crate::store::memory::*;
use library::hold::LentHold;
use library::store::Lent;
use random::Random;

/// One count alone of a live label; its slot's count follows.
fn count_once(m: &mut Lent, label: usize) {
    let more = m.label_count[label] as u32 - 1;
    m.attribute_count[m.label_attributes[label] as usize] -= more;
    m.label_count[label] = 1;
}

/// Frees live points until at most so many are live.
fn free_points(m: &mut Lent, most: usize) {
    while live_indices(m).len() > most {
        let index = live_indices(m)[0];
        m.reference_count[index] = 0;
        m.location[index] = EMPTY;
        point_stack(m).release(index);
    }
}

fn tried(bounds: Bounds, random: &mut Random) -> Option<LentHold> {
    let mut store = any_store(bounds, random);
    let capacity = word(&store, CAPACITY);
    if capacity == 1 {
        return None;
    }
    let labels_on = store.words[STORE_LABELS] == 1;
    let mut labels = live_labels(&store);
    shuffle(&mut labels, random);
    let width = any_width(capacity, random);
    let most = if labels_on { width.min(labels.len()) } else { width };
    free_points(&mut store, most);
    let mut indices = live_indices(&store);
    shuffle(&mut indices, random);
    labels.truncate(indices.len());
    for index in &indices {
        store.reference_count[*index] = 1;
    }
    for label in &labels {
        count_once(&mut store, *label);
    }
    if random.one_in(2) {
        store.words[SEQUENCE] = random.below(word(&store, SHINGLE_SIZE) + 1) as u64;
    }
    store.words.resize(HOLD_WORDS + random.below(2), random.number());
    store.words[WIDTH] = width as u64;
    store.words[HELD] = indices.len() as u64;
    let mut table = |entries: &[usize], least: usize| -> Vec<u16> {
        let long = least + random.below(3);
        let rest = (entries.len()..long.max(entries.len())).map(|_| random.number() as u16);
        entries.iter().map(|i| *i as u16).chain(rest).collect()
    };
    let held_indices = table(&indices, capacity);
    let held_labels = table(&labels, if labels_on { capacity } else { 0 });
    Some(LentHold {
        store,
        held_indices,
        held_labels,
    })
}

pub fn any_hold(bounds: Bounds, random: &mut Random) -> Result<LentHold, String> {
    let hold = loop {
        if let Some(hold) = tried(bounds, random) {
            break hold;
        }
    };
    if !is_well_formed_hold(&hold) && crate::mutant::is_none_but(&[]) {
        return Err(format!("made up wrongly, {:?}: {hold:?}", broken(&hold)));
    }
    Ok(hold)
}
