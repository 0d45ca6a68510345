//! Breaks one clause of well-formedness of a hold, where the hold and the random choices allow it.
use super::memory::*;
use crate::store::memory::*;
use library::hold::LentHold;
use random::Random;

fn pick<T: Copy>(list: &[T], random: &mut Random) -> Option<T> {
    (!list.is_empty()).then(|| list[random.below(list.len())])
}

/// One entry more at a random place of the list, with a label of its own if labels are on.
fn insert(h: &mut LentHold, index: u16, random: &mut Random) -> Option<()> {
    let n = held(h);
    if n >= width(h) {
        return None;
    }
    let at = random.below(n + 1);
    if has_labels(h) {
        let own: Vec<usize> = listed(h).into_iter().map(|(_, label)| label).collect();
        let others: Vec<usize> = live_labels(&h.store)
            .into_iter()
            .filter(|l| !own.contains(l) && h.store.label_count[*l] == 1)
            .collect();
        let label = pick(&others, random)?;
        h.held_labels[at..=n].rotate_right(1);
        h.held_labels[at] = label as u16;
    }
    h.held_indices[at..=n].rotate_right(1);
    h.held_indices[at] = index;
    h.store.words[HELD] += 1;
    Some(())
}

fn remove(h: &mut LentHold, random: &mut Random) -> Option<()> {
    let n = held(h);
    if n == 0 {
        return None;
    }
    let at = random.below(n);
    h.held_indices[at..n].rotate_left(1);
    if has_labels(h) {
        h.held_labels[at..n].rotate_left(1);
    }
    h.store.words[HELD] -= 1;
    Some(())
}

/// The hold with the clause broken; perhaps as it was.
pub fn with_broken(clause: &str, mut h: LentHold, random: &mut Random) -> LentHold {
    let _ = broken_by(clause, &mut h, random);
    h
}

fn broken_by(clause: &str, h: &mut LentHold, random: &mut Random) -> Option<()> {
    let capacity = word(&h.store, CAPACITY);
    let table = word(&h.store, TABLE_LENGTH);
    let list = listed(h);
    let more = 1 + random.below(3) as u16;
    match clause {
        "fewer words than a hold's" => h.store.words.truncate(random.within(0, HOLD_WORDS - 1)),
        "held_indices too short" => h
            .held_indices
            .truncate(random.within(held(h).min(capacity - 1), capacity - 1)),
        "held_labels too short" => h
            .held_labels
            .truncate(random.within(held(h).min(capacity - 1), capacity - 1)),
        "width 0" => h.store.words[WIDTH] = 0,
        "width not below the capacity" => {
            h.store.words[WIDTH] = [capacity, capacity + 1, 65_536, NONE][random.below(4)] as u64
        }
        "more held than the width" if random.one_in(2) => h.store.words[WIDTH] = (held(h) as u64).saturating_sub(1),
        "more held than the width" => {
            h.store.words[HELD] = [width(h) + 1, capacity, capacity + 1, 65_536, NONE][random.below(5)] as u64
        }
        "a held index is not below the table length" => {
            insert(h, random.within(table, 65_535) as u16, random)?;
        }
        "a held index is free" => {
            let free: Vec<usize> = (0..table).filter(|i| !is_live(&h.store, *i)).collect();
            let index = pick(&free, random)?;
            insert(h, index as u16, random)?;
        }
        "a live point is not held" => remove(h, random)?,
        "a point is held twice" => {
            let (index, _) = pick(&list, random)?;
            insert(h, index as u16, random)?;
        }
        "a held point's count is above 1" => {
            let (index, _) = pick(&list, random)?;
            h.store.reference_count[index] = [2, 1 + more, 65_535][random.below(3)];
        }
        _ if !has_labels(h) => return None,
        "a held label is not in use" => {
            let dead: Vec<usize> = (0..65_536).filter(|l| !is_live_label(&h.store, *l)).collect();
            let near: Vec<usize> = dead.iter().copied().filter(|l| *l <= capacity).collect();
            let label = pick(if random.one_in(3) { &dead } else { &near }, random)?;
            let at = random.below(held(h).max(1));
            h.held_labels[at] = label as u16;
        }
        "a held label's count is above 1" => {
            let (_, label) = pick(&list, random)?;
            h.store.label_count[label] += more;
            h.store.attribute_count[h.store.label_attributes[label] as usize] += more as u32;
        }
        "a label is held twice" => {
            let (_, label) = pick(&list, random)?;
            let at = random.below(held(h));
            h.held_labels[at] = label as u16;
        }
        _ => return None,
    }
    Some(())
}
