//! Adjusts of one to five pairs with a refused one in every place, refused for every cause.
use super::call::Call;
use super::lent::SMALL;
use super::made_up::any_store;
use super::memory::*;
use super::sides::Sides;
use crate::coverage::Coverage;
use library::store::Lent;
use random::Random;

pub const PLACES: [&str; 5] = [
    "refused with no pair before it",
    "refused with 1 pair before it",
    "refused with 2 pairs before it",
    "refused with 3 pairs before it",
    "refused with 4 pairs before it",
];

pub const CAUSES: [&str; 6] = [
    "refused for the inc's index",
    "refused for the inc's label",
    "refused for the point's count",
    "refused for the label's count",
    "refused for the dec's index",
    "refused for the dec's label",
];

/// Pairs that are taken, or skipped, before and after.
fn taken(index: usize, label: usize, k: usize) -> [usize; 4] {
    match k % 3 {
        0 => [index, label, NONE, NONE],
        1 => [NONE, 7, 7, 7],
        _ => [index, label, index, label],
    }
}

/// A pair refused for a cause, and the number; none where the store has no such pair.
fn refused_pair(m: &Lent, cause: usize, index: usize, label: usize) -> Option<([usize; 4], u64)> {
    let labels = m.words[STORE_LABELS] == 1;
    let table = word(m, TABLE_LENGTH);
    let capacity = word(m, CAPACITY);
    let dead = (0..table).find(|i| m.reference_count[*i] == 0).unwrap_or(table);
    let dead_label = if labels {
        (0..capacity).find(|l| m.label_count[*l] == 0).unwrap_or(capacity)
    } else {
        0
    };
    // The counts of these two are at their limit, of no others.
    let full = (0..table).find(|i| m.reference_count[*i] == LARGEST_COUNT);
    let full_label = (0..capacity).find(|l| labels && m.label_count[*l] == LARGEST_COUNT);
    Some(match cause {
        0 => ([dead, label, index, label], 5),
        1 if labels => ([index, dead_label, index, label], 6),
        2 => ([full?, label, full?, label], 7),
        3 => ([index, full_label?, index, full_label?], 7),
        4 => ([index, label, dead, label], 5),
        5 => ([index, label, index, dead_label], 6),
        _ => return None,
    })
}

fn try_store(m: Lent, coverage: &mut Coverage) -> Result<(), String> {
    let few = |count: u16| count > 0 && count < LARGEST_COUNT - 6;
    let Some(index) = live_indices(&m).into_iter().find(|i| few(m.reference_count[*i])) else {
        return Ok(());
    };
    let mut label = NONE;
    if m.words[STORE_LABELS] == 1 {
        let Some(found) = live_labels(&m).into_iter().find(|l| few(m.label_count[*l])) else {
            return Ok(());
        };
        label = found;
    }
    for (cause, name) in CAUSES.iter().enumerate() {
        for n in 1..=5 {
            for at in 0..n {
                let Some((pair, number)) = refused_pair(&m, cause, index, label) else {
                    continue;
                };
                let mut pairs: Vec<[usize; 4]> = (0..n).map(|k| taken(index, label, k + at)).collect();
                pairs[at] = pair;
                let got = Sides::over(m.clone()).step(&Call::Adjust(pairs.clone()), coverage)?;
                if got.value != number || got.numbers[0] != at as u64 {
                    return Err(format!("{name}, pair {at}: {got:?} of {pairs:?} on {m:?}"));
                }
                coverage.meet(name);
                coverage.meet(PLACES[at]);
            }
        }
    }
    Ok(())
}

pub fn in_every_place(seed: u64, stores: u64, coverage: &mut Coverage) -> Result<(), String> {
    let mut random = Random::new(seed);
    for _ in 0..stores {
        try_store(any_store(SMALL, &mut random), coverage)?;
    }
    Ok(())
}
