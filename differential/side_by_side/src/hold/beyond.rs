//! Holds that no list reaches, ill-formed ones of every kind, and any opening. The library is held to the model.
use super::breaking::with_broken;
use super::call::HoldCall;
use super::lists::{any_add, any_hold_opening, any_reading, any_width};
use super::made_up::any_hold;
use super::memory::*;
use super::sides::HoldSides;
use super::well_formed::{broken, is_well_formed_hold, CLAUSES, ILL_FORMED_STORE};
use crate::coverage::Coverage;
use crate::store::breaking::with_broken as with_broken_store;
use crate::store::classes::any_text;
use crate::store::guess::{any_call, any_number, any_taste};
use crate::store::lent::{Bounds, LARGEST, MIDDLING, SMALL};
use crate::store::memory::*;
use crate::store::well_formed::{broken as broken_store, is_well_formed, CLAUSES as OF_STORE};
use library::hold::LentHold;
use library::store::Opening;
use random::Random;

fn any_bounds(random: &mut Random) -> Bounds {
    match random.below(200) {
        0 => LARGEST,
        1..=10 => MIDDLING,
        _ => SMALL,
    }
}

/// Holds that no list reaches, each taken through a few calls.
pub fn made_up_holds(seed: u64, calls: u64, coverage: &mut Coverage) -> Result<(), String> {
    let mut random = Random::new(seed);
    while coverage.count("calls") < calls {
        let bounds = any_bounds(&mut random);
        let mut sides = HoldSides::over(any_hold(bounds, &mut random)?);
        coverage.meet("holds made up");
        let mut taste = any_taste(&mut random);
        taste.refused_in = 6;
        for _ in 0..random.within(1, 12) {
            let call = if random.one_in(6) {
                any_reading(&sides.model, &mut random)
            } else {
                any_add(&sides.model, taste, &mut random)
            };
            sides.step(&call, coverage)?;
        }
    }
    Ok(())
}

/// An add of a length that is asked for, and both readings.
fn one_of_each(h: &LentHold, random: &mut Random) -> Vec<HoldCall> {
    let w = &h.store.words;
    let dimensions = w.first().map_or(3, |d| (*d).min(70) as usize);
    let size = w.get(SHINGLE_SIZE).map_or(1, |s| (*s).clamp(1, 64) as usize);
    let n = if w.get(INTERNAL_SHINGLING) == Some(&1) {
        dimensions / size
    } else {
        dimensions
    };
    let out = w.get(HELD).map_or(0, |n| (*n).min(2000) as usize);
    vec![
        HoldCall::Add {
            point: vec![0; n],
            label: random.below(26),
        },
        HoldCall::Held { out },
        HoldCall::Number,
    ]
}

fn refused_with_1(h: LentHold, clause: &str, random: &mut Random, coverage: &mut Coverage) -> Result<(), String> {
    let calls = one_of_each(&h, random);
    let mut sides = HoldSides::over(h);
    for call in calls {
        let value = sides.step(&call, coverage)?.value();
        if value != 1 {
            return Err(format!("{clause}: {call:?} gives {value} on {:?}", sides.model));
        }
    }
    Ok(())
}

/// Each of the hold's clauses broken alone, and each of its store's: every call refuses with 1.
pub fn each_clause_broken(seed: u64, each: u64, coverage: &mut Coverage) -> Result<(), String> {
    let mut random = Random::new(seed);
    for clause in CLAUSES {
        let mut tries = 0;
        while tries < 100 * each && coverage.count(clause) < each {
            tries += 1;
            let bounds = any_bounds(&mut random);
            let h = with_broken(clause, any_hold(bounds, &mut random)?, &mut random);
            if broken(&h) == [clause] {
                coverage.meet(clause);
                refused_with_1(h, clause, &mut random, coverage)?;
            }
        }
    }
    for clause in &OF_STORE[1..] {
        for _ in 0..each {
            let mut h = any_hold(SMALL, &mut random)?;
            h.store = with_broken_store(clause, h.store, &mut random);
            if broken_store(&h.store) == [*clause] && broken(&h) == [ILL_FORMED_STORE] {
                coverage.meet(clause);
                refused_with_1(h, clause, &mut random, coverage)?;
            }
        }
    }
    Ok(())
}

fn maybe_short(table: &mut Vec<u16>, capacity: usize, random: &mut Random) {
    if random.one_in(8) {
        table.truncate(random.below(capacity.min(table.len()) + 1));
    }
}

/// Any shape, any width, memory that is perhaps too short, any text of classes.
pub fn openings(seed: u64, calls: u64, coverage: &mut Coverage) -> Result<(), String> {
    let mut random = Random::new(seed);
    while coverage.count("calls") < calls {
        let mut o = any_hold_opening(any_bounds(&mut random), &mut random);
        let mut h = hold_rubbish_for(o, 2, &mut random);
        let mut width = any_width(o.capacity, &mut random);
        maybe_short(&mut h.held_indices, o.capacity, &mut random);
        maybe_short(&mut h.held_labels, o.capacity, &mut random);
        if random.one_in(8) {
            let n = random.below(HOLD_WORDS);
            h.store.words.truncate(n);
        }
        if random.one_in(10) {
            h.store.reference_count.truncate(o.capacity - 1);
        }
        if random.one_in(3) {
            width = [0, o.capacity, o.capacity + 1, any_number(&mut random)][random.below(4)];
        }
        if random.one_in(6) {
            spoil_shape(&mut o, &mut random);
        }
        o.class_text = any_text(&mut random);
        HoldSides::over(h).step(&HoldCall::Open(o, width), coverage)?;
    }
    Ok(())
}

fn spoil_shape(o: &mut Opening, random: &mut Random) {
    let value = any_number(random);
    let of = [
        &mut o.dimensions,
        &mut o.shingle_size,
        &mut o.capacity,
        &mut o.initial_capacity,
        &mut o.internal_shingling,
        &mut o.internal_rotation,
        &mut o.store_labels,
    ];
    for (k, number) in of.into_iter().enumerate() {
        if k == random.below(7) {
            *number = value;
        }
    }
}

/// One of the hold's words or entries changed, or a table's length.
fn spoil(h: &mut LentHold, random: &mut Random) {
    let value = if random.one_in(3) {
        any_number(random)
    } else {
        random.below(5)
    };
    let n = h.held_indices.len();
    match random.below(8) {
        0 => h.store.words[WIDTH] = value as u64,
        1 => h.store.words[HELD] = value as u64,
        2 => h.held_indices.truncate(random.below(n + 1)),
        3 => h.held_labels.truncate(random.below(h.held_labels.len() + 1)),
        4 if !h.held_labels.is_empty() => {
            let at = random.below(h.held_labels.len());
            h.held_labels[at] = value as u16;
        }
        5 if n > 1 => h.held_indices.swap(0, random.below(n)),
        _ if n > 0 => h.held_indices[random.below(n)] = value as u16,
        _ => {}
    }
}

/// Holds with a few entries spoiled, perhaps still well-formed, and calls of the store inside that leave a hold or do not.
pub fn spoiled(seed: u64, calls: u64, coverage: &mut Coverage) -> Result<(), String> {
    let mut random = Random::new(seed);
    while coverage.count("calls") < calls {
        let bounds = any_bounds(&mut random);
        let mut h = any_hold(bounds, &mut random)?;
        for _ in 0..random.below(3) {
            spoil(&mut h, &mut random);
        }
        let taste = any_taste(&mut random);
        let mut sides = HoldSides::over(h);
        for _ in 0..6 {
            let call = match random.below(4) {
                0 if is_well_formed(&sides.model.store) => {
                    HoldCall::Inside(any_call(&sides.model.store, taste, &mut random))
                }
                1 => any_reading(&sides.model, &mut random),
                _ => any_add(&sides.model, taste, &mut random),
            };
            let is_hold = is_well_formed_hold(&sides.model);
            sides.step(&call, coverage)?;
            if matches!(call, HoldCall::Inside(_)) && is_hold {
                coverage.meet(if is_well_formed_hold(&sides.model) {
                    "a store call that leaves a hold"
                } else {
                    "a store call that leaves none"
                });
            }
        }
    }
    Ok(())
}
