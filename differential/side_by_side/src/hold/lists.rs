//! Random lists of hold adds from a fresh hold, beside the Rust's add and dec.
use super::call::HoldCall;
use super::memory::*;
use super::sides::HoldSides;
use crate::coverage::Coverage;
use crate::store::call::Call;
use crate::store::guess::{self, any_taste, Taste};
use crate::store::lent::{any_opening, Bounds, LARGEST, MIDDLING, SMALL};
use crate::store::memory::*;
use library::hold::LentHold;
use library::store::Opening;
use random::Random;

pub const SHAPES: [&str; 12] = [
    "lists",
    "lists with labels off, rotation off",
    "lists with labels off, rotation on",
    "lists with labels on, rotation off",
    "lists with labels on, rotation on",
    "lists without internal shingling",
    "lists with internal shingling",
    "lists at width 1",
    "lists at a width one below the capacity",
    "lists at capacity 2",
    "lists at capacity 1,024",
    "lists at a start below 5",
];

fn meet_shape(o: Opening, width: usize, coverage: &mut Coverage) {
    coverage.meet(SHAPES[1 + 2 * o.store_labels + o.internal_rotation]);
    coverage.meet(SHAPES[5 + o.internal_shingling]);
    for (kind, is_met) in [
        ("lists", true),
        ("lists at width 1", width == 1),
        ("lists at a width one below the capacity", width + 1 == o.capacity),
        ("lists at capacity 2", o.capacity == 2),
        ("lists at capacity 1,024", o.capacity == 1024),
        ("lists at a start below 5", o.initial_capacity < 5),
    ] {
        if is_met {
            coverage.meet(kind);
        }
    }
}

/// A width that opening takes.
pub fn any_width(capacity: usize, random: &mut Random) -> usize {
    match random.below(5) {
        0 => 1,
        1 => capacity - 1,
        _ => random.within(1, capacity - 1),
    }
}

/// An add as a store's lists have it.
pub fn any_add(h: &LentHold, taste: Taste, random: &mut Random) -> HoldCall {
    let refused = random.one_in(taste.refused_in);
    match guess::add(&h.store, taste, refused, random) {
        Call::Add { point, label } => HoldCall::Add { point, label },
        _ => unreachable!(),
    }
}

/// A reading of the hold, with an output of any length.
pub fn any_reading(h: &LentHold, random: &mut Random) -> HoldCall {
    if random.one_in(3) {
        return HoldCall::Number;
    }
    let right = held(h).min(2000);
    let out = match random.below(4) {
        0 => random.below(right + 3),
        1 => right + 1,
        _ => right,
    };
    HoldCall::Held { out }
}

fn any_bounds(random: &mut Random) -> Bounds {
    match random.below(100) {
        0 => LARGEST,
        1..=6 => MIDDLING,
        _ => SMALL,
    }
}

/// An opening of two points or more.
pub fn any_hold_opening(bounds: Bounds, random: &mut Random) -> Opening {
    loop {
        let opening = any_opening(bounds, random);
        if opening.capacity > 1 {
            return opening;
        }
    }
}

fn list_from(
    o: Opening,
    width: usize,
    last: usize,
    random: &mut Random,
    coverage: &mut Coverage,
) -> Result<(), String> {
    let memory = hold_rubbish_for(o, random.below(3), random);
    let mut sides = HoldSides::opened(memory, o, width, coverage)?;
    meet_shape(o, width, coverage);
    let mut taste = any_taste(random);
    let far = random
        .one_in(10)
        .then(|| random.within(o.shingle_size, last.max(o.shingle_size)));
    for step in 0..last {
        if random.one_in(40) {
            taste = taste.changed(random);
        }
        if far == Some(step) && sides.model.store.words[SEQUENCE] >= o.shingle_size as u64 {
            sides.at_sequence(LARGEST_SEQUENCE - random.below(40) as u64);
        }
        let call = match random.below(20) {
            0 => any_reading(&sides.model, random),
            1 => HoldCall::Inside(guess::reading(&sides.model.store, taste, random.one_in(6), random)),
            2 if random.one_in(2) => HoldCall::Inside(Call::Compact),
            _ => any_add(&sides.model, taste, random),
        };
        sides.step(&call, coverage)?;
        if random.one_in(30) {
            sides.check_copies(coverage)?;
        }
    }
    sides.check_copies(coverage)
}

/// Dimensions, shingle size, capacity and starting capacity at the bounds.
const CORNERS: [[usize; 4]; 7] = [
    [1, 1, 2, 2],
    [2, 2, 2, 2],
    [1, 1, 1024, 1024],
    [16, 4, 1024, 5],
    [64, 64, 256, 6],
    [64, 8, 256, 1],
    [4, 2, 32, 4],
];

/// A list at each corner with all flags, at the least, the largest and another width.
pub fn corner_lists(seed: u64, coverage: &mut Coverage) -> Result<(), String> {
    let mut random = Random::new(seed);
    for shape in CORNERS {
        let capacity = shape[2];
        for width in [1, capacity - 1, random.within(1, capacity - 1)] {
            for flags in 0..8 {
                let last = if width > 100 { 2 * width.min(300) } else { 200 };
                list_from(Opening::with_flags(shape, flags), width, last, &mut random, coverage)?;
            }
        }
    }
    Ok(())
}

pub fn random_lists(seed: u64, calls: u64, coverage: &mut Coverage) -> Result<(), String> {
    let mut random = Random::new(seed);
    while coverage.count("calls") < calls {
        let bounds = any_bounds(&mut random);
        let opening = any_hold_opening(bounds, &mut random);
        let width = any_width(opening.capacity, &mut random);
        let last = random.within(20, 400);
        list_from(opening, width, last, &mut random, coverage)?;
    }
    Ok(())
}
