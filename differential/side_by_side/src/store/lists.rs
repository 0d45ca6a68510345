//! Random lists of calls beside the Rust, from an opening on.
use super::call::Call;
use super::classes::any_table;
use super::guess::{any_call, any_taste, Mood};
use super::lent::{any_opening, rubbish_for, Bounds, LARGEST, MIDDLING, SMALL};
use super::memory::*;
use super::sides::Sides;
use crate::coverage::Coverage;
use crate::mutant;
use library::classes::ClassText;
use library::store::{Lent, Opening};
use random::Random;

fn any_bounds(random: &mut Random) -> Bounds {
    match random.below(100) {
        0 => LARGEST,
        1..=6 => MIDDLING,
        _ => SMALL,
    }
}

/// How long a list is: a large store costs more for each call.
fn length(bounds: Bounds, random: &mut Random) -> usize {
    match bounds.capacity {
        1024 => random.within(50, 600),
        _ => random.within(20, 600),
    }
}

fn meet_shape(m: &Lent, coverage: &mut Coverage) {
    let s = shape(m);
    coverage.meet(match (s.labels, s.rotation) {
        (false, false) => "lists with labels off, rotation off",
        (false, true) => "lists with labels off, rotation on",
        (true, false) => "lists with labels on, rotation off",
        (true, true) => "lists with labels on, rotation on",
    });
    for (kind, is_met) in [
        ("lists at dimensions 1", s.dimensions == 1),
        ("lists at dimensions 64", s.dimensions == 64),
        ("lists at capacity 1", s.capacity == 1),
        ("lists at capacity 1,024", s.capacity == 1024),
        ("lists at 16,384 floats", s.capacity * s.dimensions == 16_384),
        ("lists without internal shingling", !s.shingling),
        ("lists with internal shingling", s.shingling),
    ] {
        if is_met {
            coverage.meet(kind);
        }
    }
}

pub const SHAPES: [&str; 12] = [
    "lists",
    "lists with labels off, rotation off",
    "lists with labels off, rotation on",
    "lists with labels on, rotation off",
    "lists with labels on, rotation on",
    "lists without internal shingling",
    "lists with internal shingling",
    "lists at dimensions 1",
    "lists at dimensions 64",
    "lists at capacity 1",
    "lists at capacity 1,024",
    "lists at 16,384 floats",
];

fn random_list(random: &mut Random, coverage: &mut Coverage) -> Result<(), String> {
    let bounds = any_bounds(random);
    let opening = any_opening(bounds, random);
    let last = length(bounds, random);
    list_from(opening, last, random, coverage)
}

/// Dimensions, shingle size, capacity and starting capacity at document 01's bounds.
const CORNERS: [[usize; 4]; 8] = [
    [1, 1, 1, 1],
    [1, 1, 1024, 1024],
    [16, 4, 1024, 5],
    [64, 1, 256, 256],
    [64, 64, 256, 6],
    [64, 8, 256, 1],
    [2, 2, 2, 2],
    [64, 64, 1, 1],
];

/// A list at each corner with all flags.
pub fn corner_lists(seed: u64, coverage: &mut Coverage) -> Result<(), String> {
    let mut random = Random::new(seed + 100);
    for shape in CORNERS {
        for flags in 0..8 {
            let mut opening = Opening::with_flags(shape, flags);
            if mutant::is("harness-never-rotates") {
                opening.internal_rotation = 0;
            }
            list_from(opening, 300, &mut random, coverage)?;
        }
    }
    Ok(())
}

fn list_from(opening: Opening, last: usize, random: &mut Random, coverage: &mut Coverage) -> Result<(), String> {
    let memory = rubbish_for(opening, random.below(3), random);
    let mut sides = Sides::opened(memory, opening, coverage)?;
    meet_shape(&sides.model, coverage);
    coverage.meet("lists");
    let mut taste = any_taste(random);
    let far = random.one_in(10).then(|| random.within(opening.shingle_size, last));
    for step in 0..last {
        if random.one_in(40) {
            taste = taste.changed(random);
        }
        // The label shingle, which the Rust keeps, has to be full by then.
        if far == Some(step) && sides.model.words[SEQUENCE] >= opening.shingle_size as u64 {
            sides.at_sequence(LARGEST_SEQUENCE - random.below(40) as u64);
        }
        let call = if random.one_in(800) && sides.beside_the_rust() {
            Call::Open(same_memory(opening, random))
        } else {
            any_call(&sides.model, taste, random)
        };
        let value = sides.step(&call, coverage)?.value;
        // A full store is drained, lest most adds be refused.
        if (value == 8 || value == 9) && random.one_in(3) {
            taste.mood = Mood::Drain;
        } else if value == 5 && random.one_in(3) {
            taste.mood = Mood::Fill;
        }
    }
    Ok(())
}

/// Another opening over the memory of the first.
fn same_memory(mut o: Opening, random: &mut Random) -> Opening {
    o.internal_rotation = random.below(2) * !mutant::is("harness-never-rotates") as usize;
    o.internal_shingling = random.below(2);
    o.initial_capacity = random.within(1, o.capacity);
    o.class_text = ClassText::of(&any_table(random));
    o
}

/// Lists until so many calls are made.
pub fn random_lists(seed: u64, calls: u64, coverage: &mut Coverage) -> Result<(), String> {
    let mut random = Random::new(seed);
    while coverage.count("calls") < calls {
        random_list(&mut random, coverage)?;
    }
    Ok(())
}
