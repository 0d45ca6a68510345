//! Starts of 1 to 4, which grow to their capacity. The Rust never grows them: from the first growth on the library is held to
//! the model.
use super::call::Call;
use super::guess::{any_call, any_taste};
use super::lent::rubbish_for;
use super::memory::*;
use super::sides::Sides;
use crate::coverage::Coverage;
use library::store::{Lent, Opening};
use random::Random;

/// Dimensions, shingle size, capacity.
const SHAPES: [[usize; 3]; 5] = [[1, 1, 5], [4, 2, 7], [6, 3, 9], [4, 1, 12], [4, 2, 32]];

pub const KINDS: [[&str; 2]; 4] = [
    [
        "a start of 1 grown to capacity, labels off",
        "a start of 1 grown to capacity, labels on",
    ],
    [
        "a start of 2 grown to capacity, labels off",
        "a start of 2 grown to capacity, labels on",
    ],
    [
        "a start of 3 grown to capacity, labels off",
        "a start of 3 grown to capacity, labels on",
    ],
    [
        "a start of 4 grown to capacity, labels off",
        "a start of 4 grown to capacity, labels on",
    ],
];

/// A row that joins what stands before it, or one that does not.
fn any_add(m: &Lent, random: &mut Random) -> Call {
    let s = shape(m);
    let n = if s.shingling { s.base } else { s.dimensions };
    let free_start = word(m, FREE_START);
    let mut point: Vec<u32> = (0..n).map(|_| (random.below(1_000) as f32).to_bits()).collect();
    if !s.shingling && free_start > s.extra && random.one_in(2) {
        point[..s.extra].copy_from_slice(&m.store[free_start - s.extra..free_start]);
    }
    Call::Add {
        point,
        label: random.below(24),
    }
}

fn owed(sides: &mut Sides, call: Call, number: u64, coverage: &mut Coverage) -> Result<(), String> {
    let value = sides.step(&call, coverage)?.value;
    if value != number {
        return Err(format!("{call:?} gives {value}, not {number}, on {:?}", sides.model));
    }
    Ok(())
}

/// Adds until every index of the capacity is live; the next is denied. Then calls of every kind.
fn filled(opening: Opening, random: &mut Random, coverage: &mut Coverage) -> Result<(), String> {
    let memory = rubbish_for(opening, 2, random);
    let mut sides = Sides::opened(memory, opening, coverage)?;
    while live_indices(&sides.model).len() < opening.capacity {
        let add = any_add(&sides.model, random);
        owed(&mut sides, add, 0, coverage)?;
    }
    if word(&sides.model, TABLE_LENGTH) != opening.capacity || sides.beside_the_rust() {
        return Err(format!("grown to {:?}", sides.model.words));
    }
    if opening.store_labels == 1 {
        // A label is given up while its point stays, lest 8 come first.
        owed(&mut sides, Call::Inc(0, 0), 0, coverage)?;
        owed(&mut sides, Call::Dec(0, 1), 0, coverage)?;
    }
    let add = any_add(&sides.model, random);
    owed(&mut sides, add, 9, coverage)?;
    coverage.meet(KINDS[opening.initial_capacity - 1][opening.store_labels]);
    for _ in 0..200 {
        let call = any_call(&sides.model, any_taste(random), random);
        sides.step(&call, coverage)?;
    }
    Ok(())
}

pub fn grown_to_capacity(seed: u64, each: u64, coverage: &mut Coverage) -> Result<(), String> {
    let mut random = Random::new(seed);
    for _ in 0..each {
        for [dimensions, shingle_size, capacity] in SHAPES {
            for start in 1..=4 {
                for flags in 0..8 {
                    let opening = Opening::with_flags([dimensions, shingle_size, capacity, start], flags);
                    filled(opening, &mut random, coverage)?;
                }
            }
        }
    }
    Ok(())
}
