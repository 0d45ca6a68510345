//! Memory for a store: slices at least as long as a shape asks for, full of rubbish.
use super::classes::any_table;
use super::memory::RECORD_WORDS;
use crate::mutant;
use library::classes::ClassText;
use library::store::{Lent, Opening};
use random::Random;

/// How large a random shape may be.
#[derive(Clone, Copy)]
pub struct Bounds {
    pub dimensions: usize,
    pub capacity: usize,
}

pub const SMALL: Bounds = Bounds {
    dimensions: 8,
    capacity: 12,
};

pub const MIDDLING: Bounds = Bounds {
    dimensions: 24,
    capacity: 64,
};

pub const LARGEST: Bounds = Bounds {
    dimensions: 64,
    capacity: 1024,
};

/// An opening that document 01 takes.
pub fn any_opening(bounds: Bounds, random: &mut Random) -> Opening {
    let dimensions = random.within(1, bounds.dimensions);
    let divisors: Vec<usize> = (1..=dimensions).filter(|d| dimensions % d == 0).collect();
    let most = bounds.capacity.min(16_384 / dimensions);
    let capacity = if random.one_in(6) { most } else { random.within(1, most) };
    // Mostly a start that the Rust grows too.
    let least = if random.one_in(4) { 1 } else { capacity.min(5) };
    let initial_capacity = match random.below(4) {
        0 => capacity,
        1 => random.within(least, capacity.min(8)),
        _ => random.within(least, capacity),
    };
    Opening {
        dimensions,
        shingle_size: divisors[random.below(divisors.len())],
        capacity,
        initial_capacity,
        internal_shingling: random.below(2),
        internal_rotation: random.below(2) * !mutant::is("harness-never-rotates") as usize,
        store_labels: random.below(2),
        class_text: ClassText::of(&any_table(random)),
    }
}

/// Slices of the lengths that an opening asks for and at most `more` entries more, full of rubbish.
pub fn rubbish_for(o: Opening, more: usize, random: &mut Random) -> Lent {
    let tables = if o.store_labels == 1 {
        o.capacity
    } else {
        random.below(2)
    };
    let seed = random.number();
    let mut fill = Random::new(seed);
    let mut long = |n: usize| n + random.below(more + 1);
    macro_rules! rubbish {
        ($n:expr, $of:ty) => {
            (0..long($n)).map(|_| fill.number() as $of).collect()
        };
    }
    Lent {
        words: rubbish!(RECORD_WORDS, u64),
        store: rubbish!(o.capacity * o.dimensions, u32),
        last_known_shingle: rubbish!(o.dimensions, u32),
        reference_count: rubbish!(o.capacity, u16),
        location: rubbish!(o.capacity, u16),
        index_starts: rubbish!(o.capacity, u16),
        index_ends: rubbish!(o.capacity, u16),
        labels: rubbish!(tables, u8),
        label_attributes: rubbish!(tables, u16),
        label_count: rubbish!(tables, u16),
        label_starts: rubbish!(tables, u16),
        label_ends: rubbish!(tables, u16),
        attributes: rubbish!(tables, u8),
        attribute_count: rubbish!(tables, u32),
        attribute_starts: rubbish!(tables, u16),
        attribute_ends: rubbish!(tables, u16),
    }
}
