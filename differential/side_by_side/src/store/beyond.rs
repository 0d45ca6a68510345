//! Beyond the Rust's domain: stores that no list reaches, ill-formed memory of every kind, rubbish, any opening. The library
//! is held to the model.
use super::breaking::with_broken;
use super::call::Call;
use super::classes::any_text;
use super::guess::{any_call, any_number, any_taste, Taste};
use super::lent::{Bounds, LARGEST, MIDDLING, SMALL};
use super::made_up::any_store;
use super::memory::*;
use super::sides::Sides;
use super::well_formed::{broken, is_well_formed, CLAUSES};
use crate::coverage::Coverage;
use library::store::{Lent, Opening};
use random::Random;

pub fn any_bounds(random: &mut Random) -> Bounds {
    match random.below(200) {
        0 => LARGEST,
        1..=10 => MIDDLING,
        _ => SMALL,
    }
}

/// Stores that no list reaches, each taken through a few calls.
pub fn made_up_stores(seed: u64, calls: u64, coverage: &mut Coverage) -> Result<(), String> {
    let mut random = Random::new(seed);
    while coverage.count("calls") < calls {
        let memory = any_store(any_bounds(&mut random), &mut random);
        if !is_well_formed(&memory) {
            return Err(format!("made up wrongly, {:?}: {memory:?}", broken(&memory)));
        }
        coverage.meet("stores made up");
        let mut taste = any_taste(&mut random);
        taste.refused_in = 4;
        let mut sides = Sides::over(memory);
        for _ in 0..random.within(1, 12) {
            let call = any_call(&sides.model, taste, &mut random);
            sides.step(&call, coverage)?;
        }
    }
    Ok(())
}

/// One call of each kind but open, with whatever arguments.
fn one_of_each(m: &Lent, random: &mut Random) -> Vec<Call> {
    let (index, label) = (any_number(random), any_number(random));
    let floats = |n: usize| vec![0; n];
    let dimensions = m.words.first().map_or(3, |d| (*d).min(70) as usize);
    let out = if random.one_in(4) { random.below(70) } else { dimensions };
    vec![
        Call::Add {
            point: floats(out),
            label: random.below(26),
        },
        Call::Inc(index, label),
        Call::Dec(index, NONE),
        Call::Adjust(vec![[index, label, NONE, NONE]; random.below(3)]),
        Call::Compact,
        Call::Copy { index, out },
        Call::Count(index),
        Call::LiveNumber,
        Call::FreeStart,
        Call::IsEqual {
            index,
            point: floats(out),
        },
        Call::PointSum {
            items: vec![[index, label]; random.below(3)],
            out,
        },
        Call::ShingledPoint {
            point: floats(out),
            out: dimensions,
        },
        Call::MissingIndices {
            look_ahead: index,
            values: vec![label],
            out: 1,
        },
        Call::NextIndices { look_ahead: index, out },
        Call::Label(label),
        Call::Attribute(label),
        Call::AttributeVec { label, out: 10 },
    ]
}

/// Each clause of well-formedness broken alone, so often: every call refuses with 1.
pub fn each_clause_broken(seed: u64, each: usize, coverage: &mut Coverage) -> Result<(), String> {
    let mut random = Random::new(seed);
    for clause in CLAUSES {
        let mut tries = 0;
        while tries < 40 * each && coverage.count(clause) < each as u64 {
            tries += 1;
            let bounds = any_bounds(&mut random);
            let m = with_broken(clause, any_store(bounds, &mut random), &mut random);
            if broken(&m) != [clause] {
                continue;
            }
            coverage.meet(clause);
            let calls = one_of_each(&m, &mut random);
            let mut sides = Sides::over(m);
            for call in calls {
                let value = sides.step(&call, coverage)?.value;
                if value != 1 {
                    return Err(format!("{clause}: {call:?} gives {value} on {:?}", sides.model));
                }
            }
        }
    }
    Ok(())
}

fn any_of_words(m: &Lent, random: &mut Random) -> u64 {
    match random.below(4) {
        0 => any_number(random) as u64,
        1 => random.below(4) as u64,
        _ => m.words[random.below(m.words.len())]
            .wrapping_add(random.below(3) as u64)
            .wrapping_sub(1),
    }
}

/// One entry of one slice changed, or its length.
fn spoil(m: &mut Lent, random: &mut Random) {
    macro_rules! spoil {
        ($($slice:ident),*) => {
            [$(|m: &mut Lent, random: &mut Random, value: usize| {
                let n = m.$slice.len();
                if n > 0 && random.one_in(8) {
                    m.$slice.truncate(random.below(n));
                } else if n > 0 {
                    m.$slice[random.below(n)] = value as _;
                }
            }),*]
        };
    }
    let each: [fn(&mut Lent, &mut Random, usize); 14] = spoil!(
        last_known_shingle,
        reference_count,
        location,
        index_starts,
        index_ends,
        labels,
        label_attributes,
        label_count,
        label_starts,
        label_ends,
        attributes,
        attribute_count,
        attribute_starts,
        attribute_ends
    );
    let value = if random.one_in(3) {
        any_number(random)
    } else {
        random.below(5)
    };
    match random.below(20) {
        0 => m.words.truncate(random.below(RECORD_WORDS + 1)),
        1 => m.store.truncate(random.below(m.store.len() + 1)),
        2..=5 if !m.words.is_empty() => {
            let at = random.below(m.words.len());
            m.words[at] = any_of_words(m, random);
        }
        _ => each[random.below(14)](m, random, value),
    }
}

fn flag(random: &mut Random) -> usize {
    match random.below(30) {
        0 => any_number(random),
        _ => random.below(2),
    }
}

/// Words and slices of any length, of small numbers and others.
fn all_rubbish(random: &mut Random) -> Lent {
    let number = |random: &mut Random| {
        if random.one_in(6) {
            any_number(random)
        } else {
            random.below(4)
        }
    };
    macro_rules! slice {
        ($most:expr) => {
            (0..random.below($most)).map(|_| number(random) as _).collect()
        };
    }
    Lent {
        words: slice!(RECORD_WORDS + 3),
        store: slice!(20),
        last_known_shingle: slice!(6),
        reference_count: slice!(6),
        location: slice!(6),
        index_starts: slice!(6),
        index_ends: slice!(6),
        labels: slice!(6),
        label_attributes: slice!(6),
        label_count: slice!(6),
        label_starts: slice!(6),
        label_ends: slice!(6),
        attributes: slice!(6),
        attribute_count: slice!(6),
        attribute_starts: slice!(6),
        attribute_ends: slice!(6),
    }
}

fn any_opening(random: &mut Random) -> Opening {
    let size = |usual: usize, random: &mut Random| match random.below(6) {
        0 => any_number(random),
        _ => random.below(usual),
    };
    Opening {
        dimensions: size(9, random),
        shingle_size: size(5, random),
        capacity: size(14, random),
        initial_capacity: size(14, random),
        internal_shingling: flag(random),
        internal_rotation: flag(random),
        store_labels: flag(random),
        class_text: any_text(random),
    }
}

/// Memory with a few entries spoiled: perhaps still well-formed. A call of any kind, an opening too.
pub fn rubbish(seed: u64, calls: u64, coverage: &mut Coverage) -> Result<(), String> {
    let mut random = Random::new(seed);
    while coverage.count("calls") < calls {
        let bounds = any_bounds(&mut random);
        let mut m = any_store(bounds, &mut random);
        if random.one_in(6) {
            m = all_rubbish(&mut random);
            coverage.meet("nothing but rubbish");
        } else {
            for _ in 0..random.within(1, 3) {
                spoil(&mut m, &mut random);
            }
        }
        let mut sides = Sides::over(m);
        let taste: Taste = any_taste(&mut random);
        for _ in 0..3 {
            let call = if random.one_in(4) {
                Call::Open(any_opening(&mut random))
            } else if is_well_formed(&sides.model) {
                coverage.meet("spoiled and still well-formed");
                any_call(&sides.model, taste, &mut random)
            } else {
                let mut each = one_of_each(&sides.model, &mut random);
                each.swap_remove(random.below(each.len()))
            };
            sides.step(&call, coverage)?;
        }
    }
    Ok(())
}
