//! Random lists of sets from a fresh product, beside the Rust's adds; openings; each clause broken alone.
use super::call::ProbeCall;
use super::model::{broken_clauses, is_well_formed_product, ABSENT, CLAUSES, ESTIMATED, PROBES, PROBES_WORDS};
use super::sides::ProbeSides;
use crate::coverage::Coverage;
use crate::mutant;
use crate::store::call::Call;
use crate::store::classes::any_text;
use crate::store::guess::{self, any_number, any_taste, Taste};
use crate::store::lent::{any_opening, rubbish_for, SMALL};
use crate::store::memory::*;
use crate::store::well_formed::is_well_formed;
use library::store::{Lent, Opening};
use random::Random;
use std::collections::VecDeque;

/// A shape that a product has.
pub fn any_product_opening(random: &mut Random) -> Opening {
    let shingle_size = [1, 1, 2, 2, 3, 4, 8][random.below(7)];
    let capacity = [1, 2, 2, 3, 4, 6, 9, 40][random.below(8)];
    let initial_capacity = if random.one_in(2) {
        capacity
    } else {
        random.within(1, capacity)
    };
    let flags = 1 + 2 * random.below(4);
    Opening::with_flags([PROBES * shingle_size, shingle_size, capacity, initial_capacity], flags)
}

pub fn product_rubbish(o: Opening, random: &mut Random) -> Lent {
    let mut m = rubbish_for(o, random.below(3), random);
    while m.words.len() < PROBES_WORDS || random.one_in(3) {
        m.words.push(random.number());
    }
    m
}

fn any_kind(random: &mut Random) -> u8 {
    match random.below(8) {
        0 | 1 => ESTIMATED,
        2 if !mutant::is("harness-knows-no-absent-reading") => ABSENT,
        _ => 0,
    }
}

pub fn any_set(taste: Taste, random: &mut Random) -> ProbeCall {
    let mut kinds: Vec<u8> = (0..PROBES).map(|_| any_kind(random)).collect();
    let mut floats: Vec<u32> = (0..PROBES).map(|_| taste.float(random)).collect();
    let mut label = random.below(24);
    if random.one_in(taste.refused_in) {
        match random.below(6) {
            0 => kinds.truncate(random.below(PROBES)),
            1 => floats.push(0),
            2 => kinds[random.below(PROBES)] = random.within(3, 255) as u8,
            3 => {
                kinds[random.below(PROBES)] = random.within(3, 255) as u8;
                kinds.push(0);
            }
            _ => label = 24 + any_number(random) % 1000,
        }
    }
    ProbeCall::Set { kinds, floats, label }
}

fn any_tallies(random: &mut Random) -> ProbeCall {
    let out = if random.one_in(3) { random.below(20) } else { PROBES };
    ProbeCall::Tallies { out }
}

fn list_from(o: Opening, last: usize, random: &mut Random, coverage: &mut Coverage) -> Result<(), String> {
    let mut sides = ProbeSides::opened(product_rubbish(o, random), o, coverage)?;
    coverage.meet("lists");
    let mut taste = any_taste(random);
    let mut windows: VecDeque<(usize, usize)> = VecDeque::new();
    let far = random.one_in(10).then(|| random.below(last));
    for step in 0..last {
        if random.one_in(40) {
            taste = taste.changed(random);
        }
        if far == Some(step) && sides.model.words[SEQUENCE] >= o.shingle_size as u64 {
            sides.at_sequence(LARGEST_SEQUENCE - random.below(20) as u64);
        }
        let full = windows.len() >= o.capacity.min(12);
        let call = match random.below(20) {
            0 => any_tallies(random),
            1 => ProbeCall::Inside(guess::reading(&sides.model, taste, random.one_in(6), random)),
            2 => ProbeCall::Inside(Call::Compact),
            3 => ProbeCall::Inside(guess::add(&sides.model, taste, false, random)),
            4 | 5 if !windows.is_empty() => dec_of(&mut windows, random),
            _ if full && !random.one_in(8) => dec_of(&mut windows, random),
            _ => any_set(taste, random),
        };
        let got = sides.step(&call, coverage)?;
        let adds = matches!(call, ProbeCall::Set { .. } | ProbeCall::Inside(Call::Add { .. }));
        if let (true, Some(kept)) = (adds, got.kept()) {
            windows.push_back(kept);
        }
    }
    Ok(())
}

fn dec_of(windows: &mut VecDeque<(usize, usize)>, random: &mut Random) -> ProbeCall {
    let at = if random.one_in(3) {
        random.below(windows.len())
    } else {
        0
    };
    let (index, label) = windows.remove(at).expect("a window");
    ProbeCall::Inside(Call::Dec(index, label))
}

pub fn random_lists(seed: u64, calls: u64, coverage: &mut Coverage) -> Result<(), String> {
    let mut random = Random::new(seed);
    while coverage.count("calls") < calls {
        let opening = any_product_opening(&mut random);
        let last = random.within(20, 300);
        list_from(opening, last, &mut random, coverage)?;
    }
    Ok(())
}

/// Shapes and records of every kind.
pub fn openings(seed: u64, calls: u64, coverage: &mut Coverage) -> Result<(), String> {
    let mut random = Random::new(seed);
    while coverage.count("calls") < calls {
        let mut o = match random.below(3) {
            0 => any_opening(SMALL, &mut random),
            _ => any_product_opening(&mut random),
        };
        let mut memory = product_rubbish(o, &mut random);
        match random.below(9) {
            0 => o.shingle_size = random.below(10),
            1 => o.internal_shingling = random.below(3),
            2 => o.dimensions = any_number(&mut random),
            3 => memory.words.truncate(random.below(PROBES_WORDS)),
            4 => {
                memory.location.pop();
            }
            5 => {
                memory.last_known_shingle.truncate(random.below(o.dimensions + 1));
            }
            6 => o.class_text = any_text(&mut random),
            _ => {}
        }
        ProbeSides::over(memory).step(&ProbeCall::Open(o), coverage)?;
    }
    Ok(())
}

/// A product after some sets.
fn any_product(random: &mut Random) -> Result<Lent, String> {
    let o = any_product_opening(random);
    let mut unseen = Coverage::counting("", &super::call::all(), &[]);
    let mut sides = ProbeSides::opened(product_rubbish(o, random), o, &mut unseen)?;
    let taste = any_taste(random);
    for _ in 0..random.below(6) {
        sides.step(&any_set(taste, random), &mut unseen)?;
    }
    Ok(sides.model)
}

fn with_broken(clause: &str, mut m: Lent, random: &mut Random) -> Lent {
    match clause {
        "fewer than 47 words" => m.words.truncate(random.below(PROBES_WORDS)),
        "another base" => m.words[SHINGLE_SIZE] = [1, 2, 3, 4, 6, 8, 16, 32][random.below(8)],
        "no internal shingling" => m.words[INTERNAL_SHINGLING] = 0,
        _ => {
            let above = m.words[SEQUENCE] + 1;
            let any = above.saturating_add(random.number() % 1_000);
            m.words[RECORD_WORDS + random.below(PROBES)] = [above, any, u64::MAX, 1 << 32][random.below(4)];
        }
    }
    m
}

/// Each clause of the product's own broken alone, and then every call of the product: 1.
pub fn each_clause_broken(seed: u64, each: u64, coverage: &mut Coverage) -> Result<(), String> {
    let mut random = Random::new(seed);
    for clause in CLAUSES {
        let mut met = 0;
        while met < each {
            let m = with_broken(clause, any_product(&mut random)?, &mut random);
            let alone = if clause == CLAUSES[0] {
                m.words.len() < PROBES_WORDS
            } else {
                is_well_formed(&m) && (broken_clauses(&m) == [clause] || is_well_formed_product(&m))
            };
            if !alone || (clause == CLAUSES[1] && m.words[DIMENSIONS] == 8 * m.words[SHINGLE_SIZE]) {
                continue;
            }
            met += 1;
            coverage.meet(clause);
            let mut sides = ProbeSides::over(m);
            for call in [
                any_set(any_taste(&mut random), &mut random),
                ProbeCall::Set {
                    kinds: vec![9],
                    floats: vec![],
                    label: 99,
                },
                any_tallies(&mut random),
            ] {
                let value = sides.step(&call, coverage)?.value();
                if value != 1 {
                    return Err(format!("{clause}: {call:?} gets {value}"));
                }
            }
        }
    }
    Ok(())
}
