//! A product over the model of the store, written plainly from docs/STORE.md. It shares nothing with the library.
use super::call::{ProbeCall, ProbeReturned};
use crate::mutant;
use crate::store::call::{Call, FIGURE};
use crate::store::memory::*;
use crate::store::model::{self, Met};
use crate::store::well_formed::{is_well_formed, outside_the_bounds};
use library::store::{Lent, Opening};

pub const PROBES: usize = 8;
pub const PROBES_WORDS: usize = RECORD_WORDS + PROBES;
pub const ESTIMATED: u8 = 1;
pub const ABSENT: u8 = 2;

/// The clauses of a product's well-formedness besides its store's.
pub const CLAUSES: [&str; 4] = [
    "fewer than 47 words",
    "another base",
    "no internal shingling",
    "a tally above the sequence",
];

/// Of a well-formed store.
pub fn broken_clauses(m: &Lent) -> Vec<&'static str> {
    let mut found = Vec::new();
    if m.words.len() < PROBES_WORDS {
        return vec![CLAUSES[0]];
    }
    if shape(m).base != PROBES && !mutant::is("probes-take-another-base") {
        found.push(CLAUSES[1]);
    }
    if m.words[INTERNAL_SHINGLING] != 1 {
        found.push(CLAUSES[2]);
    }
    let most = m.words[SEQUENCE] + u64::from(mutant::is("probes-take-a-tally-above-the-sequence"));
    if m.words[RECORD_WORDS..PROBES_WORDS].iter().any(|tally| *tally > most) {
        found.push(CLAUSES[3]);
    }
    found
}

pub fn is_well_formed_product(m: &Lent) -> bool {
    is_well_formed(m) && broken_clauses(m).is_empty()
}

pub fn made(call: &ProbeCall, m: &mut Lent, met: &mut Met) -> ProbeReturned {
    let mut r = ProbeReturned::lent(call);
    match call {
        ProbeCall::Open(opening) => r.of_store.value = open(m, *opening, met),
        ProbeCall::Inside(call) => r.of_store = model::made(call, m, met),
        _ if !is_well_formed_product(m) => r.of_store.value = 1,
        ProbeCall::Set { kinds, floats, label } => set(m, kinds, floats, *label, &mut r, met),
        ProbeCall::Tallies { out } if *out != PROBES => r.of_store.value = 3,
        ProbeCall::Tallies { .. } => {
            for (out, tally) in r.tallies.iter_mut().zip(&m.words[RECORD_WORDS..]) {
                *out = *tally as u32;
            }
        }
    }
    r
}

/// 2, 1, 17.
fn open(m: &mut Lent, o: Opening, met: &mut Met) -> u64 {
    let flags = [o.internal_shingling, o.internal_rotation, o.store_labels];
    let outside = outside_the_bounds(o.dimensions as u64, o.shingle_size as u64, o.capacity as u64);
    let shape_is_wrong = !outside.is_empty()
        || o.initial_capacity == 0
        || o.initial_capacity > o.capacity
        || flags.iter().any(|flag| *flag > 1);
    if shape_is_wrong || o.dimensions / o.shingle_size != PROBES || o.internal_shingling != 1 {
        return 2;
    }
    if m.words.len() < PROBES_WORDS {
        return 1;
    }
    let value = model::made(&Call::Open(o), m, met).value;
    if value == 0 {
        m.words[RECORD_WORDS..PROBES_WORDS].fill(0);
    }
    value
}

/// The window's last eight.
fn last_floats(m: &Lent) -> Vec<u32> {
    let dimensions = word(m, DIMENSIONS);
    let from = if mutant::is("probes-repeat-the-first-float") {
        0
    } else {
        dimensions - PROBES
    };
    m.last_known_shingle[from..from + PROBES].to_vec()
}

pub fn filled(kinds: &[u8], floats: &[u32], last: &[u32]) -> Vec<u32> {
    (0..PROBES)
        .map(|k| if kinds[k] == ABSENT { last[k] } else { floats[k] })
        .collect()
}

/// 3, 11, 16, and then the store's 12, 4, 8, 9, 10.
fn set(m: &mut Lent, kinds: &[u8], floats: &[u32], label: usize, r: &mut ProbeReturned, met: &mut Met) {
    let unknown = kinds.iter().any(|kind| *kind > ABSENT);
    if unknown && mutant::is("probes-refuse-11-before-3") {
        r.of_store.value = 11;
        return;
    }
    if kinds.len() != PROBES || floats.len() != PROBES {
        r.of_store.value = 3;
        return;
    }
    if unknown {
        r.of_store.value = 11;
        return;
    }
    let code_is_wrong = m.words[STORE_LABELS] == 1 && label > 23;
    let late = mutant::is("probes-refuse-16-after-4") && code_is_wrong;
    if kinds.contains(&ABSENT) && m.words[SEQUENCE] == 0 && !late {
        r.of_store.value = 16;
        return;
    }
    let point = filled(kinds, floats, &last_floats(m));
    r.of_store = model::made(&Call::Add { point, label }, m, met);
    if r.kept().is_some() && mutant::is("probes-figure-without-the-new-window") {
        r.of_store.numbers[FIGURE] += 1;
    }
    let waiting = r.value() == 0 && r.kept().is_none();
    let tallied = r.value() == 0 || (r.value() == 9 && mutant::is("probes-a-refused-set-tallies"));
    if tallied && !(waiting && mutant::is("probes-a-waiting-set-is-not-tallied")) {
        for (tally, kind) in m.words[RECORD_WORDS..].iter_mut().zip(kinds) {
            *tally += u64::from(*kind == ESTIMATED);
        }
    }
}
