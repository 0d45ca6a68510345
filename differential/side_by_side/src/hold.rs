//! The hold: over the model of the store, and beside the Rust as an add followed by a dec.
mod beyond;
mod breaking;
mod call;
mod kinds;
mod library_side;
mod lists;
mod made_up;
mod memory;
mod mixed;
mod model;
mod short_lists;
mod sides;
mod well_formed;

use crate::coverage::Coverage;
use crate::store::kinds::OF_THE_RUST;
use crate::store::well_formed::CLAUSES as OF_STORE;
use crate::store::{run_parts, share, Part};

/// Of each of the two parts.
const RANDOM_CALLS: u64 = 1_500_000;
const MADE_UP_CALLS: u64 = 1_000_000;
const SPOILED_CALLS: u64 = 1_000_000;
const OPENINGS: u64 = 300_000;
const BROKEN_EACH: u64 = 1_000;

fn counts(title: &'static str, owed: &[&[&'static str]]) -> Coverage {
    Coverage::counting(title, &kinds::all(), &owed.concat())
}

fn random_lists(seed: u64) -> Result<Coverage, String> {
    // 1 comes of other memory, and so does 8: from a fresh hold no label is live that is not held.
    let adds: Vec<&str> = kinds::OF_ADDS
        .into_iter()
        .filter(|kind| !["refusal 1 of hold_add", "refusal 8 of hold_add"].contains(kind))
        .collect();
    let on_the_way: Vec<&str> = kinds::ON_THE_WAY
        .into_iter()
        .filter(|kind| *kind != "a Waiting add while points are held")
        .collect();
    let readings = ["accepted hold_held", "refusal 3 of hold_held", "accepted hold_number"];
    let owed = [
        &lists::SHAPES[..],
        &adds,
        &on_the_way,
        // An is_equal inside of a NaN, while the Rust is beside, is rare.
        &OF_THE_RUST[..3],
        &readings,
        &crate::store::REFUSED,
    ];
    let mut coverage = counts("hold, random lists of adds beside the Rust's add and dec", &owed);
    lists::corner_lists(seed + 100, &mut coverage)?;
    lists::random_lists(seed, share(RANDOM_CALLS), &mut coverage)?;
    Ok(coverage)
}

fn made_up() -> Result<Coverage, String> {
    let adds: Vec<&str> = kinds::OF_ADDS
        .into_iter()
        .filter(|kind| *kind != "refusal 1 of hold_add")
        .collect();
    let owed = [
        &["holds made up", "a Waiting add while points are held", model::GAVE_UP][..],
        &adds,
    ];
    let mut coverage = counts("hold, holds that no list reaches", &owed);
    beyond::made_up_holds(33, share(MADE_UP_CALLS), &mut coverage)?;
    Ok(coverage)
}

fn broken() -> Result<Coverage, String> {
    let owed = [
        &well_formed::CLAUSES[..],
        // Too few words are a clause of the hold's own.
        &OF_STORE[1..],
        &[
            "refusal 1 of hold_add",
            "refusal 1 of hold_held",
            "refusal 1 of hold_number",
        ],
    ];
    let mut coverage = counts("hold, each clause of well-formedness broken alone", &owed);
    beyond::each_clause_broken(34, share(BROKEN_EACH).max(100), &mut coverage)?;
    Ok(coverage)
}

fn openings() -> Result<Coverage, String> {
    let mut coverage = counts("hold, any opening", &[&kinds::OF_OPENING]);
    beyond::openings(35, share(OPENINGS), &mut coverage)?;
    Ok(coverage)
}

fn spoiled() -> Result<Coverage, String> {
    let owed = [
        &["a store call that leaves a hold", "a store call that leaves none"][..],
        &kinds::OF_READINGS,
        &["accepted hold_add", "refusal 1 of hold_add"],
    ];
    let mut coverage = counts("hold, lists and words spoiled, calls of the store inside", &owed);
    beyond::spoiled(36, share(SPOILED_CALLS), &mut coverage)?;
    Ok(coverage)
}

fn mixed() -> Result<Coverage, String> {
    let mut coverage = counts("hold, mixed use", &[&mixed::KINDS]);
    mixed::each(&mut coverage)?;
    Ok(coverage)
}

fn short_lists() -> Result<Coverage, String> {
    let owed = [
        "lists",
        "accepted hold_add",
        "refusal 3 of hold_add",
        "refusal 10 of hold_add",
        model::GAVE_UP,
        "compared with the Rust",
        "copies compared with those right after their adds",
    ];
    let mut coverage = counts(
        "hold, every short list of adds over small shapes, beside the Rust",
        &[&owed],
    );
    short_lists::every_short_list(if share(100) < 50 { 4 } else { 7 }, &mut coverage)?;
    Ok(coverage)
}

/// The random lists come last, in two parts under one title.
const PARTS: [Part; 8] = [
    mixed,
    openings,
    broken,
    made_up,
    spoiled,
    short_lists,
    || random_lists(31),
    || random_lists(32),
];

/// Runs everything, printing what each part covered.
pub fn run() -> Result<(), String> {
    let mut parts = run_parts(&PARTS)?;
    let more = parts.pop().expect("the second part of the random lists");
    parts.last_mut().expect("the first one").merge(more);
    let calls: u64 = parts.iter().map(|part| part.count("calls")).sum();
    for part in parts {
        part.close()?;
    }
    println!("hold: {calls} calls in all");
    Ok(())
}
