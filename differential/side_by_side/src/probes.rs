//! The product for the eight-probe block: over the model of the store, and beside the Rust as an add of each filled set.
mod call;
mod lists;
mod model;
mod sides;

use crate::coverage::Coverage;
use crate::store::{run_parts, share, Part};

const RANDOM_CALLS: u64 = 1_500_000;
const OPENINGS: u64 = 200_000;
const BROKEN_EACH: u64 = 1_000;

fn counts(title: &'static str, owed: &[&[&'static str]]) -> Coverage {
    let all = [&call::all()[..], &model::CLAUSES].concat();
    Coverage::counting(title, &all, &owed.concat())
}

fn random_lists() -> Result<Coverage, String> {
    // 1 comes of other memory.
    let sets: Vec<&str> = call::OF_SETS
        .into_iter()
        .filter(|kind| *kind != "refusal 1 of probes_set")
        .collect();
    let owed = [
        &["lists", "accepted probes_tallies", "refusal 3 of probes_tallies"][..],
        &sets,
        &call::ON_THE_WAY,
        &["compared with the Rust", crate::store::kinds::WITHOUT_THE_RUST],
        &crate::store::REFUSED,
    ];
    let mut coverage = counts("probes, random lists of sets beside the Rust's adds", &owed);
    lists::random_lists(41, share(RANDOM_CALLS), &mut coverage)?;
    Ok(coverage)
}

fn openings() -> Result<Coverage, String> {
    let mut coverage = counts("probes, any opening", &[&call::OF_OPENING]);
    lists::openings(42, share(OPENINGS), &mut coverage)?;
    Ok(coverage)
}

fn broken() -> Result<Coverage, String> {
    let owed = [
        &model::CLAUSES[..],
        &["refusal 1 of probes_set", "refusal 1 of probes_tallies"],
    ];
    let mut coverage = counts("probes, each clause of well-formedness broken alone", &owed);
    lists::each_clause_broken(43, share(BROKEN_EACH).max(100), &mut coverage)?;
    Ok(coverage)
}

const PARTS: [Part; 3] = [openings, broken, random_lists];

/// Runs everything, printing what each part covered.
pub fn run() -> Result<(), String> {
    let parts = run_parts(&PARTS)?;
    let calls: u64 = parts.iter().map(|part| part.count("calls")).sum();
    for part in parts {
        part.close()?;
    }
    println!("probes: {calls} calls in all");
    Ok(())
}
