//! The store.
mod beyond;
pub mod breaking;
pub mod call;
pub mod classes;
mod differs;
pub mod guess;
pub mod kinds;
pub mod lent;
pub mod library_side;
mod limits;
mod lists;
pub mod made_up;
pub mod memory;
pub mod model;
mod model_readings;
pub mod model_rows;
mod name;
mod page;
mod recorded;
mod refused_pairs;
pub mod rust_side;
mod short_lists;
pub mod sides;
mod small_starts;
pub mod well_formed;

use crate::coverage::Coverage;
use std::sync::atomic::{AtomicUsize, Ordering};
use std::sync::Mutex;
use std::thread;

/// What the Rust does with a call that is refused here.
pub const REFUSED: [&str; 3] = [
    "refused here, an error in the Rust",
    "refused here, a panic in the Rust",
    "refused here, taken by the Rust",
];

/// A part's counts: of all calls, answers and events, and of the named kinds, which have to be met.
fn counts(title: &'static str, owed: &[&[&'static str]]) -> Coverage {
    let all = [
        &["calls"][..],
        &kinds::OF_THE_RUST,
        &kinds::accepted(),
        &kinds::ON_THE_WAY,
        &kinds::refusals(|_, _| false),
        &REFUSED,
    ];
    Coverage::counting(title, &all.concat(), &owed.concat())
}

/// How many of a hundred calls are made of those that a full run makes: `SHARE`, 100 where it is not set.
pub fn share(calls: u64) -> u64 {
    let percent = std::env::var("SHARE").map_or(100, |s| s.parse().expect("SHARE is a number"));
    calls * percent / 100
}

/// Of each of the four parts.
const RANDOM_CALLS: u64 = 5_000_000;
const MADE_UP_CALLS: u64 = 3_000_000;
const RUBBISH_CALLS: u64 = 2_000_000;
const BROKEN_EACH: u64 = 1_000;
const REFUSED_PAIRS_STORES: u64 = 10_000;
const SMALL_STARTS_EACH: u64 = 20;
const RULES_EACH: u64 = 1_000;
const PAGED_STORES: u64 = 10_000;

fn random_lists(seed: u64) -> Result<Coverage, String> {
    // 1, 2 and 17 need other memory, shapes and texts, 7 needs 65,534 incs.
    let refusals = kinds::refusals(|_, number| [1, 2, 7, 17].contains(&number));
    let owed = [
        &lists::SHAPES[..],
        &kinds::accepted(),
        &kinds::ON_THE_WAY,
        &kinds::OF_THE_RUST,
        &refusals,
        &REFUSED,
    ];
    let mut coverage = counts("store, random lists beside the Rust", &owed);
    lists::corner_lists(seed, &mut coverage)?;
    lists::random_lists(seed, share(RANDOM_CALLS), &mut coverage)?;
    Ok(coverage)
}

fn short_lists() -> Result<Coverage, String> {
    let by_the_model = [
        kinds::WITHOUT_THE_RUST,
        "Joined over a NaN",
        "no join because of a zero's sign",
    ];
    let owed = [
        &["lists", "compared with the Rust"][..],
        &by_the_model,
        &kinds::accepted(),
        &REFUSED,
    ];
    let mut coverage = counts("store, every short list over small shapes, beside the Rust", &owed);
    short_lists::every_short_list(if share(100) < 50 { 4 } else { 6 }, &mut coverage)?;
    Ok(coverage)
}

fn limits() -> Result<Coverage, String> {
    let owed = [
        "a count at 65,535",
        "a slot's count at 131,070",
        "refusal 7 of inc",
        "refusal 7 of adjust",
    ];
    let mut coverage = counts("store, counts to their limit and back, beside the Rust", &[&owed]);
    limits::counts_to_the_limit(0, &mut coverage)?;
    limits::counts_to_the_limit(1, &mut coverage)?;
    Ok(coverage)
}

fn small_starts() -> Result<Coverage, String> {
    let owed = [&small_starts::KINDS.concat()[..], &["refusal 9 of add"]];
    let mut coverage = counts("store, starts of 1 to 4 that grow to their capacity", &owed);
    small_starts::grown_to_capacity(15, share(SMALL_STARTS_EACH).max(1), &mut coverage)?;
    Ok(coverage)
}

fn recorded() -> Result<Coverage, String> {
    let mut coverage = counts("store, the recorded calls of the Rust", &[&["recorded calls"]]);
    recorded::replayed(&mut coverage)?;
    Ok(coverage)
}

fn name() -> Result<Coverage, String> {
    let mut coverage = Coverage::new("the library's name", &name::KINDS);
    name::of_every_length(&mut coverage)?;
    Ok(coverage)
}

fn class_texts() -> Result<Coverage, String> {
    let owed = [
        &classes::RULES[..],
        &["a byte changed, taken", "a byte changed, refused"],
    ];
    let mut coverage = counts(
        "store, texts of classes: each rule broken alone, each byte changed",
        &owed,
    );
    classes::each_rule_broken(17, share(RULES_EACH).max(100), &mut coverage)?;
    classes::each_byte_changed(18, &mut coverage)?;
    Ok(coverage)
}

fn pages() -> Result<Coverage, String> {
    let mut coverage = Coverage::new("store, pages in texts of every length", &page::KINDS);
    page::in_every_length(16, share(PAGED_STORES).max(1), &mut coverage)?;
    Ok(coverage)
}

fn differences() -> Result<Coverage, String> {
    let mut coverage = Coverage::new(
        "store, each difference from the Rust at its smallest input",
        &differs::KINDS,
    );
    differs::each(&mut coverage)?;
    Ok(coverage)
}

fn made_up() -> Result<Coverage, String> {
    let refusals = kinds::refusals(|_, number| [1, 2, 17].contains(&number));
    let owed = [
        &["stores made up"][..],
        &kinds::accepted()[1..],
        &kinds::ON_THE_WAY,
        &refusals,
    ];
    let mut coverage = counts("store, stores that no list reaches", &owed);
    beyond::made_up_stores(11, share(MADE_UP_CALLS), &mut coverage)?;
    Ok(coverage)
}

fn broken() -> Result<Coverage, String> {
    let refusals = kinds::refusals(|call, number| call == 0 || number != 1);
    let mut coverage = counts(
        "store, each clause of well-formedness broken alone",
        &[&well_formed::CLAUSES, &refusals],
    );
    beyond::each_clause_broken(12, share(BROKEN_EACH).max(100) as usize, &mut coverage)?;
    Ok(coverage)
}

fn refused_pairs() -> Result<Coverage, String> {
    let owed = [&refused_pairs::PLACES[..], &refused_pairs::CAUSES];
    let mut coverage = counts("store, adjusts with a refused pair in every place", &owed);
    refused_pairs::in_every_place(14, share(REFUSED_PAIRS_STORES), &mut coverage)?;
    Ok(coverage)
}

fn rubbish() -> Result<Coverage, String> {
    let refusals = kinds::refusals(|_, number| number > 2 && number != 17);
    let owed = [
        &["spoiled and still well-formed", "nothing but rubbish"][..],
        &kinds::accepted(),
        &refusals,
    ];
    let mut coverage = counts("store, rubbish in the memory, any opening", &owed);
    beyond::rubbish(13, share(RUBBISH_CALLS), &mut coverage)?;
    Ok(coverage)
}

pub type Part = fn() -> Result<Coverage, String>;

/// The random lists come last, in four parts under one title.
const PARTS: [Part; 16] = [
    name,
    class_texts,
    pages,
    differences,
    recorded,
    broken,
    refused_pairs,
    rubbish,
    limits,
    small_starts,
    made_up,
    short_lists,
    || random_lists(1),
    || random_lists(2),
    || random_lists(3),
    || random_lists(4),
];

/// Runs the parts on two threads; what each covered, in their order. After an error no other part is begun.
pub fn run_parts(parts: &[Part]) -> Result<Vec<Coverage>, String> {
    let next = AtomicUsize::new(0);
    let done: Mutex<Vec<(usize, Coverage)>> = Mutex::new(Vec::new());
    let work = || -> Result<(), String> {
        loop {
            let k = next.fetch_add(1, Ordering::SeqCst);
            let Some(part) = parts.get(k) else {
                return Ok(());
            };
            let coverage = part().inspect_err(|_| next.store(parts.len(), Ordering::SeqCst))?;
            done.lock().expect("no other thread panics with it").push((k, coverage));
        }
    };
    thread::scope(|scope| {
        let threads = [scope.spawn(work), scope.spawn(work)];
        let ended = threads.map(|t| t.join().unwrap_or(Err("the harness panicked".to_string())));
        ended.into_iter().collect::<Result<(), String>>()
    })?;
    let mut done = done.into_inner().expect("no thread panicked with it");
    done.sort_by_key(|(k, _)| *k);
    Ok(done.into_iter().map(|(_, coverage)| coverage).collect())
}

/// Runs everything, printing what each part covered.
pub fn run() -> Result<(), String> {
    let mut parts = run_parts(&PARTS)?;
    let rest = parts.split_off(PARTS.len() - 3);
    let random = parts.last_mut().expect("the first part of the random lists");
    rest.into_iter().for_each(|more| random.merge(more));
    let calls: u64 = parts.iter().map(|part| part.count("calls")).sum();
    for part in parts {
        part.close()?;
    }
    println!("store: {calls} calls in all");
    Ok(())
}
