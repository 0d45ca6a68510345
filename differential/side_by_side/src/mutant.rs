//! Faults sown on purpose in the model, in the harness, or in the same way in the model and in what the library did, one at
//! a time, by the environment variable MUTANT. The script `differential/mutants` shows that each is noticed: those of the
//! last sort by the Rust alone.
use std::env;
use std::sync::OnceLock;

/// Sown in the interval manager's part.
pub const OF_THE_MANAGER: [&str; 16] = [
    "release-merges-at-the-other-end",
    "get-leaves-an-emptied-interval",
    "get-tells-how-many-were-free-before-it",
    "change-pushes-one-index-too-few",
    "change-refuses-1-before-13",
    "an-index-in-two-intervals-is-allowed",
    "a-start-above-its-end-is-allowed",
    "release-of-a-free-index-is-taken",
    "harness-writes-the-answer-of-a-refused-call",
    "harness-writes-the-figure-of-a-refused-get",
    "harness-releases-the-next-index",
    "harness-never-grows",
    "both-give-the-next-index",
    "both-tell-one-free-index-more-of-a-get",
    "both-clear-a-popped-entry",
    "both-write-an-entry-never-in-use",
];

/// Sown in the store's part.
pub const OF_THE_STORE: [&str; 58] = [
    "compaction-leaves-old-places",
    "no-zeros-before-a-block",
    "add-never-grows-the-floats",
    "add-never-grows-the-table",
    "growth-keeps-the-lent-floats",
    "growth-by-a-fifth-alone",
    "floats-grow-by-one-float",
    "figure-without-the-new-point",
    "figure-of-the-capacity",
    "figure-of-the-table-before-growth",
    "figure-of-the-label-indices",
    "joined-by-float-equality",
    "code-24-is-taken",
    "copy-never-turns",
    "equality-by-float-equality",
    "turned-rows-in-a-sum",
    "look-ahead-is-dropped",
    "one-hot-at-the-class",
    "dec-keeps-the-place",
    "dec-keeps-the-slot",
    "dec-ignores-the-label-index",
    "inc-past-65535",
    "adjust-keeps-the-inc-of-a-refused-pair",
    "adjust-leaves-skipped-pairs-out",
    "an-index-in-two-free-intervals",
    "two-points-at-one-place",
    "a-row-past-the-free-start",
    "a-slot-of-another-class",
    "a-gap-in-the-classes",
    "a-leading-zero",
    "classes-of-the-built-in-table",
    "opening-refuses-17-before-1",
    "two-slots-of-one-class",
    "a-slot-count-that-is-no-sum",
    "page-in-seven-columns",
    "page-with-leading-zeros",
    "page-lists-a-dead-index",
    "page-in-falling-order",
    "page-in-order-of-place",
    "page-refuses-18-before-1",
    "harness-writes-past-the-page",
    "harness-writes-to-a-text-too-short",
    "harness-swaps-index-and-label",
    "harness-writes-the-answer-of-a-refused-store-call",
    "harness-writes-the-figure-of-a-refused-add",
    "harness-writes-the-figure-of-a-waiting-add",
    "harness-never-compacts",
    "harness-never-rotates",
    "harness-knows-no-special-floats",
    "harness-compares-slots-for-ever",
    "harness-compares-nans-with-the-rust",
    "harness-leaves-the-rust-out",
    "both-give-the-wrong-place",
    "both-tell-one-free-index-more",
    "both-write-a-float-past-the-free-start",
    "both-clear-floats-after-compaction",
    "both-clear-the-code-of-a-dead-label",
    "both-lose-a-copied-denormal",
];

/// Sown in the hold's part.
pub const OF_THE_HOLD: [&str; 15] = [
    "hold-gives-up-before-the-add",
    "hold-gives-up-the-newest",
    "hold-gives-up-on-waiting",
    "hold-figure-after-giving-up",
    "hold-takes-the-width-of-the-capacity",
    "hold-takes-a-count-of-2",
    "hold-takes-a-point-twice",
    "hold-takes-a-label-twice",
    "hold-refuses-1-before-15",
    "harness-never-gives-up",
    "harness-writes-the-figure-of-a-refused-hold-add",
    "harness-leaves-the-rust-out-of-the-hold",
    "both-hold-in-another-order",
    "both-tell-the-figure-after-giving-up",
    "both-clear-the-floats-of-a-point-given-up",
];

/// Sown in the product's part.
pub const OF_THE_PROBES: [&str; 13] = [
    "probes-repeat-the-first-float",
    "probes-a-refused-set-tallies",
    "probes-a-waiting-set-is-not-tallied",
    "probes-refuse-16-after-4",
    "probes-refuse-11-before-3",
    "probes-take-a-tally-above-the-sequence",
    "probes-take-another-base",
    "probes-figure-without-the-new-window",
    "harness-knows-no-absent-reading",
    "harness-writes-the-figure-of-a-waiting-set",
    "harness-leaves-the-rust-out-of-the-probes",
    "both-tally-absent-readings",
    "both-repeat-a-zero",
];

fn sown() -> Option<&'static str> {
    static SOWN: OnceLock<Option<&'static str>> = OnceLock::new();
    *SOWN.get_or_init(|| {
        let name = env::var("MUTANT").ok()?;
        let known = OF_THE_MANAGER
            .iter()
            .chain(&OF_THE_STORE)
            .chain(&OF_THE_HOLD)
            .chain(&OF_THE_PROBES)
            .find(|m| **m == name);
        Some(*known.unwrap_or_else(|| panic!("no mutant {name}")))
    })
}

pub fn is(name: &'static str) -> bool {
    sown() == Some(name)
}

/// Whether nothing is sown outside these.
pub fn is_none_but(mutants: &[&str]) -> bool {
    sown().is_none_or(|name| mutants.contains(&name))
}

pub fn announce() {
    if let Some(name) = sown() {
        println!("mutant: {name}");
    }
}
