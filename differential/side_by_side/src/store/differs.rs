//! Where the Rust does otherwise than document 01: the smallest input of each row of docs/DIFFERENCES.md, what the library
//! answers, and what the Rust makes of it.
use super::call::Call;
use super::lent::rubbish_for;
use super::memory::*;
use super::rust_side::Outcome;
use super::{library_side, rust_side};
use crate::coverage::Coverage;
use library::store::{Lent, Opening};
use random::Random;
use reference::pointstore::PointStore;
use reference::Store;
use std::panic::{catch_unwind, AssertUnwindSafe};

#[derive(Clone, Copy, Debug, PartialEq)]
enum Rust {
    Takes,
    Error,
    Panics,
}

struct Difference {
    name: &'static str,
    opening: Opening,
    /// Calls that both take.
    calls: Vec<Call>,
    last: Call,
    /// What the library answers to the last call; 0 where it takes it.
    refusal: u64,
    rust: Rust,
    /// What is seen in the Rust after it, and not here.
    seen: fn(&mut Store) -> bool,
}

/// Dimensions, shingle size, capacity, starting capacity; flags by their letters.
fn shape_of(shape: [usize; 4], flags: &str) -> Opening {
    Opening {
        dimensions: shape[0],
        shingle_size: shape[1],
        capacity: shape[2],
        initial_capacity: shape[3],
        internal_shingling: flags.contains('s') as usize,
        internal_rotation: flags.contains('r') as usize,
        store_labels: flags.contains('l') as usize,
        ..Opening::default()
    }
}

fn floats(values: &[u8]) -> Vec<u32> {
    values.iter().map(|v| (*v as f32).to_bits()).collect()
}

fn add(values: &[u8], label: usize) -> Call {
    Call::Add {
        point: floats(values),
        label,
    }
}

fn is_equal(values: &[u8]) -> Call {
    Call::IsEqual {
        index: 0,
        point: floats(values),
    }
}

fn any(_: &mut Store) -> bool {
    true
}

fn copy_panics(rust: &mut Store) -> bool {
    catch_unwind(AssertUnwindSafe(|| rust.copy(0).is_ok())).is_err()
}

fn refused_here_taken_there() -> Vec<Difference> {
    let plain = shape_of([1, 1, 1, 1], "");
    let labels = shape_of([1, 1, 1, 1], "l");
    let two_labels = shape_of([1, 1, 2, 2], "l");
    let rotating = shape_of([2, 1, 1, 1], "r");
    let row = |name, opening, calls, last, refusal, seen| Difference {
        name,
        opening,
        calls,
        last,
        refusal,
        rust: Rust::Takes,
        seen,
    };
    let mut at_65_535 = vec![add(&[1], 0)];
    at_65_535.resize(65_535, Call::Inc(0, NONE));
    vec![
        row(
            "inc of a dead index",
            plain,
            vec![add(&[1], 0), Call::Dec(0, NONE)],
            Call::Inc(0, 0),
            5,
            copy_panics,
        ),
        row(
            "inc of a dead label",
            two_labels,
            vec![add(&[1], 0), add(&[1], 0), Call::Dec(0, 0)],
            Call::Inc(1, 0),
            6,
            |rust| rust.label_count(0) == 1 && !rust.label_manager().is_empty(),
        ),
        row(
            "attribute of a dead label",
            labels,
            vec![add(&[1], 0), Call::Dec(0, 0)],
            Call::Attribute(0),
            6,
            any,
        ),
        row(
            "attribute_vec of a dead label",
            labels,
            vec![add(&[1], 0), Call::Dec(0, 0)],
            Call::AttributeVec { label: 0, out: 10 },
            6,
            any,
        ),
        row("inc at 65,535", plain, at_65_535, Call::Inc(0, NONE), 7, |rust| {
            rust.point_count(0) == 65_536
        }),
        row(
            "a Waiting add of code 24",
            shape_of([2, 2, 1, 1], "sl"),
            vec![],
            add(&[1], 24),
            4,
            any,
        ),
        row(
            "look-ahead 65,536",
            plain,
            vec![],
            Call::NextIndices {
                look_ahead: 65_536,
                out: 1,
            },
            11,
            any,
        ),
        row(
            "weight 16,777,217",
            plain,
            vec![add(&[1], 0)],
            Call::PointSum {
                items: vec![[0, 16_777_217]],
                out: 1,
            },
            11,
            |rust| rust.point_sum(&[(0, 16_777_217)]).unwrap() == [16_777_216.0],
        ),
        row(
            "is_equal of a wrong length",
            plain,
            vec![add(&[1], 0)],
            is_equal(&[1, 2]),
            3,
            |rust| rust.is_equal(&[1.0, 2.0], 0) == Ok(false),
        ),
        row(
            "is_equal, rotating, of a longer point",
            rotating,
            vec![add(&[1, 2], 0)],
            is_equal(&[1, 2, 3]),
            3,
            |rust| rust.is_equal(&[1.0, 2.0, 3.0], 0) == Ok(true) && rust.is_equal(&[2.0], 0) == Ok(false),
        ),
        row(
            "opening at dimensions 65",
            plain,
            vec![],
            Call::Open(shape_of([65, 1, 1, 1], "")),
            2,
            |rust| rust.floats().len() == 65,
        ),
        row(
            "opening at a start above the capacity",
            plain,
            vec![],
            Call::Open(shape_of([1, 1, 1, 2], "")),
            2,
            |rust| rust.table_length() == 2,
        ),
    ]
}

fn errors_and_panics() -> Vec<Difference> {
    let plain = shape_of([1, 1, 1, 1], "");
    let labels = shape_of([1, 1, 1, 1], "l");
    let rotating = shape_of([2, 1, 1, 1], "r");
    let row = |name, opening, calls, last, refusal, rust, seen| Difference {
        name,
        opening,
        calls,
        last,
        refusal,
        rust,
        seen,
    };
    vec![
        row(
            "is_equal, rotating, of a shorter point",
            rotating,
            vec![add(&[1, 2], 0)],
            is_equal(&[1]),
            3,
            Rust::Panics,
            any,
        ),
        row(
            "no float space",
            shape_of([2, 2, 2, 2], "r"),
            vec![add(&[1, 2], 0), add(&[2, 3], 0), Call::Dec(0, NONE)],
            add(&[9, 9], 0),
            10,
            Rust::Panics,
            any,
        ),
        row(
            "inc with a label that was never given",
            labels,
            vec![add(&[1], 0)],
            Call::Inc(0, 1),
            6,
            Rust::Panics,
            |rust| rust.point_count(0) == 2,
        ),
        row(
            "dec with a label that was never given",
            labels,
            vec![add(&[1], 0)],
            Call::Dec(0, 1),
            6,
            Rust::Panics,
            |rust| rust.point_count(0) == 0,
        ),
        row(
            "dec with a label, labels off",
            plain,
            vec![add(&[1], 0)],
            Call::Dec(0, 0),
            6,
            Rust::Error,
            |rust| rust.point_count(0) == 0,
        ),
        row(
            "an add of a wrong length",
            plain,
            vec![],
            add(&[], 0),
            3,
            Rust::Error,
            |rust| rust.sequence() == 1,
        ),
        row(
            "an adjust whose dec is refused",
            plain,
            vec![add(&[1], 0)],
            Call::Adjust(vec![[0, NONE, 1, NONE]]),
            5,
            Rust::Error,
            |rust| rust.point_count(0) == 2,
        ),
        row(
            "no label index free",
            labels,
            vec![add(&[1], 0)],
            add(&[1], 0),
            8,
            Rust::Error,
            |rust| rust.slot_count(0) == 2 && rust.sequence() == 2,
        ),
        row(
            "no point index free, labels on",
            shape_of([1, 1, 2, 2], "l"),
            vec![add(&[1], 0), add(&[1], 0), Call::Inc(0, 0), Call::Dec(0, 1)],
            add(&[1], 0),
            9,
            Rust::Error,
            |rust| rust.label_count(1) == 1 && rust.slot_count(0) == 3 && rust.sequence() == 3,
        ),
        row(
            "no point index free, after a compaction",
            shape_of([2, 2, 3, 3], ""),
            vec![
                add(&[1, 2], 0),
                add(&[2, 3], 0),
                add(&[3, 4], 0),
                Call::Dec(0, NONE),
                add(&[4, 5], 0),
            ],
            add(&[5, 6], 0),
            9,
            Rust::Error,
            |rust| *rust.places() == [2, 0, 1] && rust.free_start() == 4,
        ),
    ]
}

/// Starts below 5 grow here.
fn small_starts() -> [Difference; 2] {
    let row = |name, opening, calls, last, rust| Difference {
        name,
        opening,
        calls,
        last,
        refusal: 0,
        rust,
        seen: any,
    };
    [
        row(
            "an index more at a start below 5",
            shape_of([1, 1, 2, 1], ""),
            vec![add(&[1], 0)],
            add(&[1], 0),
            Rust::Error,
        ),
        row(
            "floats more at a start below 5",
            shape_of([2, 2, 3, 2], "r"),
            vec![add(&[1, 2], 0), add(&[2, 3], 0), Call::Dec(0, NONE)],
            add(&[9, 9], 0),
            Rust::Panics,
        ),
    ]
}

fn opened(opening: Opening) -> (Lent, Store) {
    // Memory for the larger openings that are tried over it, too.
    let mut memory = rubbish_for(shape_of([64, 1, 4, 4], "l"), 0, &mut Random::new(8));
    library_side::made(&Call::Open(opening), &mut memory);
    (memory, rust_side::opened(opening))
}

fn try_one(d: &Difference) -> Result<(), String> {
    let (mut memory, mut rust) = opened(d.opening);
    for call in &d.calls {
        let value = library_side::made(call, &mut memory).value;
        let outcome = rust_side::made(call, shape(&memory), &mut rust);
        if value != 0 || !matches!(outcome, Outcome::Answered(_)) {
            return Err(format!("{}: {call:?} gives {value}", d.name));
        }
    }
    let before = memory.clone();
    let value = library_side::made(&d.last, &mut memory).value;
    let outcome = match rust_side::made(&d.last, shape(&before), &mut rust) {
        Outcome::Answered(_) => Rust::Takes,
        Outcome::Error => Rust::Error,
        Outcome::Panic => Rust::Panics,
    };
    let kept = value == 0 || value == 10 || memory == before;
    if value != d.refusal || !kept || outcome != d.rust || !(d.seen)(&mut rust) {
        return Err(format!("{}: {value} here; the Rust {outcome:?}: {rust:?}", d.name));
    }
    Ok(())
}

/// The sequence at its limit: so many points are not added, it is set.
fn sequence_at_its_limit() -> Result<(), String> {
    let (mut memory, mut rust) = opened(shape_of([1, 1, 1, 1], ""));
    memory.words[SEQUENCE] = LARGEST_SEQUENCE;
    rust.at_sequence(LARGEST_SEQUENCE as usize);
    let value = library_side::made(&add(&[1], 0), &mut memory).value;
    let outcome = rust_side::made(&add(&[1], 0), shape(&memory), &mut rust);
    if value != 12 || !matches!(outcome, Outcome::Answered(_)) {
        return Err(format!("the sequence at its limit: {value}"));
    }
    Ok(())
}

/// Calls that both take, the last answered otherwise: with so many numbers here and in the Rust.
struct Otherwise {
    name: &'static str,
    opening: Opening,
    calls: Vec<Call>,
    here: Vec<u64>,
    rust: Vec<u64>,
}

const MINUS_ZERO: u32 = 0x8000_0000;
const A_NAN: u32 = 0x7fc0_0000;
const ONE: u32 = 0x3f80_0000;

fn answered_otherwise() -> Vec<Otherwise> {
    let add_words = |words: &[u32]| Call::Add {
        point: words.to_vec(),
        label: 0,
    };
    let equal_words = |word: u32| Call::IsEqual {
        index: 0,
        point: vec![word],
    };
    let no_label = NONE as u64;
    let row = |name, shape, flags, calls, here: &[u64], rust: &[u64]| Otherwise {
        name,
        opening: shape_of(shape, flags),
        calls,
        here: here.to_vec(),
        rust: rust.to_vec(),
    };
    vec![
        // The Rust keeps a class's old slot after release.
        row(
            "a class's old slot",
            [1, 1, 2, 2],
            "l",
            vec![
                add(&[1], 0),
                Call::Dec(0, 0),
                add(&[1], 3),
                add(&[1], 0),
                Call::Attribute(0),
            ],
            &[1],
            &[0],
        ),
        // The Rust compares floats, and the store their bits: kept, index, label index, joined, place, free.
        row(
            "-0.0 after 0.0",
            [2, 2, 2, 2],
            "",
            vec![add_words(&[ONE, 0]), add_words(&[MINUS_ZERO, ONE])],
            &[1, 1, no_label, 0, 2, 0],
            &[1, 1, no_label, 1, 1, 0],
        ),
        row(
            "a NaN after the same NaN",
            [2, 2, 2, 2],
            "",
            vec![add_words(&[ONE, A_NAN]), add_words(&[A_NAN, ONE])],
            &[1, 1, no_label, 1, 1, 0],
            &[1, 1, no_label, 0, 2, 0],
        ),
        row(
            "-0.0 compared with 0.0",
            [1, 1, 1, 1],
            "",
            vec![add_words(&[0]), equal_words(MINUS_ZERO)],
            &[0],
            &[1],
        ),
        row(
            "a NaN compared with the same NaN",
            [1, 1, 1, 1],
            "",
            vec![add_words(&[A_NAN]), equal_words(A_NAN)],
            &[1],
            &[0],
        ),
    ]
}

fn try_answers(d: &Otherwise) -> Result<(), String> {
    let (mut memory, mut rust) = opened(d.opening);
    let mut last = (vec![], vec![]);
    for call in &d.calls {
        let ours = library_side::made(call, &mut memory);
        let Outcome::Answered(theirs) = rust_side::made(call, shape(&memory), &mut rust) else {
            return Err(format!("{}: the Rust refuses {call:?}", d.name));
        };
        let n = d.here.len();
        last = (ours.numbers[..n].to_vec(), theirs.numbers[..n].to_vec());
    }
    if (&last.0, &last.1) != (&d.here, &d.rust) {
        return Err(format!("{}: {last:?} here and in the Rust", d.name));
    }
    Ok(())
}

pub fn each(coverage: &mut Coverage) -> Result<(), String> {
    for d in refused_here_taken_there().iter().chain(&errors_and_panics()) {
        try_one(d)?;
        coverage.meet(match d.rust {
            Rust::Takes => "refused here, taken by the Rust",
            Rust::Error => "refused here, partly made and an error in the Rust",
            Rust::Panics => "refused here, a panic in the Rust",
        });
    }
    for d in &small_starts() {
        try_one(d)?;
        coverage.meet("taken here, refused by the Rust");
    }
    sequence_at_its_limit()?;
    coverage.meet("refused here, taken by the Rust");
    for d in &answered_otherwise() {
        try_answers(d)?;
        coverage.meet("answered otherwise by the Rust");
    }
    Ok(())
}

pub const KINDS: [&str; 5] = [
    "refused here, taken by the Rust",
    "refused here, partly made and an error in the Rust",
    "refused here, a panic in the Rust",
    "answered otherwise by the Rust",
    "taken here, refused by the Rust",
];
