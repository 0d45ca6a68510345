//! The kinds that the store's parts count.
use super::call::NAMES;
use super::model_rows::PAST_A_FIFTH;
use std::sync::OnceLock;

/// Document 01's refusals: of each call in the order of `NAMES`.
const REFUSALS: [&[u64]; 18] = [
    &[1, 2, 17],
    &[1, 3, 4, 8, 9, 10, 12],
    &[1, 5, 6, 7],
    &[1, 5, 6],
    &[1, 5, 6, 7],
    &[1],
    &[1, 3, 5],
    &[1, 5],
    &[1],
    &[1],
    &[1, 3, 5],
    &[1, 3, 5, 11],
    &[1, 3],
    &[1, 3, 11],
    &[1, 3, 11],
    &[1, 6],
    &[1, 6],
    &[1, 3, 6],
];

/// What calls meet on their way.
pub const ON_THE_WAY: [&str; 30] = [
    "a Waiting add",
    "Whole",
    "Joined",
    "Joined over a NaN",
    "no join because of a zero's sign",
    "no join because of a NaN's bits",
    "the table grew",
    "a kept add that left no index free",
    "a kept add that left some of a grown table free",
    "a kept add that left the table shorter than the capacity",
    "the floats grew",
    "the floats grew to no multiple of base",
    PAST_A_FIFTH,
    "a compaction",
    "a compaction that moved",
    "a compaction of several blocks",
    "rotating zeros",
    "a class that has a slot",
    "a point's count reached 0",
    "a label's count reached 0",
    "a slot's count reached 0",
    "a skipped pair",
    "a point with -0.0",
    "a point with a NaN",
    "a point with a signaling NaN",
    "a point with an infinity",
    "a point with a denormal",
    "a point equal to a row",
    "a point unequal to a row",
    "a sum with a NaN",
];

/// What the Rust, which compares floats and not their bits, is asked and what not.
pub const OF_THE_RUST: [&str; 4] = ["compared with the Rust", ADDED_BESIDE, WITHOUT_THE_RUST, NOT_ASKED];

pub const ADDED_BESIDE: &str = "an infinity or a denormal added beside the Rust";
pub const WITHOUT_THE_RUST: &str = "went on without the Rust: a NaN or -0.0 in a row";
pub const NOT_ASKED: &str = "is_equal of a NaN or -0.0, not asked of the Rust";

/// `table[call][number]` is the kind of an answer; number 0 is an accepted call.
fn table() -> &'static Vec<Vec<Option<&'static str>>> {
    static TABLE: OnceLock<Vec<Vec<Option<&'static str>>>> = OnceLock::new();
    TABLE.get_or_init(|| {
        let kind = |call: usize, number: u64| -> Option<&'static str> {
            match number {
                0 => Some(&*format!("accepted {}", NAMES[call]).leak()),
                _ if REFUSALS[call].contains(&number) => Some(&*format!("refusal {number} of {}", NAMES[call]).leak()),
                _ => None,
            }
        };
        (0..NAMES.len())
            .map(|call| (0..=17).map(|number| kind(call, number)).collect())
            .collect()
    })
}

/// None where document 01 has no such refusal of that call.
pub fn answer_kind(call: usize, number: u64) -> Option<&'static str> {
    *table()[call].get(number as usize)?
}

pub fn accepted() -> Vec<&'static str> {
    (0..NAMES.len()).filter_map(|call| answer_kind(call, 0)).collect()
}

/// All refusals but those that `left_out` names, as (call, number).
pub fn refusals(left_out: impl Fn(usize, u64) -> bool) -> Vec<&'static str> {
    let each = (0..NAMES.len()).flat_map(|call| (1..=17).map(move |number| (call, number)));
    each.filter(|(call, number)| !left_out(*call, *number))
        .filter_map(|(call, number)| answer_kind(call, number))
        .collect()
}
