//! The kinds that the hold's parts count.
use super::call::HoldCall;
use super::model::GAVE_UP;
use crate::store::kinds as of_store;

pub const OF_OPENING: [&str; 5] = [
    "accepted hold_open",
    "refusal 2 of hold_open",
    "refusal 15 of hold_open",
    "refusal 1 of hold_open",
    "refusal 17 of hold_open",
];

/// 9 is not among them: fewer points are held than the capacity, so an index is free or the table grows.
pub const OF_ADDS: [&str; 7] = [
    "accepted hold_add",
    "refusal 1 of hold_add",
    "refusal 3 of hold_add",
    "refusal 4 of hold_add",
    "refusal 8 of hold_add",
    "refusal 10 of hold_add",
    "refusal 12 of hold_add",
];

pub const OF_READINGS: [&str; 5] = [
    "accepted hold_held",
    "refusal 1 of hold_held",
    "refusal 3 of hold_held",
    "accepted hold_number",
    "refusal 1 of hold_number",
];

pub const ON_THE_WAY: [&str; 6] = [
    "a Waiting add",
    "a Waiting add while points are held",
    "a kept add with fewer held than the width",
    GAVE_UP,
    "a refused add while the list is full",
    "copies compared with those right after their adds",
];

pub fn all() -> Vec<&'static str> {
    let inside = [of_store::accepted(), of_store::refusals(|_, _| false)].concat();
    let more = ["calls", "a store call inside"];
    [
        &more[..],
        &OF_OPENING,
        &OF_ADDS,
        &OF_READINGS,
        &ON_THE_WAY,
        &of_store::ON_THE_WAY,
        &of_store::OF_THE_RUST,
        &crate::store::REFUSED,
        &inside,
    ]
    .concat()
}

/// None where that call has no such refusal.
pub fn answer_kind(call: &HoldCall, number: u64) -> Option<&'static str> {
    let (kinds, name) = match call {
        HoldCall::Inside(call) => return of_store::answer_kind(call.kind(), number),
        HoldCall::Open(..) => (&OF_OPENING[..], "hold_open"),
        HoldCall::Add { .. } => (&OF_ADDS[..], "hold_add"),
        HoldCall::Held { .. } => (&OF_READINGS[..], "hold_held"),
        HoldCall::Number => (&OF_READINGS[..], "hold_number"),
    };
    let owed = match number {
        0 => format!("accepted {name}"),
        _ => format!("refusal {number} of {name}"),
    };
    kinds.iter().copied().find(|kind| *kind == owed)
}
