//! The product's calls, what a caller has of one afterwards, and the kinds of answers that are counted.
use crate::store::call::{Call, Returned, NUMBERS, UNTOUCHED};
use crate::store::kinds as of_store;
use library::store::Opening;

#[derive(Clone, Debug, PartialEq)]
pub enum ProbeCall {
    Open(Opening),
    Set {
        kinds: Vec<u8>,
        floats: Vec<u32>,
        label: usize,
    },
    Tallies {
        out: usize,
    },
    /// A call of the store, on the store inside.
    Inside(Call),
}

pub const UNTOUCHED_TALLY: u32 = 0x5aa5_5aa5;

#[derive(Clone, Debug, PartialEq)]
pub struct ProbeReturned {
    /// What a call of the store, or a set, answers.
    pub of_store: Returned,
    pub tallies: Vec<u32>,
}

impl ProbeReturned {
    /// The answers as they are lent.
    pub fn lent(call: &ProbeCall) -> Self {
        let of_store = match call {
            ProbeCall::Inside(call) => Returned::lent(call),
            _ => Returned::lent(&Call::Compact),
        };
        let out = if let ProbeCall::Tallies { out } = call { *out } else { 0 };
        ProbeReturned {
            of_store,
            tallies: vec![UNTOUCHED_TALLY; out],
        }
    }

    pub fn value(&self) -> u64 {
        self.of_store.value
    }

    /// Whether no answer was written.
    pub fn is_untouched(&self) -> bool {
        self.of_store.numbers == [UNTOUCHED; NUMBERS] && self.tallies.iter().all(|t| *t == UNTOUCHED_TALLY)
    }

    /// Index and label index of a kept set.
    pub fn kept(&self) -> Option<(usize, usize)> {
        let [kept, index, label, ..] = self.of_store.numbers;
        (self.value() == 0 && kept == 1).then_some((index as usize, label as usize))
    }
}

pub const OF_OPENING: [&str; 4] = [
    "accepted probes_open",
    "refusal 2 of probes_open",
    "refusal 1 of probes_open",
    "refusal 17 of probes_open",
];

pub const OF_SETS: [&str; 10] = [
    "accepted probes_set",
    "refusal 1 of probes_set",
    "refusal 3 of probes_set",
    "refusal 4 of probes_set",
    "refusal 8 of probes_set",
    "refusal 9 of probes_set",
    "refusal 10 of probes_set",
    "refusal 11 of probes_set",
    "refusal 12 of probes_set",
    "refusal 16 of probes_set",
];

pub const OF_TALLIES: [&str; 3] = [
    "accepted probes_tallies",
    "refusal 1 of probes_tallies",
    "refusal 3 of probes_tallies",
];

pub const ON_THE_WAY: [&str; 5] = [
    "a Waiting set with an Estimated",
    "a kept set with an Estimated",
    "a refused set with an Estimated",
    "an Absent that repeats a NaN",
    "an Absent that repeats an Absent",
];

pub fn all() -> Vec<&'static str> {
    let inside = [of_store::accepted(), of_store::refusals(|_, _| false)].concat();
    let more = ["calls", "lists", "a store call inside"];
    [
        &more[..],
        &OF_OPENING,
        &OF_SETS,
        &OF_TALLIES,
        &ON_THE_WAY,
        &of_store::ON_THE_WAY,
        &of_store::OF_THE_RUST,
        &crate::store::REFUSED,
        &inside,
    ]
    .concat()
}

/// None where that call has no such refusal.
pub fn answer_kind(call: &ProbeCall, number: u64) -> Option<&'static str> {
    let (kinds, name) = match call {
        ProbeCall::Inside(call) => return of_store::answer_kind(call.kind(), number),
        ProbeCall::Open(..) => (&OF_OPENING[..], "probes_open"),
        ProbeCall::Set { .. } => (&OF_SETS[..], "probes_set"),
        ProbeCall::Tallies { .. } => (&OF_TALLIES[..], "probes_tallies"),
    };
    let owed = match number {
        0 => format!("accepted {name}"),
        _ => format!("refusal {number} of {name}"),
    };
    kinds.iter().copied().find(|kind| *kind == owed)
}
