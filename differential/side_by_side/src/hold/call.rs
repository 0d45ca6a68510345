//! The hold's calls, and what a caller has of one afterwards.
use crate::store::call::{Call, Returned, NUMBERS, UNTOUCHED};
use library::store::Opening;

#[derive(Clone, Debug, PartialEq)]
pub enum HoldCall {
    Open(Opening, usize),
    Add {
        point: Vec<u32>,
        label: usize,
    },
    Held {
        out: usize,
    },
    Number,
    /// A call of the store, on the store inside.
    Inside(Call),
}

pub const UNTOUCHED_INDEX: u16 = 0x5aa5;

#[derive(Clone, Debug, PartialEq)]
pub struct HoldReturned {
    /// What a call of the store, or an add, answers.
    pub of_store: Returned,
    pub held: Vec<u16>,
}

impl HoldReturned {
    /// The answers as they are lent.
    pub fn lent(call: &HoldCall) -> Self {
        let of_store = match call {
            HoldCall::Inside(call) => Returned::lent(call),
            _ => Returned::lent(&Call::Compact),
        };
        let out = if let HoldCall::Held { out } = call { *out } else { 0 };
        HoldReturned {
            of_store,
            held: vec![UNTOUCHED_INDEX; out],
        }
    }

    pub fn value(&self) -> u64 {
        self.of_store.value
    }

    /// Whether no answer was written.
    pub fn is_untouched(&self) -> bool {
        self.of_store.numbers == [UNTOUCHED; NUMBERS] && self.held.iter().all(|i| *i == UNTOUCHED_INDEX)
    }

    /// Index and label index of a kept add.
    pub fn kept(&self) -> Option<(usize, usize)> {
        let [kept, index, label, ..] = self.of_store.numbers;
        (self.value() == 0 && kept == 1).then_some((index as usize, label as usize))
    }
}
