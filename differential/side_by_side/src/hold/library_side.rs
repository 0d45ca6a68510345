//! The library's side of a call.
use super::call::{HoldCall, HoldReturned};
use crate::store::library_side;
use library::hold::LentHold;

pub fn made(call: &HoldCall, h: &mut LentHold) -> HoldReturned {
    let mut r = HoldReturned::lent(call);
    match call {
        HoldCall::Open(opening, width) => r.of_store.value = h.open(*opening, *width),
        HoldCall::Inside(call) => r.of_store = library_side::made(call, &mut h.store),
        HoldCall::Add { point, label } => {
            let mut a = library_side::lent_to_an_add(r.of_store.numbers);
            r.of_store.value = h.add(point, *label, &mut a);
            r.of_store.numbers = library_side::written_by_an_add(r.of_store.value, a);
        }
        HoldCall::Held { .. } => r.of_store.value = h.held(&mut r.held),
        HoldCall::Number => r.of_store.value = h.number(&mut r.of_store.numbers[0]),
    }
    r
}
