//! The interval manager.
mod differs;
mod in_use;
mod model;
mod refused;

use crate::coverage::Coverage;
use crate::mutant;

/// What lists on the Rust's domain have to meet.
const ON_THE_DOMAIN: [&str; 18] = [
    "lists",
    "calls",
    "new",
    "change upwards",
    "change not upwards",
    "get",
    "release",
    "used",
    "is_empty",
    "get_capacity",
    "get that pops its interval",
    "get that shortens its interval",
    "get with nothing free",
    "get that leaves nothing free",
    "release that merges at the start",
    "release that merges at the end",
    "release that pushes",
    "push over an entry once in use",
];

/// What random lists have to meet besides.
const AT_THE_LIMITS: [&str; 2] = ["calls at capacity 1", "calls at capacity 1,024"];

/// What calls beyond the Rust's domain have to meet.
const BEYOND: [&str; 29] = [
    "calls",
    "accepted",
    "refusal 1 of new",
    "refusal 13 of new",
    "refusal 1 of change_capacity",
    "refusal 13 of change_capacity",
    "refusal 1 of get",
    "refusal 9 of get",
    "refusal 1 of release",
    "refusal 14 of release",
    "refusal 1 of used",
    "refusal 1 of is_empty",
    "refusal 1 of get_capacity",
    "13 where 1 applies too",
    "release of an index of 2^32 or more",
    "an empty slice lent",
    "a change past a slice's length",
    "ill-formed: record too short",
    "ill-formed: capacity 0",
    "ill-formed: capacity above 1024",
    "ill-formed: starts shorter than the capacity",
    "ill-formed: ends shorter than the capacity",
    "ill-formed: starts shorter than the stack",
    "ill-formed: ends shorter than the stack",
    "ill-formed: a start above its end",
    "ill-formed: an index not below the capacity",
    "ill-formed: an index in two intervals",
    "taken by the Rust, refused with 13",
    "taken by the Rust, refused with 14",
];

/// What a caller lends: the record's words and the two slices.
#[derive(Clone, Debug, PartialEq)]
pub struct Memory {
    pub words: Vec<u64>,
    pub starts: Vec<u16>,
    pub ends: Vec<u16>,
}

#[derive(Clone, Copy, Debug, PartialEq)]
pub enum Call {
    New(usize),
    ChangeCapacity(usize),
    Get,
    Release(usize),
    Used,
    IsEmpty,
    GetCapacity,
}

/// What a caller's lent number holds before a call.
const UNTOUCHED: u64 = 0x5555_aaaa_5555_aaaa;

/// What a call returned, and what the lent numbers hold after it: its answer and, of a get, how many indices are then free.
#[derive(Clone, Copy, Debug, PartialEq)]
pub struct Returned {
    pub value: u64,
    pub answer: u64,
    pub free_indices: u64,
}

fn made_by_library(call: Call, m: &mut Memory) -> Returned {
    let (mut answer, mut free_indices) = (UNTOUCHED, UNTOUCHED);
    let (words, starts, ends) = (&mut m.words[..], &mut m.starts[..], &mut m.ends[..]);
    let value = match call {
        Call::New(size) => library::manager_new(words, starts, ends, size),
        Call::ChangeCapacity(n) => library::manager_change_capacity(words, starts, ends, n),
        Call::Get => library::manager_get(words, starts, ends, &mut answer, &mut free_indices),
        Call::Release(i) if mutant::is("harness-releases-the-next-index") => {
            library::manager_release(words, starts, ends, i.wrapping_add(1))
        }
        Call::Release(i) => library::manager_release(words, starts, ends, i),
        Call::Used => library::manager_used(words, starts, ends, &mut answer),
        Call::IsEmpty => library::manager_is_empty(words, starts, ends, &mut answer),
        Call::GetCapacity => library::manager_get_capacity(words, starts, ends, &mut answer),
    };
    if value != 0 && mutant::is("harness-writes-the-answer-of-a-refused-call") {
        answer = 0;
    }
    if call == Call::Get && value != 0 && mutant::is("harness-writes-the-figure-of-a-refused-get") {
        free_indices = 0;
    }
    Returned {
        value,
        answer,
        free_indices,
    }
}

/// The faults that the model and the library share, sown after an accepted get.
fn sow_in_both(call: Call, returned: &mut Returned, m: &mut Memory) {
    if call != Call::Get || returned.value != 0 {
        return;
    }
    let past = m.words[1] as usize;
    if mutant::is("both-give-the-next-index") {
        returned.answer += 1;
    }
    if mutant::is("both-tell-one-free-index-more-of-a-get") {
        returned.free_indices += 1;
    }
    if mutant::is("both-clear-a-popped-entry") && past < m.starts.len() {
        m.starts[past] = 0;
    }
    if mutant::is("both-write-an-entry-never-in-use") {
        *m.ends.last_mut().expect("a manager that gives has an entry") = 0;
    }
}

fn told(call: Call, before: &Memory, left: (&str, Returned, &Memory), right: (&str, Returned, &Memory)) -> String {
    let side =
        |(name, returned, after): (&str, Returned, &Memory)| format!("{name}: {returned:?}\n    leaves {after:?}\n");
    format!("{call:?}\n    on {before:?}\n{}{}", side(left), side(right))
}

/// Makes the call on the library and on the model, from the same memory, and compares all that they return and leave.
fn held_to_model(call: Call, memory: &mut Memory) -> Result<Returned, String> {
    let before = memory.clone();
    let mut expected = memory.clone();
    let mut owed = model::made(call, &mut expected);
    let mut got = made_by_library(call, memory);
    sow_in_both(call, &mut owed, &mut expected);
    sow_in_both(call, &mut got, memory);
    if got != owed || *memory != expected {
        return Err(told(
            call,
            &before,
            ("library", got, memory),
            ("document 01", owed, &expected),
        ));
    }
    let answers = [got.answer, got.free_indices];
    if got.value != 0 && (*memory != before || answers != [UNTOUCHED; 2]) {
        return Err(format!("a refused call wrote: {call:?}\n    on {before:?}"));
    }
    Ok(got)
}

/// Runs everything, printing what each part covered.
pub fn run() -> Result<(), String> {
    let mut beyond = Coverage::new("manager, beyond the Rust's domain", &BEYOND);
    differs::each(&mut beyond)?;
    refused::each_clause_broken(&mut beyond)?;
    refused::rubbish(&mut beyond)?;
    beyond.close()?;
    let mut short = Coverage::new(
        "manager, every list of up to six calls at capacities 1 to 4",
        &ON_THE_DOMAIN,
    );
    in_use::every_short_list(&mut short)?;
    short.close()?;
    let mut random = Coverage::new(
        "manager, random lists at capacities 1 to 1,024",
        &[&ON_THE_DOMAIN[..], &AT_THE_LIMITS].concat(),
    );
    in_use::random_lists(&mut random)?;
    random.close()
}
