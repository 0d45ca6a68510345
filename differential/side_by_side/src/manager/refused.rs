//! Beyond the Rust's domain: any capacity, any index, slices of any length, rubbish in them, and ill-formed managers of
//! every kind. The library is held to the model.
use super::{held_to_model, model, Call, Memory};
use crate::coverage::Coverage;
use random::Random;

const RUBBISH_CALLS: usize = 3_000_000;
const BROKEN_EACH: usize = 2_000;

fn meet_refusal(call: Call, value: u64, coverage: &mut Coverage) {
    let kind = match (call, value) {
        (_, 0) => "accepted",
        (Call::New(_), 1) => "refusal 1 of new",
        (Call::New(_), 13) => "refusal 13 of new",
        (Call::ChangeCapacity(_), 1) => "refusal 1 of change_capacity",
        (Call::ChangeCapacity(_), 13) => "refusal 13 of change_capacity",
        (Call::Get, 1) => "refusal 1 of get",
        (Call::Get, 9) => "refusal 9 of get",
        (Call::Release(_), 1) => "refusal 1 of release",
        (Call::Release(_), 14) => "refusal 14 of release",
        (Call::Used, 1) => "refusal 1 of used",
        (Call::IsEmpty, 1) => "refusal 1 of is_empty",
        (Call::GetCapacity, 1) => "refusal 1 of get_capacity",
        _ => unreachable!("the model has no such refusal"),
    };
    coverage.meet(kind);
}

fn meet_edges(call: Call, before: &Memory, value: u64, coverage: &mut Coverage) {
    if before.starts.is_empty() || before.ends.is_empty() || before.words.is_empty() {
        coverage.meet("an empty slice lent");
    }
    match call {
        Call::Release(i) if i >= 1 << 32 => coverage.meet("release of an index of 2^32 or more"),
        Call::ChangeCapacity(_) if value == 13 && !model::broken(before).is_empty() => {
            coverage.meet("13 where 1 applies too")
        }
        Call::ChangeCapacity(n)
            if value == 1 && n > before.starts.len().min(before.ends.len()) && model::broken(before).is_empty() =>
        {
            coverage.meet("a change past a slice's length")
        }
        _ => {}
    }
}

fn hold(call: Call, memory: &mut Memory, coverage: &mut Coverage) -> Result<u64, String> {
    let before = memory.clone();
    let value = held_to_model(call, memory)?.value;
    coverage.meet("calls");
    meet_refusal(call, value, coverage);
    meet_edges(call, &before, value, coverage);
    Ok(value)
}

/// A number that a caller may pass by mistake: small, near a limit, or any.
fn any_number(random: &mut Random) -> usize {
    match random.below(4) {
        0 => random.below(8),
        1 => [
            1023,
            1024,
            1025,
            65_535,
            65_536,
            u32::MAX as usize,
            1 << 32,
            1 << 63,
            usize::MAX,
        ][random.below(9)],
        2 => random.below(1100),
        _ => random.number() as usize,
    }
}

fn any_call(random: &mut Random) -> Call {
    let number = any_number(random);
    [
        Call::New(number),
        Call::ChangeCapacity(number),
        Call::Get,
        Call::Release(number),
        Call::Used,
        Call::IsEmpty,
        Call::GetCapacity,
    ][random.below(7)]
}

fn any_entries(random: &mut Random) -> Vec<u16> {
    let len = if random.one_in(20) {
        random.below(1100)
    } else {
        random.below(8)
    };
    let bound = if random.one_in(4) { 65_536 } else { 6 };
    (0..len).map(|_| random.below(bound) as u16).collect()
}

fn any_memory(random: &mut Random) -> Memory {
    let words = if random.one_in(10) {
        random.below(2)
    } else {
        random.within(2, 3)
    };
    Memory {
        words: (0..words).map(|_| if random.one_in(8) { any_number(random) } else { random.below(7) } as u64).collect(),
        starts: any_entries(random),
        ends: any_entries(random),
    }
}

pub fn rubbish(coverage: &mut Coverage) -> Result<(), String> {
    let mut random = Random::new(3);
    let mut memory = any_memory(&mut random);
    for _ in 0..RUBBISH_CALLS {
        if random.one_in(3) {
            memory = any_memory(&mut random);
        }
        hold(any_call(&mut random), &mut memory, coverage)?;
    }
    Ok(())
}

/// A well-formed manager after a random list of calls, over slices of `len` entries.
fn well_formed(capacity: usize, len: usize, random: &mut Random) -> Memory {
    let mut m = Memory {
        words: vec![0; 2],
        starts: vec![9; len],
        ends: vec![9; len],
    };
    model::made(Call::New(capacity), &mut m);
    for _ in 0..random.below(3 * capacity + 1) {
        let index = random.below(capacity);
        let call = if m.is_free(index as u64) {
            Call::Get
        } else {
            Call::Release(index)
        };
        model::made(call, &mut m);
    }
    m
}

fn grown(capacity: usize, random: &mut Random) -> Memory {
    let len = capacity + random.within(1, 5);
    well_formed(capacity, len, random)
}

/// As many entries in use as the capacity has indices, each an interval of one.
fn all_single(capacity: usize) -> Memory {
    let each: Vec<u16> = (0..capacity as u16).collect();
    Memory {
        words: vec![capacity as u64; 2],
        starts: each.clone(),
        ends: each,
    }
}

fn add_interval(m: &mut Memory, start: u16, end: u16) {
    let n = m.in_use();
    m.starts[n] = start;
    m.ends[n] = end;
    m.words[1] += 1;
}

/// A manager that only the named clause refuses, where the random choices allow it.
fn with_broken(clause: &str, random: &mut Random) -> Memory {
    let most = [3, 12, 1024][random.below(3)];
    let capacity = random.within(1, most);
    let mut m = grown(capacity, random);
    match clause {
        "ill-formed: record too short" => m.words.truncate(random.below(2)),
        "ill-formed: capacity 0" => m.words = vec![0; 2],
        "ill-formed: capacity above 1024" => {
            m.words[0] = random.within(1025, 1100) as u64;
            m.starts.resize(1100, 5);
            m.ends.resize(1100, 5);
        }
        "ill-formed: starts shorter than the capacity" => m.starts.truncate(random.below(capacity)),
        "ill-formed: ends shorter than the capacity" => m.ends.truncate(random.below(capacity)),
        "ill-formed: starts shorter than the stack" | "ill-formed: ends shorter than the stack" => {
            m = all_single(capacity);
            m.words[1] += random.within(1, 4) as u64;
            let longer = if clause.contains("starts") {
                &mut m.ends
            } else {
                &mut m.starts
            };
            longer.resize(capacity + 9, random.below(capacity) as u16);
        }
        "ill-formed: a start above its end" => {
            let end = random.below(capacity);
            add_interval(&mut m, random.within(end, capacity - 1) as u16, end as u16);
        }
        "ill-formed: an index not below the capacity" => {
            let start = random.within(capacity, 65_535);
            add_interval(&mut m, start as u16, random.within(start, 65_535) as u16);
        }
        _ => {
            let start = random.below(capacity);
            add_interval(&mut m, start as u16, random.within(start, capacity - 1) as u16);
        }
    }
    m
}

/// Each clause of well-formedness broken alone: every call but new refuses, with 1 or, on a change, 13.
pub fn each_clause_broken(coverage: &mut Coverage) -> Result<(), String> {
    let mut random = Random::new(4);
    for clause in super::BEYOND.iter().filter(|k| k.starts_with("ill-formed: ")) {
        for _ in 0..BROKEN_EACH {
            let mut m = with_broken(clause, &mut random);
            if model::broken(&m) != [*clause] {
                continue;
            }
            coverage.meet(clause);
            let number = any_number(&mut random);
            for call in [
                Call::ChangeCapacity(number),
                Call::Get,
                Call::Release(number),
                Call::Used,
                Call::IsEmpty,
                Call::GetCapacity,
            ] {
                let owed = if call == Call::ChangeCapacity(number) && number > 1024 {
                    13
                } else {
                    1
                };
                if hold(call, &mut m, coverage)? != owed {
                    return Err(format!("{call:?} is not refused with {owed} on {m:?}"));
                }
            }
        }
    }
    Ok(())
}
