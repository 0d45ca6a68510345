//! Lists on which the Rust is the reference: releases of indices in use, and capacities that document 01 allows.
use super::{held_to_model, Call, Memory, Returned, UNTOUCHED};
use crate::coverage::Coverage;
use crate::mutant;
use random::Random;
use reference::common::intervalstoremanager::IntervalStoreManager;
use std::panic::{catch_unwind, AssertUnwindSafe};

const RANDOM_CALLS: u64 = 2_500_000;

/// The Rust's manager, and the library's memory after the same calls.
#[derive(Clone)]
struct Pair {
    rust: IntervalStoreManager<usize>,
    memory: Memory,
    /// The slices before the opening: an entry that the Rust's vectors do not have yet was not written since.
    lent: Memory,
    in_use: Vec<usize>,
}

/// What the Rust answers, as the library would return it. Its one error is a get with nothing free. How many indices are free
/// after a get it does not say: that is its capacity less its `used`.
fn rust_answer(rust: &mut IntervalStoreManager<usize>, call: Call) -> Returned {
    let answered = |answer: u64| Returned {
        value: 0,
        answer,
        free_indices: UNTOUCHED,
    };
    match call {
        Call::New(size) => {
            *rust = IntervalStoreManager::new(size);
            answered(UNTOUCHED)
        }
        Call::ChangeCapacity(n) => {
            rust.change_capacity(n);
            answered(UNTOUCHED)
        }
        Call::Get => match rust.get() {
            Ok(index) => Returned {
                free_indices: (rust.get_capacity() - rust.used()) as u64,
                ..answered(index as u64)
            },
            Err(_) => Returned {
                value: 9,
                ..answered(UNTOUCHED)
            },
        },
        Call::Release(i) => {
            rust.release(i).expect("a release has no error");
            answered(UNTOUCHED)
        }
        Call::Used => answered(rust.used() as u64),
        Call::IsEmpty => answered(rust.is_empty() as u64),
        Call::GetCapacity => answered(rust.get_capacity() as u64),
    }
}

fn meet_call(
    call: Call,
    before: &IntervalStoreManager<usize>,
    after: &IntervalStoreManager<usize>,
    coverage: &mut Coverage,
) {
    let (was, is) = (before.last_in_use(), after.last_in_use());
    let pushed = is > was;
    if pushed && before.starts().len() > was {
        coverage.meet("push over an entry once in use");
    }
    match call {
        Call::New(_) => coverage.meet("new"),
        Call::ChangeCapacity(_) if pushed => coverage.meet("change upwards"),
        Call::ChangeCapacity(_) => coverage.meet("change not upwards"),
        Call::Get => {
            coverage.meet("get");
            coverage.meet(match (was, is < was) {
                (0, _) => "get with nothing free",
                (_, true) => "get that pops its interval",
                (_, false) => "get that shortens its interval",
            });
            if was > 0 && is == 0 {
                coverage.meet("get that leaves nothing free");
            }
        }
        Call::Release(i) => {
            coverage.meet("release");
            coverage.meet(match (pushed, is.checked_sub(1).map(|top| after.starts()[top] == i)) {
                (true, _) => "release that pushes",
                (false, Some(true)) => "release that merges at the start",
                (false, _) => "release that merges at the end",
            });
        }
        Call::Used => coverage.meet("used"),
        Call::IsEmpty => coverage.meet("is_empty"),
        Call::GetCapacity => coverage.meet("get_capacity"),
    }
}

impl Pair {
    /// Both sides opened at a capacity, over slices of `len` entries that hold rubbish.
    fn opened(capacity: usize, len: usize, random: &mut Random, coverage: &mut Coverage) -> Result<Self, String> {
        let mut rubbish = |n: usize| (0..n).map(|_| random.number() as u16).collect::<Vec<u16>>();
        let lent = Memory {
            words: vec![7, 77, 777],
            starts: rubbish(len),
            ends: rubbish(len),
        };
        let mut pair = Pair {
            rust: IntervalStoreManager::new(capacity),
            memory: lent.clone(),
            lent,
            in_use: Vec::new(),
        };
        pair.step(Call::New(capacity), coverage)?;
        Ok(pair)
    }

    /// One call on both sides and on the model, and then all that can be seen compared.
    fn step(&mut self, call: Call, coverage: &mut Coverage) -> Result<(), String> {
        let before = self.rust.clone();
        let answer = catch_unwind(AssertUnwindSafe(|| rust_answer(&mut self.rust, call)));
        let expected = answer.map_err(|_| format!("the Rust panics at {call:?} on {before:?}"))?;
        let memory = self.memory.clone();
        if let Call::New(_) = call {
            self.lent = memory.clone();
            self.in_use.clear();
        }
        let got = held_to_model(call, &mut self.memory)?;
        if got != expected || !self.agrees() {
            return Err(format!(
                "{call:?}\n    on {memory:?}\nlibrary: {got:?}\n    leaves {:?}\nthe Rust: {expected:?}\n    leaves {:?}",
                self.memory, self.rust
            ));
        }
        let used = held_to_model(Call::Used, &mut self.memory)?;
        if used.answer != self.rust.used() as u64 {
            return Err(format!(
                "after {call:?} used is {used:?}, in the Rust {}\n    {:?}",
                self.rust.used(),
                self.memory
            ));
        }
        match call {
            Call::Get if got.value == 0 => self.in_use.push(got.answer as usize),
            Call::Release(i) => self.in_use.retain(|k| *k != i),
            _ => {}
        }
        coverage.meet("calls");
        meet_call(call, &before, &self.rust, coverage);
        Ok(())
    }

    /// Capacity, entries in use, every entry that the Rust has, and every other entry as it was lent.
    fn agrees(&self) -> bool {
        let same = |ours: &[u16], lent: &[u16], rust: &[usize]| {
            let n = rust.len();
            ours[..n].iter().zip(rust).all(|(a, b)| *a as usize == *b) && ours[n..] == lent[n..]
        };
        self.memory.words
            == [
                self.rust.get_capacity() as u64,
                self.rust.last_in_use() as u64,
                self.lent.words[2],
            ]
            && same(&self.memory.starts, &self.lent.starts, self.rust.starts())
            && same(&self.memory.ends, &self.lent.ends, self.rust.ends())
    }
}

/// Every list of up to `left` calls more.
fn lists_from(pair: &Pair, left: usize, coverage: &mut Coverage) -> Result<(), String> {
    coverage.meet("lists");
    if left == 0 {
        return Ok(());
    }
    let mut calls = vec![Call::New(2), Call::Get, Call::Used, Call::IsEmpty, Call::GetCapacity];
    calls.extend(pair.in_use.iter().map(|i| Call::Release(*i)));
    calls.extend((0..=pair.memory.starts.len()).map(Call::ChangeCapacity));
    for call in calls {
        let mut next = pair.clone();
        next.step(call, coverage)?;
        lists_from(&next, left - 1, coverage)?;
    }
    Ok(())
}

pub fn every_short_list(coverage: &mut Coverage) -> Result<(), String> {
    let mut random = Random::new(6);
    for capacity in 1..=4 {
        let pair = Pair::opened(capacity, 5, &mut random, coverage)?;
        lists_from(&pair, 6, coverage)?;
    }
    Ok(())
}

/// What a stretch of a random list does most.
#[derive(Clone, Copy)]
enum Mood {
    Fill,
    Drain(isize),
    Mixed,
}

fn release_near(pair: &Pair, last: usize, by: isize, random: &mut Random) -> Call {
    let next = last.wrapping_add_signed(by);
    let near = pair.in_use.contains(&next);
    Call::Release(if near {
        next
    } else {
        pair.in_use[random.below(pair.in_use.len())]
    })
}

fn random_call(pair: &Pair, mood: Mood, last: usize, random: &mut Random) -> Call {
    let len = pair.memory.starts.len().min(1024);
    let capacity = pair.rust.get_capacity();
    if random.one_in(2000) {
        return Call::New(random.within(1, len));
    }
    match random.below(100) {
        0 => return Call::Used,
        1 => return Call::IsEmpty,
        2 => return Call::GetCapacity,
        3 => return Call::ChangeCapacity(random.within(0, capacity)),
        4 if !mutant::is("harness-never-grows") => {
            return Call::ChangeCapacity(len.min(capacity + random.within(0, 1 + capacity / 4)));
        }
        _ => {}
    }
    let gets = match mood {
        Mood::Fill => 9,
        Mood::Drain(_) => 1,
        Mood::Mixed => 5,
    };
    if pair.in_use.is_empty() || random.below(10) < gets {
        return Call::Get;
    }
    match mood {
        Mood::Drain(by) => release_near(pair, last, by, random),
        _ => release_near(pair, last, 0, random),
    }
}

fn random_list(random: &mut Random, coverage: &mut Coverage) -> Result<(), String> {
    let most = [1, 4, 16, 64, 256, 1024][random.below(6)];
    let capacity = if random.one_in(8) { most } else { random.within(1, most) };
    let len = random.within(capacity, 1030);
    let mut pair = Pair::opened(capacity, len, random, coverage)?;
    let mut mood = Mood::Fill;
    let mut last = 0;
    for _ in 0..random.within(20, 4000) {
        if random.one_in(60) {
            mood = [Mood::Fill, Mood::Drain(1), Mood::Drain(-1), Mood::Drain(0), Mood::Mixed][random.below(5)];
        }
        let call = random_call(&pair, mood, last, random);
        pair.step(call, coverage)?;
        match pair.rust.get_capacity() {
            1 => coverage.meet("calls at capacity 1"),
            1024 => coverage.meet("calls at capacity 1,024"),
            _ => {}
        }
        if let Call::Release(i) = call {
            last = i;
        }
    }
    coverage.meet("lists");
    Ok(())
}

pub fn random_lists(coverage: &mut Coverage) -> Result<(), String> {
    let mut random = Random::new(2);
    while coverage.count("calls") < RANDOM_CALLS {
        random_list(&mut random, coverage)?;
    }
    Ok(())
}
