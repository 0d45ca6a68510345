//! Document 01's interval manager, written plainly from its text. It shares nothing with the library.
use super::{Call, Memory, Returned, UNTOUCHED};
use crate::mutant;

const LARGEST_CAPACITY: u64 = 1024;

impl Memory {
    pub fn capacity(&self) -> u64 {
        self.words[0]
    }

    pub fn in_use(&self) -> usize {
        self.words[1] as usize
    }

    /// The intervals that the lent slices really hold.
    pub fn intervals(&self) -> Vec<(u64, u64)> {
        let pairs = self.starts.iter().zip(&self.ends).take(self.in_use());
        pairs.map(|(s, e)| (*s as u64, *e as u64)).collect()
    }

    pub fn is_free(&self, index: u64) -> bool {
        self.intervals().iter().any(|(s, e)| *s <= index && index <= *e)
    }
}

/// Document 01's well-formedness, clause by clause: the names of those that are broken.
pub fn broken(m: &Memory) -> Vec<&'static str> {
    if m.words.len() < 2 {
        return vec!["ill-formed: record too short"];
    }
    let (capacity, in_use, intervals) = (m.capacity(), m.words[1], m.intervals());
    let shared = shares_an_index(&intervals) && !mutant::is("an-index-in-two-intervals-is-allowed");
    let turned = intervals.iter().any(|(s, e)| s > e) && !mutant::is("a-start-above-its-end-is-allowed");
    let clauses = [
        ("ill-formed: capacity 0", capacity == 0),
        ("ill-formed: capacity above 1024", capacity > LARGEST_CAPACITY),
        (
            "ill-formed: starts shorter than the capacity",
            (m.starts.len() as u64) < capacity,
        ),
        (
            "ill-formed: ends shorter than the capacity",
            (m.ends.len() as u64) < capacity,
        ),
        (
            "ill-formed: starts shorter than the stack",
            (m.starts.len() as u64) < in_use,
        ),
        (
            "ill-formed: ends shorter than the stack",
            (m.ends.len() as u64) < in_use,
        ),
        ("ill-formed: a start above its end", turned),
        (
            "ill-formed: an index not below the capacity",
            intervals.iter().any(|(s, e)| *s.max(e) >= capacity),
        ),
        ("ill-formed: an index in two intervals", shared),
    ];
    clauses
        .iter()
        .filter(|(_, is_broken)| *is_broken)
        .map(|(name, _)| *name)
        .collect()
}

fn shares_an_index(intervals: &[(u64, u64)]) -> bool {
    let mut ordered: Vec<_> = intervals.iter().filter(|(s, e)| s <= e).collect();
    ordered.sort();
    ordered.windows(2).any(|pair| pair[1].0 <= pair[0].1)
}

fn push(m: &mut Memory, start: u64, end: u64) {
    let n = m.in_use();
    m.starts[n] = start as u16;
    m.ends[n] = end as u16;
    m.words[1] += 1;
}

fn new(m: &mut Memory, size: u64) -> u64 {
    if size == 0 || size > LARGEST_CAPACITY {
        return 13;
    }
    if m.words.len() < 2 || (m.starts.len() as u64) < size || (m.ends.len() as u64) < size {
        return 1;
    }
    m.words[0] = size;
    m.words[1] = 0;
    push(m, 0, size - 1);
    0
}

fn change_capacity(m: &mut Memory, new: u64) -> u64 {
    let ill_formed = !broken(m).is_empty();
    if ill_formed && mutant::is("change-refuses-1-before-13") {
        return 1;
    }
    if new > LARGEST_CAPACITY {
        return 13;
    }
    if ill_formed || (m.starts.len() as u64) < new || (m.ends.len() as u64) < new {
        return 1;
    }
    let old = m.capacity();
    if new > old {
        let too_few = mutant::is("change-pushes-one-index-too-few") as u64;
        m.words[0] = new;
        push(m, old, new - 1 - too_few);
    }
    0
}

fn get(m: &mut Memory, answer: &mut u64, free_indices: &mut u64) -> u64 {
    if !broken(m).is_empty() {
        return 1;
    }
    if m.in_use() == 0 {
        return 9;
    }
    let free_before = free_number(m);
    let top = m.in_use() - 1;
    *answer = m.starts[top] as u64;
    if m.starts[top] < m.ends[top] || mutant::is("get-leaves-an-emptied-interval") {
        m.starts[top] += 1;
    } else {
        m.words[1] -= 1;
    }
    *free_indices = if mutant::is("get-tells-how-many-were-free-before-it") {
        free_before
    } else {
        free_number(m)
    };
    0
}

fn release(m: &mut Memory, i: u64) -> u64 {
    if !broken(m).is_empty() {
        return 1;
    }
    if i >= m.capacity() || (m.is_free(i) && !mutant::is("release-of-a-free-index-is-taken")) {
        return 14;
    }
    if let Some(top) = m.in_use().checked_sub(1) {
        if m.starts[top] as u64 == i + 1 {
            if mutant::is("release-merges-at-the-other-end") {
                m.ends[top] = i as u16;
            } else {
                m.starts[top] = i as u16;
            }
            return 0;
        }
        if m.ends[top] as u64 + 1 == i {
            m.ends[top] = i as u16;
            return 0;
        }
    }
    push(m, i, i);
    0
}

fn reading(m: &Memory, answer: &mut u64, value: impl Fn(&Memory) -> u64) -> u64 {
    if !broken(m).is_empty() {
        return 1;
    }
    *answer = value(m);
    0
}

/// How many indices are free.
fn free_number(m: &Memory) -> u64 {
    let mut free = vec![false; m.capacity() as usize];
    for (s, e) in m.intervals() {
        free[s as usize..=e as usize].fill(true);
    }
    free.iter().filter(|is_free| **is_free).count() as u64
}

fn used(m: &Memory) -> u64 {
    m.capacity() - free_number(m)
}

/// The call as document 01 has it.
pub fn made(call: Call, m: &mut Memory) -> Returned {
    let (mut answer, mut free_indices) = (UNTOUCHED, UNTOUCHED);
    let value = match call {
        Call::New(size) => new(m, size as u64),
        Call::ChangeCapacity(n) => change_capacity(m, n as u64),
        Call::Get => get(m, &mut answer, &mut free_indices),
        Call::Release(i) => release(m, i as u64),
        Call::Used => reading(m, &mut answer, used),
        Call::IsEmpty => reading(m, &mut answer, |m| (m.in_use() == 0) as u64),
        Call::GetCapacity => reading(m, &mut answer, Memory::capacity),
    };
    Returned {
        value,
        answer,
        free_indices,
    }
}
