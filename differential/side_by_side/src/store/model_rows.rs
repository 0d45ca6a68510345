//! Add, compact and copy.
use super::call::{Returned, FIGURE};
use super::memory::*;
use super::model::Met;
use crate::mutant;
use library::store::Lent;
use reference::reasons::BUILT_IN;

/// Equality of the 32 bits. The fault is the float `==` that document 02 takes away.
pub fn rows_equal(a: &[u32], b: &[u32], fault: &'static str) -> bool {
    let as_floats = mutant::is(fault);
    let float_equal = |a: u32, b: u32| f32::from_bits(a) == f32::from_bits(b);
    a.iter()
        .zip(b)
        .all(|(a, b)| if as_floats { float_equal(*a, *b) } else { a == b })
}

/// A fifth more and at least `least`, at most `limit`.
fn grown(length: usize, least: usize, limit: usize) -> usize {
    let least = if mutant::is("growth-by-a-fifth-alone") {
        0
    } else {
        least
    };
    (length + least.max(length / 5)).min(limit)
}

/// The Rust grows by a fifth alone.
fn meet_growth(length: usize, new: usize, limit: usize, met: &mut Met) {
    if new != (length + length / 5).min(limit) {
        met.push(PAST_A_FIFTH);
    }
}

/// From here on the Rust is another store.
pub const PAST_A_FIFTH: &str = "growth by more than a fifth";

pub fn add(m: &mut Lent, point: &[u32], code: usize, r: &mut Returned, met: &mut Met) -> u64 {
    let s = shape(m);
    if point.len() != (if s.shingling { s.base } else { s.dimensions }) {
        return 3;
    }
    if m.words[SEQUENCE] == LARGEST_SEQUENCE {
        return 12;
    }
    if s.labels && code > 23 && !(code == 24 && mutant::is("code-24-is-taken")) {
        return 4;
    }
    let sequence = m.words[SEQUENCE] + 1;
    let waiting = s.shingling && sequence < s.shingle_size as u64;
    let mut window = m.last_known_shingle[..s.dimensions].to_vec();
    if s.shingling {
        window.drain(..s.base);
        window.extend(point);
    }
    if !waiting {
        let refusal = made_room(m, &window, point, met);
        if refusal != 0 {
            return refusal;
        }
    }
    m.words[SEQUENCE] = sequence;
    m.last_known_shingle[..s.dimensions].copy_from_slice(&window);
    r.numbers[0] = !waiting as u64;
    if waiting {
        met.push("a Waiting add");
        return 0;
    }
    meet_floats(point, met);
    let label = if s.labels { take_label(m, code, met) } else { NONE };
    let row = if s.shingling { &window } else { point };
    take_point(m, row, r, met);
    r.numbers[2] = label as u64;
    0
}

/// 8, 9 and 10 in this order; compaction and growth of the floats stand also where 10 is given.
fn made_room(m: &mut Lent, window: &[u32], point: &[u32], met: &mut Met) -> u64 {
    let s = shape(m);
    if s.labels && label_stack(m).is_empty() {
        return 8;
    }
    let table = word(m, TABLE_LENGTH);
    let can_grow = grown(table, 1, s.capacity) > table && !mutant::is("add-never-grows-the-table");
    if point_stack(m).is_empty() && !can_grow {
        return 9;
    }
    let passes = |m: &Lent, floats: usize| word(m, FREE_START) + floats > word(m, STORE_LENGTH);
    if passes(m, s.dimensions) {
        compact(m, met);
        if passes(m, s.dimensions) && !mutant::is("add-never-grows-the-floats") {
            grow_floats(m, met);
        }
    }
    let row = if s.shingling { window } else { point };
    let written = if overlaps(m, row) { s.base } else { s.dimensions };
    if passes(m, written) {
        return 10;
    }
    0
}

fn grow_floats(m: &mut Lent, met: &mut Met) {
    let s = shape(m);
    let old = word(m, STORE_LENGTH);
    let limit = s.capacity * s.dimensions;
    let least = if mutant::is("floats-grow-by-one-float") {
        1
    } else {
        s.dimensions
    };
    let new = grown(old, least, limit);
    meet_growth(old, new, limit, met);
    if new > old {
        met.push("the floats grew");
        if new % s.base != 0 {
            met.push("the floats grew to no multiple of base");
        }
    }
    if !mutant::is("growth-keeps-the-lent-floats") {
        m.store[old..new].fill(0);
    }
    m.words[STORE_LENGTH] = new as u64;
}

/// Whether the floats before the free start equal the row's first ones.
fn overlaps(m: &Lent, row: &[u32]) -> bool {
    let s = shape(m);
    let free_start = word(m, FREE_START);
    if s.shingle_size == 1 || free_start <= s.extra {
        return false;
    }
    let before = &m.store[free_start - s.extra..free_start];
    rows_equal(before, row, "joined-by-float-equality")
}

/// An attribute slot, then a label index, each with one count more.
fn take_label(m: &mut Lent, code: usize, met: &mut Met) -> usize {
    let class = if mutant::is("classes-of-the-built-in-table") {
        BUILT_IN[code.min(23)]
    } else {
        m.words[CLASSES + code.min(23)] as u8
    };
    let capacity = word(m, CAPACITY);
    let live = (0..capacity).find(|k| m.attribute_count[*k] > 0 && m.attributes[*k] == class);
    if live.is_some() {
        met.push("a class that has a slot");
    }
    let slot = live.unwrap_or_else(|| slot_stack(m).get());
    m.attributes[slot] = class;
    m.attribute_count[slot] += 1;
    let label = label_stack(m).get();
    m.labels[label] = code as u8;
    m.label_attributes[label] = slot as u16;
    m.label_count[label] = 1;
    label
}

/// A point index and the row's place; the stack may grow.
fn take_point(m: &mut Lent, row: &[u32], r: &mut Returned, met: &mut Met) {
    let s = shape(m);
    let length_before = word(m, TABLE_LENGTH);
    if point_stack(m).is_empty() {
        let old = length_before;
        let new = grown(old, 1, s.capacity);
        meet_growth(old, new, s.capacity, met);
        met.push("the table grew");
        m.reference_count[old..new].fill(0);
        m.location[old..new].fill(EMPTY);
        point_stack(m).change(new);
    }
    let index = point_stack(m).get();
    let free_start = word(m, FREE_START);
    let joined = overlaps(m, row);
    let (start, written) = if joined {
        (free_start - s.extra, s.extra)
    } else {
        (free_start, 0)
    };
    let end = start + s.dimensions;
    met.push(if joined { "Joined" } else { "Whole" });
    if s.shingle_size > 1 && free_start > s.extra {
        meet_overlap(&m.store[free_start - s.extra..free_start], &row[..s.extra], joined, met);
    }
    m.store[free_start..end].copy_from_slice(&row[written..]);
    m.words[FREE_START] = end as u64;
    m.reference_count[index] = 1;
    m.location[index] = (start / s.base) as u16;
    r.numbers[1] = index as u64;
    r.numbers[3] = joined as u64;
    r.numbers[4] = (start / s.base) as u64;
    r.numbers[FIGURE] = figure(m, length_before, met);
}

/// How many indices remain free: the table's length less the live points, the new one among them.
fn figure(m: &Lent, length_before: usize, met: &mut Met) -> u64 {
    let (length, capacity) = (word(m, TABLE_LENGTH), word(m, CAPACITY));
    let live = live_indices(m).len();
    let left = length - live;
    if left == 0 {
        met.push("a kept add that left no index free");
    }
    if left > 0 && length > length_before {
        met.push("a kept add that left some of a grown table free");
    }
    if left != capacity - live {
        met.push("a kept add that left the table shorter than the capacity");
    }
    let faulty = if mutant::is("figure-without-the-new-point") {
        left + 1
    } else if mutant::is("figure-of-the-capacity") {
        capacity - live
    } else if mutant::is("figure-of-the-table-before-growth") {
        length_before.saturating_sub(live)
    } else if mutant::is("figure-of-the-label-indices") && m.words[STORE_LABELS] == 1 {
        capacity - live_labels(m).len()
    } else {
        left
    };
    faulty as u64
}

/// Where bits and floats would join otherwise.
fn meet_overlap(before: &[u32], first: &[u32], joined: bool, met: &mut Met) {
    let equal_but_for = |alike: fn(u32) -> bool| {
        let each = before.iter().zip(first);
        !joined && each.into_iter().all(|(a, b)| a == b || alike(*a) && alike(*b))
    };
    if equal_but_for(|w| w << 1 == 0) {
        met.push("no join because of a zero's sign");
    }
    if equal_but_for(is_nan) {
        met.push("no join because of a NaN's bits");
    }
    if joined && has_nan(first) {
        met.push("Joined over a NaN");
    }
}

/// Which floats were kept that are easily taken for others.
fn meet_floats(point: &[u32], met: &mut Met) {
    use std::num::FpCategory;
    for (kind, has) in [
        ("a point with -0.0", point.contains(&0x8000_0000)),
        ("a point with a NaN", has_nan(point)),
        (
            "a point with a signaling NaN",
            point
                .iter()
                .any(|w| (0x7f80_0001..0x7fc0_0000).contains(&(w & 0x7fff_ffff))),
        ),
        (
            "a point with an infinity",
            point.iter().any(|w| f32::from_bits(*w).is_infinite()),
        ),
        (
            "a point with a denormal",
            point
                .iter()
                .any(|w| f32::from_bits(*w).classify() == FpCategory::Subnormal),
        ),
    ] {
        if has {
            met.push(kind);
        }
    }
}

pub fn is_nan(word: u32) -> bool {
    f32::from_bits(word).is_nan()
}

fn has_nan(words: &[u32]) -> bool {
    words.iter().any(|w| is_nan(*w))
}

/// Live points by place; a block grows while the next point starts at or before its end.
pub fn compact(m: &mut Lent, met: &mut Met) {
    let s = shape(m);
    let mut live: Vec<(usize, usize)> = live_indices(m)
        .into_iter()
        .map(|i| (m.location[i] as usize * s.base, i))
        .collect();
    live.sort();
    let mut free = 0;
    let mut blocks = 0;
    let mut rest = &live[..];
    while let Some((start, _)) = rest.first() {
        let mut end = start + s.dimensions;
        let mut points = 1;
        while points < rest.len() && rest[points].0 <= end {
            end = rest[points].0 + s.dimensions;
            points += 1;
        }
        if s.rotation {
            let zeros = s.dimensions.wrapping_sub(free).wrapping_add(*start) % s.dimensions;
            let zeros = if mutant::is("no-zeros-before-a-block") {
                0
            } else {
                zeros
            };
            m.store[free..free + zeros].fill(0);
            free += zeros;
            if zeros > 0 {
                met.push("rotating zeros");
            }
        }
        m.store.copy_within(*start..end, free);
        for (from, index) in &rest[..points] {
            let place = (free + from - start) / s.base;
            if place != m.location[*index] as usize {
                met.push("a compaction that moved");
            }
            if !mutant::is("compaction-leaves-old-places") {
                m.location[*index] = place as u16;
            }
        }
        free += end - start;
        rest = &rest[points..];
        blocks += 1;
    }
    met.push("a compaction");
    if blocks > 1 {
        met.push("a compaction of several blocks");
    }
    m.words[FREE_START] = free as u64;
}

/// Entry (i + t) mod dimensions is stored float i.
pub fn copied(m: &Lent, index: usize) -> Vec<u32> {
    let s = shape(m);
    let start = m.location[index] as usize * s.base;
    let turn = if s.rotation && !mutant::is("copy-never-turns") {
        start % s.dimensions
    } else {
        0
    };
    let mut copy = vec![0; s.dimensions];
    for i in 0..s.dimensions {
        copy[(i + turn) % s.dimensions] = m.store[start + i];
    }
    copy
}
