//! Well-formed stores that need not come from any list of calls: places, counts, stacks and labels chosen at random.
use super::classes::table_of;
use super::guess::any_float;
use super::lent::{any_opening, rubbish_for, Bounds};
use super::memory::*;
use library::store::{Lent, Opening};
use random::Random;

pub fn shuffle<T>(list: &mut [T], random: &mut Random) {
    for k in (1..list.len()).rev() {
        list.swap(k, random.below(k + 1));
    }
}

/// So many numbers below `bound`, in any order.
fn chosen(how_many: usize, bound: usize, random: &mut Random) -> Vec<usize> {
    let mut all: Vec<usize> = (0..bound).collect();
    shuffle(&mut all, random);
    all.truncate(how_many);
    all
}

fn any_count(random: &mut Random) -> u16 {
    match random.below(8) {
        0 => LARGEST_COUNT,
        1 => LARGEST_COUNT - 1,
        2 => random.within(1, 65_535) as u16,
        _ => random.within(1, 3) as u16,
    }
}

/// Intervals of exactly the numbers with count 0, cut and ordered at random.
fn fill_stack(stack: &mut Stack<'_>, is_free: &[bool], random: &mut Random) {
    let mut intervals: Vec<(usize, usize)> = Vec::new();
    for i in (0..is_free.len()).filter(|i| is_free[*i]) {
        match intervals.last_mut() {
            Some((_, end)) if *end + 1 == i && !random.one_in(4) => *end = i,
            _ => intervals.push((i, i)),
        }
    }
    shuffle(&mut intervals, random);
    stack.words[0] = is_free.len() as u64;
    stack.words[1] = 0;
    for (start, end) in intervals {
        stack.push(start, end);
    }
}

fn fill_points(m: &mut Lent, o: Opening, random: &mut Random) {
    let base = o.dimensions / o.shingle_size;
    let table = random.within(1, o.capacity);
    let length = match random.below(3) {
        0 => o.capacity * o.dimensions,
        _ => random.below(o.capacity * o.dimensions + 1),
    };
    let rows = if length < o.dimensions {
        0
    } else {
        (length - o.dimensions) / base + 1
    };
    let free_start = match rows {
        0 => 0,
        _ if random.one_in(8) => 0,
        _ if random.one_in(2) => (rows - 1) * base + o.dimensions,
        _ => random.below(rows) * base + o.dimensions,
    };
    let places = if free_start == 0 {
        0
    } else {
        (free_start - o.dimensions) / base + 1
    };
    let most = table.min(places);
    let live = if random.one_in(3) { most } else { random.below(most + 1) };
    m.words[STORE_LENGTH] = length as u64;
    m.words[FREE_START] = free_start as u64;
    m.reference_count[..table].fill(0);
    m.location[..table].fill(EMPTY);
    for (index, place) in chosen(live, table, random)
        .into_iter()
        .zip(chosen(live, places, random))
    {
        m.reference_count[index] = any_count(random);
        m.location[index] = place as u16;
    }
    let is_free: Vec<bool> = m.reference_count[..table].iter().map(|c| *c == 0).collect();
    fill_stack(&mut point_stack(m), &is_free, random);
}

fn fill_labels(m: &mut Lent, capacity: usize, random: &mut Random) {
    let slots = chosen(capacity.min(10), capacity, random);
    let live = if random.one_in(3) {
        capacity
    } else {
        random.below(capacity + 1)
    };
    m.label_count[..capacity].fill(0);
    m.attribute_count[..capacity].fill(0);
    for label in chosen(live, capacity, random) {
        let code = random.below(24);
        // Ten classes and fewer slots: those classes alone that have one.
        let class = word(m, CLASSES + code);
        let of_zero = (0..24).find(|k| m.words[CLASSES + k] == 0).unwrap_or(0);
        let (code, class) = if class < slots.len() {
            (code, class)
        } else {
            (of_zero, 0)
        };
        m.labels[label] = code as u8;
        m.label_attributes[label] = slots[class] as u16;
        m.label_count[label] = any_count(random);
        m.attributes[slots[class]] = class as u8;
        m.attribute_count[slots[class]] += m.label_count[label] as u32;
    }
    let is_free: Vec<bool> = m.label_count[..capacity].iter().map(|c| *c == 0).collect();
    fill_stack(&mut label_stack(m), &is_free, random);
    let is_free: Vec<bool> = m.attribute_count[..capacity].iter().map(|c| *c == 0).collect();
    fill_stack(&mut slot_stack(m), &is_free, random);
}

pub fn any_store(bounds: Bounds, random: &mut Random) -> Lent {
    let o = any_opening(bounds, random);
    let mut m = rubbish_for(o, random.below(3), random);
    m.words[DIMENSIONS] = o.dimensions as u64;
    m.words[SHINGLE_SIZE] = o.shingle_size as u64;
    m.words[CAPACITY] = o.capacity as u64;
    m.words[INTERNAL_SHINGLING] = o.internal_shingling as u64;
    m.words[INTERNAL_ROTATION] = o.internal_rotation as u64;
    m.words[STORE_LABELS] = o.store_labels as u64;
    let table = table_of(o.class_text.bytes()).expect("a text that opening takes");
    m.words[CLASSES..RECORD_WORDS].copy_from_slice(&table);
    m.words[SEQUENCE] = match random.below(6) {
        0 => LARGEST_SEQUENCE,
        1 => LARGEST_SEQUENCE - 1 - random.below(4) as u64,
        2 => random.number() >> 32,
        _ => random.below(2 * o.shingle_size + 2) as u64,
    };
    let floats = random.below(4);
    for word in m.store.iter_mut().chain(&mut m.last_known_shingle) {
        *word = any_float(floats, random);
    }
    fill_points(&mut m, o, random);
    if o.store_labels == 1 {
        fill_labels(&mut m, o.capacity, random);
    }
    m
}
