//! Document 01's well-formedness of a store, clause by clause in its order: the names of those that are broken.
use super::classes::{has_gap, table};
use super::memory::*;
use crate::mutant;
use library::store::Lent;

/// Every clause that can be broken, and so has to be met broken alone.
pub const CLAUSES: [&str; 66] = [
    "record too short",
    "shingling flag above 1",
    "rotation flag above 1",
    "labels flag above 1",
    "sequence above 4,294,967,295",
    "a class above 255",
    "a class above 9",
    "a class from 0 to the largest used is missing",
    "dimensions 0",
    "dimensions above 64",
    "shingle size 0",
    "shingle size does not divide dimensions",
    "capacity 0",
    "capacity above 1,024",
    "capacity x dimensions above 16,384",
    "table length 0",
    "table length above the capacity",
    "store length above capacity x dimensions",
    "label manager's capacity is not the store's",
    "slot manager's capacity is not the store's",
    "store too short",
    "last_known_shingle too short",
    "reference_count too short",
    "location too short",
    "index_starts too short",
    "index_ends too short",
    "labels too short",
    "label_attributes too short",
    "label_count too short",
    "label_starts too short",
    "label_ends too short",
    "attributes too short",
    "attribute_count too short",
    "attribute_starts too short",
    "attribute_ends too short",
    "points: more entries than lent",
    "points: a start above its end",
    "points: an index not below the capacity",
    "points: an index in two intervals",
    "labels: more entries than lent",
    "labels: a start above its end",
    "labels: an index not below the capacity",
    "labels: an index in two intervals",
    "slots: more entries than lent",
    "slots: a start above its end",
    "slots: an index not below the capacity",
    "slots: an index in two intervals",
    "free start is no multiple of base",
    "free start above 0 and below dimensions",
    "free start above the store length",
    "a free index has a count and a place",
    "a free index has a count",
    "a free index has a place",
    "an index that is not free has neither count nor place",
    "an index that is not free has no count",
    "an index that is not free has no place",
    "two live points share a place",
    "a live row ends past the free start",
    "a free label has a count",
    "a label that is not free has no count",
    "a free slot has a count",
    "a slot that is not free has no count",
    "a live label's code is above 23",
    "a live label's slot does not hold its class",
    "two live slots hold one class",
    "a slot's count is not the sum of its labels' counts",
];

/// Broken clauses under their names in `CLAUSES`.
#[derive(Default)]
pub struct Broken(pub Vec<&'static str>);

impl Broken {
    fn note(&mut self, clause: &'static str, is_broken: bool) {
        if is_broken && !self.0.contains(&clause) {
            self.0.push(clause);
        }
    }
}

pub fn is_well_formed(m: &Lent) -> bool {
    broken(m).is_empty()
}

/// A clause is looked at only where those that it rests on hold: record, bounds, lengths, then the rest.
pub fn broken(m: &Lent) -> Vec<&'static str> {
    let mut b = Broken::default();
    record(m, &mut b);
    if b.0.is_empty() {
        bounds(m, &mut b);
    }
    if b.0.is_empty() {
        lengths(m, &mut b);
    }
    if b.0.is_empty() {
        points(m, &mut b);
        if m.words[STORE_LABELS] == 1 {
            labels(m, &mut b);
        }
    }
    b.0
}

fn record(m: &Lent, b: &mut Broken) {
    if m.words.len() < RECORD_WORDS {
        return b.note("record too short", true);
    }
    b.note("shingling flag above 1", m.words[INTERNAL_SHINGLING] > 1);
    b.note("rotation flag above 1", m.words[INTERNAL_ROTATION] > 1);
    b.note("labels flag above 1", m.words[STORE_LABELS] > 1);
    b.note("sequence above 4,294,967,295", m.words[SEQUENCE] > LARGEST_SEQUENCE);
    let table = table(m);
    let largest = table.iter().copied().max().unwrap_or(0);
    b.note("a class above 255", largest > 255);
    b.note("a class above 9", (10..=255).contains(&largest));
    b.note(
        "a class from 0 to the largest used is missing",
        largest <= 9 && has_gap(&table),
    );
}

/// Dimensions 1 to 64, shingle size divides them, capacity 1 to 1,024, capacity x dimensions at most 16,384.
pub fn outside_the_bounds(dimensions: u64, shingle_size: u64, capacity: u64) -> Vec<&'static str> {
    let mut b = Broken::default();
    b.note("dimensions 0", dimensions == 0);
    b.note("dimensions above 64", dimensions > 64);
    b.note("shingle size 0", shingle_size == 0);
    b.note(
        "shingle size does not divide dimensions",
        shingle_size != 0 && dimensions % shingle_size != 0,
    );
    b.note("capacity 0", capacity == 0);
    b.note("capacity above 1,024", capacity > 1024);
    b.note(
        "capacity x dimensions above 16,384",
        capacity <= 1024 && dimensions <= 64 && capacity * dimensions > 16_384,
    );
    b.0
}

fn bounds(m: &Lent, b: &mut Broken) {
    let (dimensions, capacity) = (m.words[DIMENSIONS], m.words[CAPACITY]);
    b.0 = outside_the_bounds(dimensions, m.words[SHINGLE_SIZE], capacity);
    if !b.0.is_empty() {
        return;
    }
    b.note("table length 0", m.words[TABLE_LENGTH] == 0);
    b.note("table length above the capacity", m.words[TABLE_LENGTH] > capacity);
    b.note(
        "store length above capacity x dimensions",
        m.words[STORE_LENGTH] > capacity * dimensions,
    );
    if m.words[STORE_LABELS] == 1 {
        b.note(
            "label manager's capacity is not the store's",
            m.words[LABEL_CAPACITY] != capacity,
        );
        b.note(
            "slot manager's capacity is not the store's",
            m.words[SLOT_CAPACITY] != capacity,
        );
    }
}

/// What a store of a shape has to be lent; with labels off nothing for labels and slots.
pub fn too_short(m: &Lent, dimensions: usize, capacity: usize, labels: bool) -> Vec<&'static str> {
    let mut b = Broken::default();
    b.note("store too short", m.store.len() < capacity * dimensions);
    b.note("last_known_shingle too short", m.last_known_shingle.len() < dimensions);
    b.note("reference_count too short", m.reference_count.len() < capacity);
    b.note("location too short", m.location.len() < capacity);
    b.note("index_starts too short", m.index_starts.len() < capacity);
    b.note("index_ends too short", m.index_ends.len() < capacity);
    if labels {
        b.note("labels too short", m.labels.len() < capacity);
        b.note("label_attributes too short", m.label_attributes.len() < capacity);
        b.note("label_count too short", m.label_count.len() < capacity);
        b.note("label_starts too short", m.label_starts.len() < capacity);
        b.note("label_ends too short", m.label_ends.len() < capacity);
        b.note("attributes too short", m.attributes.len() < capacity);
        b.note("attribute_count too short", m.attribute_count.len() < capacity);
        b.note("attribute_starts too short", m.attribute_starts.len() < capacity);
        b.note("attribute_ends too short", m.attribute_ends.len() < capacity);
    }
    b.0
}

fn lengths(m: &Lent, b: &mut Broken) {
    let s = shape(m);
    b.0 = too_short(m, s.dimensions, s.capacity, s.labels);
}

/// One manager's intervals: for each index below its capacity, whether it is free. `names` are its clauses.
fn free_indices(words: &[u64], starts: &[u16], ends: &[u16], names: &[&'static str], b: &mut Broken) -> Vec<bool> {
    let capacity = words[0] as usize;
    let mut free = vec![false; capacity];
    let lent = starts.len().min(ends.len());
    b.note(names[0], words[1] > lent as u64);
    for k in 0..lent.min(words[1] as usize) {
        let (start, end) = (starts[k] as usize, ends[k] as usize);
        b.note(names[1], start > end);
        b.note(names[2], start.max(end) >= capacity);
        if start <= end && end < capacity {
            for is_free in &mut free[start..=end] {
                b.note(names[3], *is_free && !mutant::is("an-index-in-two-free-intervals"));
                *is_free = true;
            }
        }
    }
    free
}

fn points(m: &Lent, b: &mut Broken) {
    let s = shape(m);
    let free_start = word(m, FREE_START);
    b.note("free start is no multiple of base", free_start % s.base != 0);
    b.note(
        "free start above 0 and below dimensions",
        free_start > 0 && free_start < s.dimensions,
    );
    b.note("free start above the store length", free_start > word(m, STORE_LENGTH));
    let free = free_indices(
        &m.words[TABLE_LENGTH..],
        &m.index_starts,
        &m.index_ends,
        &CLAUSES[35..39],
        b,
    );
    let mut places = Vec::new();
    for (i, is_free) in free.iter().enumerate() {
        let (no_count, no_place) = (m.reference_count[i] == 0, m.location[i] == EMPTY);
        match (is_free, no_count, no_place) {
            (true, false, false) => b.note("a free index has a count and a place", true),
            (true, false, true) => b.note("a free index has a count", true),
            (true, true, false) => b.note("a free index has a place", true),
            (false, true, true) => b.note("an index that is not free has neither count nor place", true),
            (false, true, false) => b.note("an index that is not free has no count", true),
            (false, false, true) => b.note("an index that is not free has no place", true),
            (false, false, false) => places.push(m.location[i] as usize),
            (true, true, true) => {}
        }
    }
    b.note(
        "a live row ends past the free start",
        places.iter().any(|p| p * s.base + s.dimensions > free_start) && !mutant::is("a-row-past-the-free-start"),
    );
    places.sort();
    b.note(
        "two live points share a place",
        places.windows(2).any(|two| two[0] == two[1]) && !mutant::is("two-points-at-one-place"),
    );
}

fn labels(m: &Lent, b: &mut Broken) {
    let capacity = word(m, CAPACITY);
    let free = free_indices(
        &m.words[LABEL_CAPACITY..],
        &m.label_starts,
        &m.label_ends,
        &CLAUSES[39..43],
        b,
    );
    for (is_free, count) in free.iter().zip(&m.label_count) {
        b.note("a free label has a count", *is_free && *count > 0);
        b.note("a label that is not free has no count", !*is_free && *count == 0);
    }
    let words = &m.words[SLOT_CAPACITY..];
    let free = free_indices(words, &m.attribute_starts, &m.attribute_ends, &CLAUSES[43..47], b);
    for (is_free, count) in free.iter().zip(&m.attribute_count) {
        b.note("a free slot has a count", *is_free && *count > 0);
        b.note("a slot that is not free has no count", !*is_free && *count == 0);
    }
    let mut sums = vec![0u64; capacity];
    for l in (0..capacity).filter(|l| m.label_count[*l] > 0) {
        let (code, slot) = (m.labels[l] as usize, m.label_attributes[l] as usize);
        b.note("a live label's code is above 23", code > 23);
        let holds = slot < capacity && (code > 23 || m.attributes[slot] as u64 == m.words[CLASSES + code]);
        let held = holds || mutant::is("a-slot-of-another-class") && slot < capacity;
        b.note("a live label's slot does not hold its class", !held);
        if slot < capacity {
            sums[slot] += m.label_count[l] as u64;
        }
    }
    let mut live_classes: Vec<u8> = (0..capacity)
        .filter(|k| m.attribute_count[*k] > 0)
        .map(|k| m.attributes[k])
        .collect();
    live_classes.sort();
    b.note(
        "two live slots hold one class",
        live_classes.windows(2).any(|two| two[0] == two[1]) && !mutant::is("two-slots-of-one-class"),
    );
    let summed = sums
        .iter()
        .zip(&m.attribute_count)
        .all(|(sum, count)| *sum == *count as u64);
    b.note(
        "a slot's count is not the sum of its labels' counts",
        !summed && !mutant::is("a-slot-count-that-is-no-sum"),
    );
}
