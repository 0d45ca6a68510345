//! Breaks one clause of well-formedness of a store, where the store and the random choices allow it.
use super::memory::*;
use library::store::Lent;
use random::Random;

/// A random number below `bound` that has what is asked for, if one in twenty tries has.
fn some(bound: usize, random: &mut Random, has: impl Fn(usize) -> bool) -> Option<usize> {
    (0..20)
        .map(|_| random.below(bound.max(1)))
        .find(|i| *i < bound && has(*i))
}

/// The store with the clause broken; as it was where it cannot be.
pub fn with_broken(clause: &str, mut m: Lent, random: &mut Random) -> Lent {
    let _ = match clause {
        c if c.ends_with(" too short") && c != "record too short" => shorten(c, &mut m, random),
        c if c.ends_with(": more entries than lent") => fill_up(c, &mut m, random),
        c if c.starts_with("points: ") => break_stack(c, &mut point_stack(&mut m), random),
        c if c.starts_with("labels: ") => break_stack(c, &mut label_stack(&mut m), random),
        c if c.starts_with("slots: ") => break_stack(c, &mut slot_stack(&mut m), random),
        c => break_words(c, &mut m, random)
            .or_else(|| break_points(c, &mut m, random))
            .or_else(|| break_labels(c, &mut m, random)),
    };
    m
}

fn shorten(clause: &str, m: &mut Lent, random: &mut Random) -> Option<()> {
    let (dimensions, capacity) = (word(m, DIMENSIONS), word(m, CAPACITY));
    let less = if random.one_in(2) {
        capacity - 1
    } else {
        random.below(capacity)
    };
    match clause {
        "store too short" => m
            .store
            .truncate(capacity * dimensions - 1 - random.below(2).min(capacity * dimensions - 1)),
        "last_known_shingle too short" => m.last_known_shingle.truncate(random.below(dimensions)),
        "reference_count too short" => m.reference_count.truncate(less),
        "location too short" => m.location.truncate(less),
        "index_starts too short" => m.index_starts.truncate(less),
        "index_ends too short" => m.index_ends.truncate(less),
        "labels too short" => m.labels.truncate(less),
        "label_attributes too short" => m.label_attributes.truncate(less),
        "label_count too short" => m.label_count.truncate(less),
        "label_starts too short" => m.label_starts.truncate(less),
        "label_ends too short" => m.label_ends.truncate(less),
        "attributes too short" => m.attributes.truncate(less),
        "attribute_count too short" => m.attribute_count.truncate(less),
        "attribute_starts too short" => m.attribute_starts.truncate(less),
        _ => m.attribute_ends.truncate(less),
    }
    Some(())
}

/// The intervals of one manager. A store's other clauses must still hold, so an interval is added or given another start, and
/// no index becomes free or stops being so.
fn break_stack(clause: &str, stack: &mut Stack<'_>, random: &mut Random) -> Option<()> {
    let (capacity, n) = (stack.words[0] as usize, stack.words[1] as usize);
    let lent = stack.starts.len().min(stack.ends.len());
    match clause.split_once(": ")?.1 {
        _ if n >= lent => return None,
        "a start above its end" => {
            let end = random.below(capacity);
            stack.push(random.within(end, capacity - 1), end);
        }
        "an index not below the capacity" => {
            let start = random.within(capacity, 65_535);
            stack.push(start, random.within(start, 65_535));
        }
        _ if n > 0 => {
            let of = random.below(n);
            let (start, end) = (stack.starts[of] as usize, stack.ends[of] as usize);
            let twice = random.within(start, end);
            stack.push(twice, random.within(twice, end));
        }
        _ => return None,
    }
    Some(())
}

/// Every index free, each an interval of its own, on a stack as long as the capacity, and more entries claimed: all other
/// clauses hold of the entries that are there.
fn fill_up(clause: &str, m: &mut Lent, random: &mut Random) -> Option<()> {
    let capacity = word(m, CAPACITY);
    if clause.starts_with("points") {
        m.words[TABLE_LENGTH] = capacity as u64;
        m.reference_count[..capacity].fill(0);
        m.location[..capacity].fill(EMPTY);
    } else if m.words[STORE_LABELS] == 1 {
        m.label_count[..capacity].fill(0);
        m.attribute_count[..capacity].fill(0);
        label_stack(m).open(capacity);
        slot_stack(m).open(capacity);
    } else {
        return None;
    }
    let (starts, ends, in_use) = match clause {
        "points: more entries than lent" => (&mut m.index_starts, &mut m.index_ends, TABLE_LENGTH + 1),
        "labels: more entries than lent" => (&mut m.label_starts, &mut m.label_ends, LABEL_CAPACITY + 1),
        _ => (&mut m.attribute_starts, &mut m.attribute_ends, SLOT_CAPACITY + 1),
    };
    for i in 0..capacity {
        starts[i] = i as u16;
        ends[i] = i as u16;
    }
    if random.one_in(2) {
        starts.truncate(capacity);
    } else {
        ends.truncate(capacity);
    }
    m.words[in_use] = [capacity + 1, 1025, 65_536, 1 << 32, NONE][random.below(5)] as u64;
    Some(())
}

fn break_words(clause: &str, m: &mut Lent, random: &mut Random) -> Option<()> {
    let w = &mut m.words;
    let (dimensions, capacity) = (w[DIMENSIONS], w[CAPACITY]);
    let big = |random: &mut Random, least: u64| match random.below(3) {
        0 => least,
        1 => least + random.below(10) as u64,
        _ => random.number().max(least),
    };
    match clause {
        "record too short" => w.truncate(random.below(RECORD_WORDS)),
        "shingling flag above 1" => w[INTERNAL_SHINGLING] = big(random, 2),
        "rotation flag above 1" => w[INTERNAL_ROTATION] = big(random, 2),
        "labels flag above 1" => w[STORE_LABELS] = big(random, 2),
        "sequence above 4,294,967,295" => w[SEQUENCE] = big(random, LARGEST_SEQUENCE + 1),
        "a class above 255" => w[CLASSES + random.below(24)] = big(random, 256),
        "a class above 9" => w[CLASSES + random.below(24)] = random.within(10, 255) as u64,
        "a class from 0 to the largest used is missing" => w[CLASSES + random.below(24)] = random.below(10) as u64,
        "dimensions 0" => w[DIMENSIONS] = 0,
        "dimensions above 64" => w[DIMENSIONS] = w[SHINGLE_SIZE] * big(random, 65).min(u64::MAX / w[SHINGLE_SIZE]),
        "shingle size 0" => w[SHINGLE_SIZE] = 0,
        "shingle size does not divide dimensions" => w[SHINGLE_SIZE] = big(random, 2),
        "capacity 0" => w[CAPACITY] = 0,
        "capacity above 1,024" => w[CAPACITY] = big(random, 1025),
        "capacity x dimensions above 16,384" => {
            w[DIMENSIONS] = w[SHINGLE_SIZE] * (64 / w[SHINGLE_SIZE]);
            w[CAPACITY] = random.within(16_384 / w[DIMENSIONS] as usize + 1, 1024) as u64
        }
        "table length 0" => w[TABLE_LENGTH] = 0,
        "table length above the capacity" => w[TABLE_LENGTH] = big(random, capacity + 1),
        "store length above capacity x dimensions" => w[STORE_LENGTH] = big(random, capacity * dimensions + 1),
        "label manager's capacity is not the store's" => w[LABEL_CAPACITY] = any_but(capacity, random),
        "slot manager's capacity is not the store's" => w[SLOT_CAPACITY] = any_but(capacity, random),
        "free start is no multiple of base" => {
            let most = w[STORE_LENGTH].max(w[FREE_START]) as usize;
            w[FREE_START] = random.within(w[FREE_START] as usize, most) as u64
        }
        "free start above 0 and below dimensions" => {
            w[FREE_START] = dimensions / w[SHINGLE_SIZE] * random.below(w[SHINGLE_SIZE] as usize) as u64
        }
        "free start above the store length" => {
            let base = dimensions / w[SHINGLE_SIZE];
            w[FREE_START] = (w[STORE_LENGTH] / base + 1)
                .max(w[SHINGLE_SIZE])
                .max(big(random, 1) / base)
                * base
        }
        _ => return None,
    }
    Some(())
}

fn any_but(number: u64, random: &mut Random) -> u64 {
    let other = [0, 1, 1024, 1025, number + 1, number - 1, random.number()][random.below(7)];
    if other == number {
        number + 1
    } else {
        other
    }
}

fn break_points(clause: &str, m: &mut Lent, random: &mut Random) -> Option<()> {
    let s = shape(m);
    let table = word(m, TABLE_LENGTH);
    let free_start = word(m, FREE_START);
    let count = random.within(1, 65_535) as u16;
    let dead = some(table, random, |i| m.reference_count[i] == 0);
    let live = some(table, random, |i| m.reference_count[i] > 0);
    let places = if free_start == 0 {
        0
    } else {
        (free_start - s.dimensions) / s.base + 1
    };
    let unused = some(places, random, |p| !m.location[..table].contains(&(p as u16))).map(|p| p as u16);
    match clause {
        "a free index has a count and a place" => {
            m.reference_count[dead?] = count;
            m.location[dead?] = unused?;
        }
        "a free index has a count" => m.reference_count[dead?] = count,
        "a free index has a place" => m.location[dead?] = unused.unwrap_or(random.below(65_535) as u16),
        "an index that is not free has neither count nor place" => {
            m.reference_count[live?] = 0;
            m.location[live?] = EMPTY;
        }
        "an index that is not free has no count" => m.reference_count[live?] = 0,
        "an index that is not free has no place" => m.location[live?] = EMPTY,
        "two live points share a place" => {
            let other = some(table, random, |i| m.reference_count[i] > 0 && Some(i) != live)?;
            m.location[live?] = m.location[other];
        }
        "a live row ends past the free start" => {
            m.location[live?] = match random.below(3) {
                0 => places as u16,
                1 => random.within(places, 65_534) as u16,
                _ => 65_534,
            };
        }
        _ => return None,
    }
    Some(())
}

fn break_labels(clause: &str, m: &mut Lent, random: &mut Random) -> Option<()> {
    if m.words[STORE_LABELS] == 0 {
        return None;
    }
    let capacity = word(m, CAPACITY);
    let count = random.within(1, 65_535) as u16;
    let live = some(capacity, random, |l| m.label_count[l] > 0);
    let dead = some(capacity, random, |l| m.label_count[l] == 0);
    let live_slot = some(capacity, random, |k| m.attribute_count[k] > 0);
    let dead_slot = some(capacity, random, |k| m.attribute_count[k] == 0);
    match clause {
        // The label's slot has to count it, or another clause would be broken as well.
        "a free label has a count" => {
            let (label, like) = (dead?, live?);
            m.labels[label] = m.labels[like];
            m.label_attributes[label] = m.label_attributes[like];
            m.label_count[label] = count;
            m.attribute_count[m.label_attributes[like] as usize] += count as u32;
        }
        "a label that is not free has no count" => {
            let label = live?;
            let slot = m.label_attributes[label] as usize;
            m.attribute_count[slot] -= m.label_count[label] as u32;
            m.label_count[label] = 0;
        }
        "a free slot has a count" => {
            // A live class moves to a slot that is free; its own is given back.
            move_slot(m, live_slot?, dead_slot?);
            slot_stack(m).release(live_slot?);
        }
        "a slot that is not free has no count" => {
            // A slot taken from the stack and given no class.
            if slot_stack(m).is_empty() {
                return None;
            }
            slot_stack(m).get();
        }
        "a live label's code is above 23" => m.labels[live?] = random.within(24, 255) as u8,
        "a live label's slot does not hold its class" => match random.below(3) {
            0 => m.attributes[live_slot?] = random.below(256) as u8,
            1 => m.labels[live?] = random.below(24) as u8,
            _ => {
                let label = live?;
                let slot = m.label_attributes[label] as usize;
                let count = m.label_count[label] as u32;
                if m.attribute_count[slot] == count {
                    return None;
                }
                m.attribute_count[slot] -= count;
                m.label_attributes[label] = random.within(capacity, 65_535) as u16;
            }
        },
        "two live slots hold one class" => {
            // One of a class's labels moves to a slot of its own.
            let (label, new) = (live?, dead_slot?);
            let (old, count) = (m.label_attributes[label] as usize, m.label_count[label] as u32);
            if m.attribute_count[old] == count || !take_from_stack(&mut slot_stack(m), new) {
                return None;
            }
            m.attribute_count[old] -= count;
            m.attribute_count[new] = count;
            m.attributes[new] = m.attributes[old];
            m.label_attributes[label] = new as u16;
        }
        "a slot's count is not the sum of its labels' counts" => {
            let slot = live_slot?;
            m.attribute_count[slot] = match random.below(3) {
                0 => m.attribute_count[slot].wrapping_add(1),
                1 => m.attribute_count[slot].wrapping_add(65_536),
                _ => random.number() as u32,
            };
        }
        _ => return None,
    }
    Some(())
}

fn move_slot(m: &mut Lent, from: usize, to: usize) {
    for l in 0..word(m, CAPACITY) {
        if m.label_count[l] > 0 && m.label_attributes[l] as usize == from {
            m.label_attributes[l] = to as u16;
        }
    }
    m.attributes[to] = m.attributes[from];
    m.attribute_count[to] = m.attribute_count[from];
    m.attribute_count[from] = 0;
}

/// Takes a free index off wherever it stands at the start or the end of an interval.
fn take_from_stack(stack: &mut Stack<'_>, index: usize) -> bool {
    let n = stack.words[1] as usize;
    for k in 0..n {
        let (start, end) = (stack.starts[k] as usize, stack.ends[k] as usize);
        if start == index && end > index {
            stack.starts[k] += 1;
            return true;
        }
        if end == index && start < index {
            stack.ends[k] -= 1;
            return true;
        }
        if start == index && end == index {
            stack.starts[k] = stack.starts[n - 1];
            stack.ends[k] = stack.ends[n - 1];
            stack.words[1] -= 1;
            return true;
        }
    }
    false
}
