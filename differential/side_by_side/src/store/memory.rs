//! The record's words by name, and the three stacks of free intervals.
use library::store::Lent;

pub const RECORD_WORDS: usize = 39;

pub const DIMENSIONS: usize = 0;
pub const SHINGLE_SIZE: usize = 1;
pub const CAPACITY: usize = 2;
pub const INTERNAL_SHINGLING: usize = 3;
pub const INTERNAL_ROTATION: usize = 4;
pub const STORE_LABELS: usize = 5;
pub const STORE_LENGTH: usize = 6;
pub const FREE_START: usize = 7;
pub const SEQUENCE: usize = 8;
/// The point manager's capacity is the table length.
pub const TABLE_LENGTH: usize = 9;
pub const LABEL_CAPACITY: usize = 11;
pub const SLOT_CAPACITY: usize = 13;
/// From here on one word a class.
pub const CLASSES: usize = 15;

pub const LARGEST_SEQUENCE: u64 = 4_294_967_295;
pub const LARGEST_COUNT: u16 = 65_535;
pub const EMPTY: u16 = 65_535;
pub const NONE: usize = usize::MAX;

#[derive(Clone, Copy, Debug)]
pub struct Shape {
    pub dimensions: usize,
    pub shingle_size: usize,
    pub capacity: usize,
    pub base: usize,
    pub extra: usize,
    pub shingling: bool,
    pub rotation: bool,
    pub labels: bool,
    pub classes: [u8; 24],
}

/// The shape that a record holds; its shingle size is not 0.
pub fn shape(m: &Lent) -> Shape {
    let dimensions = m.words[DIMENSIONS] as usize;
    let base = dimensions / m.words[SHINGLE_SIZE] as usize;
    Shape {
        dimensions,
        shingle_size: m.words[SHINGLE_SIZE] as usize,
        capacity: m.words[CAPACITY] as usize,
        base,
        extra: dimensions - base,
        shingling: m.words[INTERNAL_SHINGLING] == 1,
        rotation: m.words[INTERNAL_ROTATION] == 1,
        labels: m.words[STORE_LABELS] == 1,
        classes: std::array::from_fn(|code| m.words[CLASSES + code] as u8),
    }
}

pub fn word(m: &Lent, which: usize) -> usize {
    m.words[which] as usize
}

/// Whether a point index is in use.
pub fn is_live(m: &Lent, index: usize) -> bool {
    index < word(m, TABLE_LENGTH) && m.reference_count[index] > 0
}

/// Whether a label index is in use.
pub fn is_live_label(m: &Lent, label: usize) -> bool {
    m.words[STORE_LABELS] == 1 && label < word(m, CAPACITY) && m.label_count[label] > 0
}

pub fn live_indices(m: &Lent) -> Vec<usize> {
    (0..word(m, TABLE_LENGTH)).filter(|i| is_live(m, *i)).collect()
}

pub fn live_labels(m: &Lent) -> Vec<usize> {
    (0..word(m, CAPACITY)).filter(|i| is_live_label(m, *i)).collect()
}

/// A manager of the store: its two words (capacity, entries in use) and its stack.
pub struct Stack<'a> {
    pub words: &'a mut [u64],
    pub starts: &'a mut [u16],
    pub ends: &'a mut [u16],
}

pub fn point_stack(m: &mut Lent) -> Stack<'_> {
    Stack {
        words: &mut m.words[TABLE_LENGTH..],
        starts: &mut m.index_starts,
        ends: &mut m.index_ends,
    }
}

pub fn label_stack(m: &mut Lent) -> Stack<'_> {
    Stack {
        words: &mut m.words[LABEL_CAPACITY..],
        starts: &mut m.label_starts,
        ends: &mut m.label_ends,
    }
}

pub fn slot_stack(m: &mut Lent) -> Stack<'_> {
    Stack {
        words: &mut m.words[SLOT_CAPACITY..],
        starts: &mut m.attribute_starts,
        ends: &mut m.attribute_ends,
    }
}

impl Stack<'_> {
    pub fn is_empty(&self) -> bool {
        self.words[1] == 0
    }

    fn top(&self) -> usize {
        self.words[1] as usize - 1
    }

    pub fn push(&mut self, start: usize, end: usize) {
        self.words[1] += 1;
        let top = self.top();
        self.starts[top] = start as u16;
        self.ends[top] = end as u16;
    }

    /// As a new manager has it.
    pub fn open(&mut self, capacity: usize) {
        self.words[0] = capacity as u64;
        self.words[1] = 0;
        self.push(0, capacity - 1);
    }

    /// A change of capacity.
    pub fn change(&mut self, capacity: usize) {
        let old = self.words[0] as usize;
        if capacity > old {
            self.words[0] = capacity as u64;
            self.push(old, capacity - 1);
        }
    }

    /// Get: the stack is not empty.
    pub fn get(&mut self) -> usize {
        let top = self.top();
        let index = self.starts[top];
        if index == self.ends[top] {
            self.words[1] -= 1;
        } else {
            self.starts[top] = index + 1;
        }
        index as usize
    }

    pub fn release(&mut self, index: usize) {
        if !self.is_empty() {
            let top = self.top();
            if self.starts[top] as usize == index + 1 {
                self.starts[top] = index as u16;
                return;
            }
            if self.ends[top] as usize + 1 == index {
                self.ends[top] = index as u16;
                return;
            }
        }
        self.push(index, index);
    }
}
