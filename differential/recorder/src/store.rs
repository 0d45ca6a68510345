//! Calls of the Rust's store and its answers. One call to a line: call, two arguments, how many numbers it takes and these,
//! value, how many numbers it answers and these, and after the call free start and live number (differential/README.md has the
//! list of calls). All numbers are decimal and have at most ten digits: a float is its 32 bits, a NaN in a sum is 2143289344,
//! none is 9999999999.
use crate::chosen::{any_opening, Chooser};
use random::Random;
use reference::pointstore::PointStore;
use reference::reasons::{Code, BUILT_IN};
use reference::Store;
use std::panic::{catch_unwind, AssertUnwindSafe};

pub const NONE: usize = usize::MAX;

/// The file is no larger than what the program that replays it reads.
const LARGEST_FILE: usize = 524_288;
const LISTS: usize = 112;
const CALLS_EACH: usize = 70;

#[derive(Clone, Copy)]
pub struct Opening {
    pub dimensions: usize,
    pub shingle_size: usize,
    pub capacity: usize,
    pub initial_capacity: usize,
    pub internal_shingling: bool,
    pub internal_rotation: bool,
    pub store_labels: bool,
}

impl Opening {
    pub fn base(&self) -> usize {
        self.dimensions / self.shingle_size
    }
}

pub struct Recorder {
    pub opening: Opening,
    pub rust: Store,
    /// Whether no slot's count has reached 0 yet: from then on the Rust's attributes are not document 01's.
    pub slots: bool,
    pub lines: String,
    /// Whether the Rust panicked, as it does where document 01 has 10.
    pub ended: bool,
}

pub fn words(floats: &[f32]) -> Vec<usize> {
    floats.iter().map(|x| x.to_bits() as usize).collect()
}

pub fn floats(words: &[u32]) -> Vec<f32> {
    words.iter().map(|w| f32::from_bits(*w)).collect()
}

/// Whether float `==` says the same of this float as its bits: it is no NaN and not −0.0.
pub fn is_compared_as_bits(float: &f32) -> bool {
    !float.is_nan() && float.to_bits() != (-0.0f32).to_bits()
}

impl Recorder {
    pub fn opened(o: Opening) -> Self {
        let rust = Store::new(
            o.dimensions,
            o.shingle_size,
            o.capacity,
            o.initial_capacity,
            o.internal_shingling,
            o.internal_rotation,
            o.store_labels,
            false,
        );
        let mut recorder = Recorder {
            opening: o,
            rust: rust.expect("opening has no error"),
            slots: true,
            lines: String::new(),
            ended: false,
        };
        let flags = [o.internal_shingling, o.internal_rotation, o.store_labels].map(|f| f as usize);
        let shape = [o.dimensions, o.shingle_size, o.capacity, o.initial_capacity];
        recorder.line(0, [0, 0], &[&shape[..], &flags].concat(), 0, &[]);
        recorder
    }

    /// A call, its two arguments and the numbers that it takes, what it returned and its answers.
    pub fn line(&mut self, call: usize, arguments: [usize; 2], taken: &[usize], value: usize, answers: &[usize]) {
        let mut numbers = vec![call, arguments[0], arguments[1], taken.len()];
        numbers.extend(taken);
        numbers.extend([value, answers.len()]);
        numbers.extend(answers);
        numbers.extend([self.rust.free_start(), self.rust.index_manager().used()]);
        let shown: Vec<String> = numbers
            .iter()
            .map(|n| match *n {
                NONE => "9999999999".to_string(),
                n => n.to_string(),
            })
            .collect();
        self.lines += &shown.join(" ");
        self.lines.push('\n');
    }

    /// Where the next row would be laid: after the compaction that an add makes first, if it does.
    fn free_for_a_row(&self) -> usize {
        let free_start = self.rust.free_start();
        if free_start + self.opening.dimensions <= self.rust.floats().len() {
            return free_start;
        }
        let mut compacted = self.rust.clone();
        compacted.compact().expect("compaction has no error here");
        compacted.free_start()
    }

    /// Whether the Rust takes it. Its errors are document 01's 8, where no label is free, and 9. They are got from a copy,
    /// because the Rust keeps partial changes.
    pub fn add(&mut self, point: &[u32], code: usize) -> bool {
        assert!(floats(point).iter().all(is_compared_as_bits));
        let row: Vec<usize> = point.iter().map(|w| *w as usize).collect();
        let from = self.free_for_a_row();
        let mut next = self.rust.clone();
        let added = catch_unwind(AssertUnwindSafe(|| next.add(&floats(point), Code::of(code, &BUILT_IN))));
        let Ok(added) = added else {
            self.ended = true;
            return false;
        };
        let is_taken = added.is_ok();
        match added {
            Ok((index, label_index, _)) => {
                self.rust = next;
                let mut answers = vec![(index != NONE) as usize];
                if index != NONE {
                    let base = self.opening.base();
                    let joined = self.opening.shingle_size > 1 && self.rust.free_start() == from + base;
                    answers.extend([index, label_index, joined as usize, self.rust.places()[index] as usize]);
                }
                self.line(1, [code, 0], &row, 0, &answers);
            }
            Err(_) if self.opening.store_labels && self.rust.label_manager().is_empty() => {
                self.line(1, [code, 0], &row, 8, &[]);
            }
            Err(_) => self.line(1, [code, 0], &row, 9, &[]),
        }
        is_taken
    }

    /// Of an index past the table, the Rust's error is document 01's 5; it leaves nothing behind.
    pub fn inc(&mut self, index: usize, label: usize) {
        let value = if self.rust.inc(index, label).is_ok() { 0 } else { 5 };
        assert!(value == 0 || index >= self.rust.table_length());
        self.line(2, [index, label], &[], value, &[]);
    }

    /// Of an index that is not in use, the Rust's error is document 01's 5; it leaves nothing behind.
    pub fn dec(&mut self, index: usize, label: usize) {
        let is_free = index >= self.rust.table_length() || self.rust.point_count(index) == 0;
        let value = if self.rust.dec(index, label).is_ok() { 0 } else { 5 };
        assert!((value == 5) == is_free);
        self.watch_slots();
        self.line(3, [index, label], &[], value, &[]);
    }

    /// As for inc: where it is refused, all pairs but the last are skipped ones.
    pub fn adjust(&mut self, pairs: &[[usize; 4]]) {
        let list: Vec<_> = pairs.iter().map(|p| ((p[0], p[1]), (p[2], p[3]))).collect();
        let taken = self.rust.adjust_count(&list).is_ok();
        let before = pairs.len() - 1;
        assert!(taken || pairs[..before].iter().all(|p| p[0] == NONE) && pairs[before][0] >= self.rust.table_length());
        self.watch_slots();
        match taken {
            true => self.line(4, [0, 0], &pairs.concat(), 0, &[]),
            false => self.line(4, [0, 0], &pairs.concat(), 5, &[before]),
        }
    }

    fn watch_slots(&mut self) {
        let n = self.rust.classes().len();
        self.slots = self.slots && (0..n).all(|k| self.rust.slot_count(k) > 0);
    }

    pub fn compact(&mut self) {
        self.rust.compact().expect("compaction has no error here");
        self.line(5, [0, 0], &[], 0, &[]);
    }

    /// A reading: the Rust's one error has the given number in document 01.
    pub fn read<T>(
        &mut self,
        call: usize,
        arguments: [usize; 2],
        taken: &[usize],
        refusal: usize,
        made: impl Fn(&Store) -> reference::types::Result<T>,
        answers: impl Fn(T) -> Vec<usize>,
    ) {
        match made(&self.rust) {
            Ok(answer) => self.line(call, arguments, taken, 0, &answers(answer)),
            Err(_) => self.line(call, arguments, taken, refusal, &[]),
        }
    }
}

/// The file's lines. Every list begins with an opening.
pub fn recorded() -> String {
    std::panic::set_hook(Box::new(|_| {}));
    let mut random = Random::new(5);
    let mut lines = String::new();
    for list in 0..LISTS {
        let mut recorder = Recorder::opened(any_opening(list, &mut random));
        let mut chooser = Chooser::new(&mut random);
        for _ in 1..CALLS_EACH {
            if !recorder.ended {
                chooser.call(&mut recorder, &mut random);
            }
        }
        lines += &recorder.lines;
    }
    assert!(lines.len() <= LARGEST_FILE);
    lines
}
