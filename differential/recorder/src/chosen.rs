//! Which calls are recorded: such as the Rust and document 01 take alike, and errors of the Rust that are refusals there.
use crate::store::{floats, is_compared_as_bits, words, Opening, Recorder, NONE};
use random::Random;
use reference::pointstore::PointStore;

/// Zero, infinities, denormals, the largest floats and two next to each other. No NaN and no −0.0: where rows and compared points
/// hold one the Rust is no yardstick.
const SPECIAL: [u32; 10] = [
    0x0000_0000,
    0x8000_0001,
    0x7f80_0000,
    0xff80_0000,
    0x3f80_0000,
    0x3f80_0001,
    0xff7f_ffff,
    0x0000_0001,
    0x807f_ffff,
    0x7f7f_ffff,
];

const LARGEST_DIMENSIONS: usize = 32;
const LARGEST_CAPACITY: usize = 16;

/// A shape that fits the program's memory, 16 points and 512 floats. The lists go through all dimensions once, then on among
/// small ones, and through all flags.
pub fn any_opening(list: usize, random: &mut Random) -> Opening {
    let dimensions = if list < LARGEST_DIMENSIONS {
        list + 1
    } else {
        random.within(1, 8)
    };
    let divisors: Vec<usize> = (1..=dimensions).filter(|d| dimensions % d == 0).collect();
    let largest = [4, 8, LARGEST_CAPACITY][random.below(3)];
    let capacity = random.within(1, largest);
    let flags = list + list / 8;
    Opening {
        dimensions,
        shingle_size: divisors[random.below(divisors.len())],
        capacity,
        // A start below 5 grows here and not in the Rust, unless it is the capacity.
        initial_capacity: if random.one_in(3) {
            capacity
        } else {
            random.within(capacity.min(5), capacity)
        },
        internal_shingling: flags & 1 == 1,
        internal_rotation: flags & 2 == 2,
        store_labels: flags & 4 == 4,
    }
}

/// What a stretch of a list does most.
pub struct Chooser {
    adds: usize,
    decs: usize,
    special: bool,
}

fn pick(list: &[usize], random: &mut Random) -> usize {
    list[random.below(list.len())]
}

impl Chooser {
    pub fn new(random: &mut Random) -> Self {
        Chooser {
            adds: 40,
            decs: 10,
            special: random.one_in(3),
        }
    }

    fn float(&self, random: &mut Random) -> u32 {
        match self.special {
            true => SPECIAL[random.below(SPECIAL.len())],
            false => (random.below(7) as f32 - 2.0).to_bits(),
        }
    }

    fn row(&self, n: usize, random: &mut Random) -> Vec<u32> {
        (0..n).map(|_| self.float(random)).collect()
    }

    /// The point of an add: without internal shingling mostly a row that begins with the floats before the free start.
    fn point(&self, r: &Recorder, random: &mut Random) -> Vec<u32> {
        let o = r.opening;
        if o.internal_shingling {
            return self.row(o.base(), random);
        }
        let (extra, free_start) = (o.dimensions - o.base(), r.rust.free_start());
        if free_start <= extra || random.one_in(3) {
            return self.row(o.dimensions, random);
        }
        let mut row: Vec<u32> = r.rust.floats()[free_start - extra..free_start]
            .iter()
            .map(|x| x.to_bits())
            .collect();
        row.extend(self.row(o.base(), random));
        row
    }

    pub fn call(&mut self, r: &mut Recorder, random: &mut Random) {
        if random.one_in(25) {
            (self.adds, self.decs) = [(40, 10), (10, 40), (25, 25)][random.below(3)];
        }
        let live: Vec<usize> = (0..r.rust.table_length())
            .filter(|i| r.rust.point_count(*i) > 0)
            .collect();
        let labels: Vec<usize> = (0..r.rust.labels_given())
            .filter(|l| r.rust.label_count(*l) > 0)
            .collect();
        let which = random.below(100);
        if which < self.adds || live.is_empty() {
            let point = self.point(r, random);
            // A full store is drained, lest most adds be refused.
            if !r.add(&point, random.below(24)) {
                (self.adds, self.decs) = (10, 40);
            }
            return;
        }
        let label = |random: &mut Random| {
            if r.opening.store_labels {
                pick(&labels, random)
            } else {
                NONE
            }
        };
        let (index, label) = (pick(&live, random), label(random));
        // Now and then an index that is not in use.
        let past = if random.one_in(10) {
            r.rust.table_length()
        } else {
            index
        };
        if which < self.adds + self.decs {
            r.dec(past, label);
        } else if which < self.adds + self.decs + 6 {
            r.inc(past, label);
        } else if which < self.adds + self.decs + 10 {
            let skipped = [NONE, 0, 0, 0];
            let pairs = [
                skipped,
                [index, label, NONE, NONE],
                [pick(&live, random), label, index, label],
            ];
            match past == index {
                true => r.adjust(&pairs[random.below(2)..]),
                false => r.adjust(&[skipped, skipped, [past, label, index, label]][random.below(3)..]),
            }
        } else if which < self.adds + self.decs + 13 {
            r.compact();
        } else {
            self.reading(r, index, label, &live, random);
        }
    }

    fn reading(&self, r: &mut Recorder, index: usize, label: usize, live: &[usize], random: &mut Random) {
        let o = r.opening;
        // Now and then an index that is not in use.
        let index = if random.one_in(12) {
            r.rust.table_length()
        } else {
            index
        };
        let attributes = o.store_labels && r.slots && !random.one_in(3);
        match if attributes { 11 } else { random.below(12) } {
            0 if index < r.rust.table_length() => {
                let count = r.rust.point_count(index);
                r.line(7, [index, 0], &[], 0, &[count]);
            }
            0..=3 => r.read(6, [index, o.dimensions], &[], 5, |s| s.copy(index), |x| words(&x)),
            4 => {
                let mut point = r.rust.copy(pick(live, random)).expect("an index in use");
                if random.one_in(2) {
                    point[0] = f32::from_bits(self.float(random));
                }
                assert!(point.iter().all(is_compared_as_bits));
                let row = words(&point);
                r.read(
                    8,
                    [index, 0],
                    &row,
                    5,
                    |s| s.is_equal(&point, index),
                    |x| vec![x as usize],
                );
            }
            5 | 6 => {
                let list = [(index, random.below(5)), (pick(live, random), random.below(16_777_217))];
                let list = &list[random.below(2)..];
                let items: Vec<usize> = list.iter().flat_map(|i| [i.0, i.1]).collect();
                r.read(
                    9,
                    [0, o.dimensions],
                    &items,
                    5,
                    |s| s.point_sum(list),
                    |x| sum_words(&x),
                );
            }
            7 => {
                let n = if random.one_in(4) { o.base() + 1 } else { o.base() };
                let point = self.row(n, random);
                let row: Vec<usize> = point.iter().map(|w| *w as usize).collect();
                r.read(
                    10,
                    [0, o.dimensions],
                    &row,
                    3,
                    |s| s.shingled_point(&floats(&point)),
                    |x| words(&x),
                );
            }
            8 => {
                let look_ahead = random.below(65_536);
                let values: Vec<usize> = (0..random.below(4)).map(|_| random.below(o.base() + 1)).collect();
                let arguments = [look_ahead, values.len()];
                r.read(
                    11,
                    arguments,
                    &values,
                    11,
                    |s| s.missing_indices(look_ahead, &values),
                    |x| x,
                );
            }
            9 => {
                let look_ahead = random.below(65_536);
                r.read(
                    12,
                    [look_ahead, o.base()],
                    &[],
                    11,
                    |s| s.next_indices(look_ahead),
                    |x| x,
                );
            }
            _ if !o.store_labels => r.read(13, [0, 0], &[], 6, |s| s.label(0), |x| vec![x.0 as usize]),
            10 => r.read(13, [label, 0], &[], 6, |s| s.label(label), |x| vec![x.0 as usize]),
            _ if !r.slots => r.compact(),
            _ if random.one_in(2) => r.read(14, [label, 0], &[], 6, |s| s.attribute(label), |x| vec![x.0 as usize]),
            _ => r.read(15, [label, 10], &[], 6, |s| s.attribute_vec(label), |x| words(&x)),
        }
    }
}

/// A NaN in a sum matches any NaN: it is written as one.
fn sum_words(sum: &[f32]) -> Vec<usize> {
    sum.iter()
        .map(|x| if x.is_nan() { 0x7fc0_0000 } else { x.to_bits() as usize })
        .collect()
}
