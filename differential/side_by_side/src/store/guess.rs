//! Calls chosen at random with a store in view: mostly such as document 01 takes, some of every kind that it refuses.
use super::call::Call;
use super::memory::*;
use super::model_rows::{copied, is_nan};
use super::rust_side::compares_otherwise;
use crate::mutant;
use library::store::Lent;
use random::Random;

/// Floats that are easily taken for others.
const SPECIAL: [u32; 20] = [
    0x0000_0000, // 0.0
    0x8000_0000, // -0.0
    0x3f80_0000, // 1.0
    0xbf80_0000, // -1.0
    0x7f80_0000, // infinity
    0xff80_0000, // -infinity
    0x7fc0_0000, // a NaN
    0x7fc0_0001, // with a payload
    0xffc1_2345, // with a sign and a payload
    0x7f80_0001, // signaling
    0xffbf_ffff, // signaling, with a sign
    0x7fff_ffff, // every payload bit
    0x0000_0001, // the smallest denormal
    0x8000_0001,
    0x007f_ffff, // the largest denormal
    0x0080_0000, // the smallest normal
    0x7f7f_ffff, // the largest float
    0xff7f_ffff,
    0x3f80_0001, // next to 1.0
    0x4b80_0000, // 16,777,216.0
];

/// What a stretch of a list does most.
#[derive(Clone, Copy, Debug)]
pub enum Mood {
    Fill,
    Drain,
    Mixed,
}

#[derive(Clone, Copy, Debug)]
pub struct Taste {
    pub mood: Mood,
    /// Which floats: 0 zeros and ones, 1 small numbers, 2 special ones, 3 any bits.
    pub floats: usize,
    /// Whether NaNs and −0.0 are among them: where one is added the Rust is no yardstick any more.
    pub zeros_and_nans: bool,
    /// One call in so many is made to be refused.
    pub refused_in: usize,
}

pub fn any_taste(random: &mut Random) -> Taste {
    Taste {
        mood: [Mood::Fill, Mood::Fill, Mood::Drain, Mood::Mixed][random.below(4)],
        floats: random.below(4),
        zeros_and_nans: random.one_in(2),
        refused_in: [6, 12, 40][random.below(3)],
    }
}

impl Taste {
    /// Another one, for the same list: without NaNs and −0.0 where it had none.
    pub fn changed(self, random: &mut Random) -> Taste {
        Taste {
            zeros_and_nans: self.zeros_and_nans,
            ..any_taste(random)
        }
    }

    pub fn float(self, random: &mut Random) -> u32 {
        self.allowed(any_float(self.floats, random))
    }

    fn special(self, random: &mut Random) -> u32 {
        self.allowed(any_float(2, random))
    }

    /// In place of a NaN a large float, in place of −0.0 the denormal next to it.
    fn allowed(self, word: u32) -> u32 {
        match word {
            _ if self.zeros_and_nans || !compares_otherwise(word) => word,
            0x8000_0000 => 0x8000_0001,
            nan => nan ^ 1 << 23,
        }
    }

    /// One float is another one: a zero or a NaN perhaps of the other sign.
    fn changes_one(self, point: &mut [u32], random: &mut Random) {
        if point.is_empty() {
            return;
        }
        let at = random.below(point.len());
        let is_zero_or_nan = point[at] << 1 == 0 || is_nan(point[at]);
        point[at] = if is_zero_or_nan && self.zeros_and_nans && random.below(4) > 0 {
            point[at] ^ 1 << 31
        } else {
            self.special(random)
        };
    }
}

pub fn any_float(floats: usize, random: &mut Random) -> u32 {
    match floats {
        0 => [0, 0x8000_0000, 0x3f80_0000][random.below(3)],
        1 => (random.below(9) as f32 - 4.0).to_bits(),
        2 if mutant::is("harness-knows-no-special-floats") => any_float(1, random),
        2 => SPECIAL[random.below(SPECIAL.len())],
        _ => random.number() as u32,
    }
}

fn floats_of(n: usize, taste: Taste, random: &mut Random) -> Vec<u32> {
    (0..n).map(|_| taste.float(random)).collect()
}

/// A number that a caller may pass by mistake: small, near a limit, or any.
pub fn any_number(random: &mut Random) -> usize {
    match random.below(4) {
        0 => random.below(8),
        1 => [
            23,
            24,
            255,
            256,
            1023,
            1024,
            1025,
            16_384,
            65_535,
            65_536,
            16_777_216,
            16_777_217,
            0xffff_ffff,
            1 << 32,
            1 << 63,
            NONE,
        ][random.below(16)],
        2 => random.below(1100),
        _ => random.number() as usize,
    }
}

fn pick(list: &[usize], random: &mut Random) -> usize {
    match list.len() {
        0 => random.below(3),
        n => list[random.below(n)],
    }
}

/// A point index, in use if there is one.
fn live_index(m: &Lent, random: &mut Random) -> usize {
    let table = word(m, TABLE_LENGTH);
    let from = random.below(table);
    let each = (from..table).chain(0..from);
    each.into_iter().find(|i| m.reference_count[*i] > 0).unwrap_or(from)
}

fn live_label(m: &Lent, random: &mut Random) -> usize {
    let capacity = word(m, CAPACITY);
    if m.words[STORE_LABELS] == 0 {
        return NONE;
    }
    let from = random.below(capacity);
    let each = (from..capacity).chain(0..from);
    each.into_iter().find(|l| m.label_count[*l] > 0).unwrap_or(from)
}

fn bad_index(m: &Lent, random: &mut Random) -> usize {
    let table = word(m, TABLE_LENGTH);
    let dead: Vec<usize> = (0..table).filter(|i| m.reference_count[*i] == 0).collect();
    match random.below(4) {
        0 => table + random.below(3),
        1 => any_number(random).max(table),
        _ => pick(&dead, random),
    }
}

fn bad_label(m: &Lent, random: &mut Random) -> usize {
    let capacity = word(m, CAPACITY);
    if m.words[STORE_LABELS] == 0 {
        return any_number(random);
    }
    let dead: Vec<usize> = (0..capacity).filter(|l| m.label_count[*l] == 0).collect();
    match random.below(4) {
        0 => capacity + random.below(3),
        1 => any_number(random).max(capacity),
        _ => pick(&dead, random),
    }
}

fn wrong_length(right: usize, s: Shape, random: &mut Random) -> usize {
    let wrong = [0, 1, right - 1, right + 1, s.base, s.dimensions, 10, 64][random.below(8)];
    if wrong == right {
        right + 1
    } else {
        wrong
    }
}

/// A row whose first floats are those before the free start, but perhaps for one.
fn overlapping(m: &Lent, taste: Taste, random: &mut Random) -> Vec<u32> {
    let s = shape(m);
    let free_start = word(m, FREE_START);
    let mut point = m.store[free_start - s.extra..free_start].to_vec();
    if random.one_in(4) {
        taste.changes_one(&mut point, random);
    }
    point.extend(floats_of(s.base, taste, random));
    point
}

pub fn add(m: &Lent, taste: Taste, refused: bool, random: &mut Random) -> Call {
    let s = shape(m);
    let n = if s.shingling { s.base } else { s.dimensions };
    let mut label = random.below(24);
    let mut point = floats_of(n, taste, random);
    if !s.shingling && word(m, FREE_START) > s.extra && random.below(3) < 2 {
        point = overlapping(m, taste, random);
    }
    if refused && random.one_in(2) {
        point = floats_of(wrong_length(n, s, random), taste, random);
    } else if refused {
        label = any_number(random).max(24);
    }
    Call::Add { point, label }
}

fn counts(m: &Lent, call: fn(usize, usize) -> Call, refused: bool, random: &mut Random) -> Call {
    let (index, label) = (live_index(m, random), live_label(m, random));
    match (refused, random.below(3)) {
        (true, 0) => call(bad_index(m, random), label),
        (true, 1) => call(index, bad_label(m, random)),
        (true, _) => call(bad_index(m, random), bad_label(m, random)),
        _ => call(index, label),
    }
}

fn adjust(m: &Lent, refused: bool, random: &mut Random) -> Call {
    let n = random.below(6);
    let mut pairs: Vec<[usize; 4]> = (0..n)
        .map(|_| {
            let insert = if random.one_in(5) { NONE } else { live_index(m, random) };
            let delete = if random.one_in(4) { NONE } else { live_index(m, random) };
            [insert, live_label(m, random), delete, live_label(m, random)]
        })
        .collect();
    if refused && n > 0 {
        let bad = random.below(n);
        let pair = &mut pairs[bad];
        match random.below(4) {
            0 => pair[0] = bad_index(m, random),
            1 => pair[1] = bad_label(m, random),
            2 => pair[2] = bad_index(m, random),
            _ => pair[3] = bad_label(m, random),
        }
    }
    Call::Adjust(pairs)
}

fn point_sum(m: &Lent, refused: bool, random: &mut Random) -> Call {
    let s = shape(m);
    let mut items: Vec<[usize; 2]> = (0..random.below(6))
        .map(|_| {
            let weight = [random.below(4), 16_777_216, random.below(16_777_217), 1][random.below(4)];
            [live_index(m, random), weight]
        })
        .collect();
    let mut out = s.dimensions;
    if refused {
        for item in &mut items {
            match random.below(6) {
                0 => item[0] = bad_index(m, random),
                1 => item[1] = any_number(random).max(16_777_217),
                _ => {}
            }
        }
        if random.one_in(3) {
            out = wrong_length(out, s, random);
        }
    }
    Call::PointSum { items, out }
}

fn is_equal(m: &Lent, taste: Taste, refused: bool, random: &mut Random) -> Call {
    let s = shape(m);
    let index = if refused && random.one_in(2) {
        bad_index(m, random)
    } else {
        live_index(m, random)
    };
    let mut point = floats_of(s.dimensions, taste, random);
    if is_live(m, index) && random.below(4) > 0 {
        point = copied(m, index);
        if random.one_in(2) {
            taste.changes_one(&mut point, random);
        }
    }
    if refused {
        point.resize(wrong_length(s.dimensions, s, random), 0);
    }
    Call::IsEqual { index, point }
}

fn index_list(m: &Lent, refused: bool, random: &mut Random) -> Call {
    let s = shape(m);
    let bound = if s.shingling { s.base } else { s.dimensions };
    let mut look_ahead = [0, 1, random.below(10), random.below(65_536), 65_535][random.below(5)];
    let mut values: Vec<usize> = (0..random.below(5)).map(|_| random.below(bound)).collect();
    let next = random.one_in(3);
    let mut out = if next { s.base } else { values.len() };
    if refused {
        match random.below(4) {
            0 => look_ahead = any_number(random).max(65_536),
            1 if !values.is_empty() => {
                let at = random.below(values.len());
                values[at] = any_number(random).max(bound);
            }
            2 => out = wrong_length(out + 1, s, random),
            _ => {}
        }
    }
    if next {
        Call::NextIndices { look_ahead, out }
    } else {
        Call::MissingIndices {
            look_ahead,
            values,
            out,
        }
    }
}

fn preview(m: &Lent, taste: Taste, refused: bool, random: &mut Random) -> Call {
    let s = shape(m);
    let n = if s.shingling && random.below(3) > 0 {
        s.base
    } else {
        s.dimensions
    };
    let (mut given, mut out) = (n, s.dimensions);
    if refused && random.one_in(2) {
        given = wrong_length(n, s, random);
    } else if refused {
        out = wrong_length(out, s, random);
    }
    Call::ShingledPoint {
        point: floats_of(given, taste, random),
        out,
    }
}

fn label_reading(m: &Lent, refused: bool, random: &mut Random) -> Call {
    let bad = refused && random.below(3) > 0;
    let label = if bad {
        bad_label(m, random)
    } else {
        live_label(m, random)
    };
    match random.below(3) {
        0 => Call::Label(label),
        1 => Call::Attribute(label),
        _ if refused && random.one_in(2) => Call::AttributeVec {
            label,
            out: random.below(20),
        },
        _ => Call::AttributeVec { label, out: 10 },
    }
}

pub fn reading(m: &Lent, taste: Taste, refused: bool, random: &mut Random) -> Call {
    let s = shape(m);
    match random.below(12) {
        0 => Call::LiveNumber,
        1 => Call::FreeStart,
        2 if refused => Call::Count(bad_index(m, random)),
        2 => Call::Count(live_index(m, random)),
        3 | 4 => {
            let index = if refused && random.one_in(2) {
                bad_index(m, random)
            } else {
                live_index(m, random)
            };
            let out = if refused && random.one_in(2) {
                wrong_length(s.dimensions, s, random)
            } else {
                s.dimensions
            };
            Call::Copy { index, out }
        }
        5 => is_equal(m, taste, refused, random),
        6 | 7 => point_sum(m, refused, random),
        8 => preview(m, taste, refused, random),
        9 | 10 => index_list(m, refused, random),
        _ => label_reading(m, refused, random),
    }
}

/// A call on a well-formed store.
pub fn any_call(m: &Lent, taste: Taste, random: &mut Random) -> Call {
    let refused = random.one_in(taste.refused_in);
    // Of 100: adds, incs, decs, adjusts, compactions; the rest are readings.
    let (adds, incs, decs) = match taste.mood {
        Mood::Fill => (55, 6, 8),
        Mood::Drain => (6, 4, 60),
        Mood::Mixed => (25, 10, 25),
    };
    let which = random.below(100);
    if which < adds {
        add(m, taste, refused, random)
    } else if which < adds + incs {
        counts(m, Call::Inc, refused, random)
    } else if which < adds + incs + decs {
        counts(m, Call::Dec, refused, random)
    } else if which < adds + incs + decs + 4 {
        adjust(m, refused, random)
    } else if which < adds + incs + decs + 6 && !mutant::is("harness-never-compacts") {
        Call::Compact
    } else {
        reading(m, taste, refused, random)
    }
}
