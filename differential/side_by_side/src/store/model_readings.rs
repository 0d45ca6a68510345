//! The calls that only read.
use super::call::{Call, Returned};
use super::memory::*;
use super::model_rows::{copied, rows_equal};
use crate::mutant;
use library::store::Lent;

const LARGEST_LOOK_AHEAD: usize = 65_535;
const LARGEST_WEIGHT: usize = 16_777_216;

pub fn read(call: &Call, m: &Lent, r: &mut Returned) -> u64 {
    match call {
        Call::Copy { index, .. } => copy(m, *index, &mut r.words),
        Call::Count(index) if !is_live(m, *index) => 5,
        Call::Count(index) => answer(r, m.reference_count[*index] as u64),
        Call::LiveNumber => answer(r, live_indices(m).len() as u64),
        Call::FreeStart => answer(r, m.words[FREE_START]),
        Call::IsEqual { index, point } => is_equal(m, *index, point, r),
        Call::PointSum { items, .. } => point_sum(m, items, &mut r.words),
        Call::ShingledPoint { point, .. } => shingled_point(m, point, &mut r.words),
        Call::MissingIndices { look_ahead, values, .. } => missing_indices(m, *look_ahead, values, &mut r.list),
        Call::NextIndices { look_ahead, .. } => {
            let values: Vec<usize> = (0..shape(m).base).collect();
            missing_indices(m, *look_ahead, &values, &mut r.list)
        }
        Call::Label(label) | Call::Attribute(label) | Call::AttributeVec { label, .. } if !is_live_label(m, *label) => {
            6
        }
        Call::Label(label) => answer(r, m.labels[*label] as u64),
        Call::Attribute(label) => answer(r, m.attributes[m.label_attributes[*label] as usize] as u64),
        Call::AttributeVec { label, .. } => attribute_vec(m, *label, &mut r.words),
        _ => unreachable!("a call that writes"),
    }
}

fn answer(r: &mut Returned, number: u64) -> u64 {
    r.numbers[0] = number;
    0
}

fn copy(m: &Lent, index: usize, out: &mut [u32]) -> u64 {
    if !is_live(m, index) {
        return 5;
    }
    if out.len() != shape(m).dimensions {
        return 3;
    }
    out.copy_from_slice(&copied(m, index));
    0
}

fn is_equal(m: &Lent, index: usize, point: &[u32], r: &mut Returned) -> u64 {
    if !is_live(m, index) {
        return 5;
    }
    if point.len() != shape(m).dimensions {
        return 3;
    }
    let equal = rows_equal(&copied(m, index), point, "equality-by-float-equality");
    answer(r, equal as u64)
}

fn point_sum(m: &Lent, items: &[[usize; 2]], out: &mut [u32]) -> u64 {
    let s = shape(m);
    if out.len() != s.dimensions {
        return 3;
    }
    for [index, weight] in items {
        if !is_live(m, *index) {
            return 5;
        }
        if *weight > LARGEST_WEIGHT {
            return 11;
        }
    }
    let mut sum = vec![0.0f32; s.dimensions];
    for [index, weight] in items {
        let start = m.location[*index] as usize * s.base;
        let stored = &m.store[start..start + s.dimensions];
        let turned = copied(m, *index);
        let row = if mutant::is("turned-rows-in-a-sum") {
            &turned[..]
        } else {
            stored
        };
        for (x, y) in sum.iter_mut().zip(row) {
            let scaled = f32::from_bits(*y) * *weight as f32;
            *x += scaled;
        }
    }
    for (word, x) in out.iter_mut().zip(sum) {
        *word = x.to_bits();
    }
    0
}

fn shingled_point(m: &Lent, point: &[u32], out: &mut [u32]) -> u64 {
    let s = shape(m);
    let preview = point.len() == s.base && s.shingle_size > 1;
    let wrong = if preview {
        !s.shingling
    } else {
        point.len() != s.dimensions
    };
    if wrong || out.len() != s.dimensions {
        return 3;
    }
    let window = &m.last_known_shingle[..s.dimensions];
    if !preview {
        out.copy_from_slice(point);
    } else if s.rotation {
        let over = (word(m, SEQUENCE) * s.base) % s.dimensions;
        out.copy_from_slice(window);
        out[over..over + s.base].copy_from_slice(point);
    } else {
        out[..s.extra].copy_from_slice(&window[s.base..]);
        out[s.extra..].copy_from_slice(point);
    }
    0
}

fn missing_indices(m: &Lent, look_ahead: usize, values: &[usize], out: &mut [usize]) -> u64 {
    let s = shape(m);
    let bound = if s.shingling { s.base } else { s.dimensions };
    if out.len() != values.len() {
        return 3;
    }
    if look_ahead > LARGEST_LOOK_AHEAD || values.iter().any(|v| *v >= bound) {
        return 11;
    }
    let ahead = if mutant::is("look-ahead-is-dropped") {
        0
    } else {
        look_ahead
    };
    for (index, v) in out.iter_mut().zip(values) {
        *index = match (s.shingling, s.rotation) {
            (false, _) => *v,
            (true, false) => s.extra + v,
            (true, true) => ((word(m, SEQUENCE) + ahead) * s.base + v) % s.dimensions,
        };
    }
    0
}

fn attribute_vec(m: &Lent, label: usize, out: &mut [u32]) -> u64 {
    if out.len() != 10 {
        return 3;
    }
    let slot = m.label_attributes[label] as usize;
    let one = if mutant::is("one-hot-at-the-class") {
        m.attributes[slot] as usize
    } else {
        slot
    };
    out.fill(0);
    out[one % 10] = 1.0f32.to_bits();
    0
}
