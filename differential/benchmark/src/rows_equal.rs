//! A row compared, beside `memcmp` of the same length. No call of the library compares rows and does nothing else, so two calls are
//! timed that differ in the comparison alone, on a store of one point of the largest dimensions, where the check is shortest; the
//! difference is the comparison's.
use crate::timed::both;
use library::store::{Lent, Opening};
use std::ffi::{c_int, c_void};
use std::hint::black_box;

const DIMENSIONS: usize = 64;
const TURNS: usize = 20_000;

extern "C" {
    fn memcmp(a: *const c_void, b: *const c_void, bytes: usize) -> c_int;
}

pub struct Compared {
    pub what: &'static str,
    pub here: f64,
    pub there: f64,
}

fn row() -> Vec<u32> {
    (0..DIMENSIONS).map(|k| (40.0 + k as f32).to_bits()).collect()
}

fn stored() -> Lent {
    let mut lent = Lent {
        words: vec![0; 39],
        store: vec![0; DIMENSIONS],
        last_known_shingle: vec![0; DIMENSIONS],
        reference_count: vec![0],
        location: vec![0],
        index_starts: vec![0],
        index_ends: vec![0],
        ..Lent::default()
    };
    assert_eq!(lent.open(Opening::with_flags([DIMENSIONS, 1, 1, 1], 0)), 0);
    assert_eq!(lent.add(&row(), 0, &mut crate::sides::nothing_added()), 0);
    lent
}

fn asked(lent: &mut Lent, point: &[u32], owed: (u64, u64)) {
    for _ in 0..TURNS {
        let mut equal = 2;
        let value = lent.is_equal(0, black_box(point), &mut equal);
        assert_eq!((value, equal), owed);
    }
}

/// Nanoseconds by which an is_equal of the row itself is longer than one of a point of a wrong length, which is not compared.
fn of_rows() -> f64 {
    let lent = stored();
    let (whole, refused) = both(
        TURNS,
        || (lent.clone(), lent.clone()),
        |lent| asked(lent, &row(), (0, 1)),
        |lent| asked(lent, &row()[1..], (3, 2)),
    );
    whole - refused
}

fn in_c(a: &[u32], b: &[u32]) {
    for _ in 0..TURNS {
        let (a, b) = (black_box(a), black_box(b));
        // Both have all of their bytes.
        black_box(unsafe { memcmp(a.as_ptr().cast(), b.as_ptr().cast(), size_of_val(a)) });
    }
}

fn of_memcmp() -> f64 {
    both(TURNS, || ((row(), row()), ()), |(a, b)| in_c(a, b), |()| ()).0
}

pub fn compared() -> Compared {
    Compared {
        what: "64 floats: is_equal less one refused for its length, to memcmp",
        here: of_rows(),
        there: of_memcmp(),
    }
}
