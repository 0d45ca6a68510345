//! What is timed.
use crate::c_loop;
use crate::sides::*;
use crate::timed::both;
use library::store::Opening;
use reference::pointstore::PointStore;
use reference::reasons::{Code, BUILT_IN};
use std::collections::VecDeque;
use std::hint::black_box;

/// One line of the table: nanoseconds here, and in the Rust or, for the check, in C.
pub struct Row {
    pub what: &'static str,
    pub capacity: usize,
    pub labels: bool,
    pub here: f64,
    pub there: f64,
}

const TURNS: usize = 2_000;

fn taken(value: u64) {
    assert_eq!(value, 0, "a call that is timed");
}

fn steady(capacity: usize, labels: bool) -> (f64, f64) {
    let filled = Sides::filled(opening(capacity, labels), capacity * 3 / 4);
    let live: VecDeque<(usize, usize)> = filled.live.iter().copied().collect();
    let points: Vec<[f32; BASE]> = (0..TURNS).map(|k| point(capacity + k)).collect();
    let as_words: Vec<Vec<u32>> = points.iter().map(|p| words(p)).collect();
    both(
        TURNS,
        || ((filled.lent.clone(), live.clone()), (filled.rust.clone(), live.clone())),
        |(lent, live)| {
            for (k, point) in as_words.iter().enumerate() {
                let mut a = nothing_added();
                taken(lent.add(point, k % 24, &mut a));
                live.push_back((a.index as usize, a.label_index as usize));
                let (index, label) = live.pop_front().expect("a live point");
                taken(lent.dec(index, label));
            }
        },
        |(rust, live)| {
            for (k, point) in points.iter().enumerate() {
                let (index, label, _) = rust.add(point, Code::of(k % 24, &BUILT_IN)).expect("an add");
                live.push_back((index, label));
                let (index, label) = live.pop_front().expect("a live point");
                rust.dec(index, label).expect("a dec");
            }
        },
    )
}

/// A hold add with the list full, beside the Rust's add and its dec of the oldest.
fn hold_add(capacity: usize, labels: bool) -> (f64, f64) {
    let width = capacity * 3 / 4;
    let filled = Sides::filled(opening(capacity, labels), width);
    let live: VecDeque<(usize, usize)> = filled.live.iter().copied().collect();
    let hold = filled_hold(capacity, labels, width);
    let points: Vec<[f32; BASE]> = (0..TURNS).map(|k| point(capacity + k)).collect();
    let as_words: Vec<Vec<u32>> = points.iter().map(|p| words(p)).collect();
    both(
        TURNS,
        || (hold.clone(), (filled.rust.clone(), live.clone())),
        |hold| {
            for (k, point) in as_words.iter().enumerate() {
                let mut a = nothing_added();
                taken(hold.add(point, k % 24, &mut a));
                black_box(a);
            }
        },
        |(rust, live)| {
            for (k, point) in points.iter().enumerate() {
                let (index, label, _) = rust.add(point, Code::of(k % 24, &BUILT_IN)).expect("an add");
                live.push_back((index, label));
                let (index, label) = live.pop_front().expect("a live point");
                rust.dec(index, label).expect("a dec");
            }
        },
    )
}

fn inc_and_dec(full: &Sides) -> (f64, f64) {
    let pairs: Vec<(usize, usize)> = (0..TURNS).map(|k| full.live[k % full.live.len()]).collect();
    both(
        TURNS,
        || (full.lent.clone(), full.rust.clone()),
        |lent| {
            for (index, label) in &pairs {
                taken(lent.inc(*index, *label));
                taken(lent.dec(*index, *label));
            }
        },
        |rust| {
            for (index, label) in &pairs {
                rust.inc(*index, *label).expect("an inc");
                rust.dec(*index, *label).expect("a dec");
            }
        },
    )
}

fn copy(full: &Sides) -> (f64, f64) {
    let mut out = vec![0; DIMENSIONS];
    both(
        TURNS,
        || (full.lent.clone(), full.rust.clone()),
        |lent| {
            for k in 0..TURNS {
                taken(lent.copy(full.live[k % full.live.len()].0, &mut out));
                black_box(&out);
            }
        },
        |rust| {
            for k in 0..TURNS {
                black_box(rust.copy(full.live[k % full.live.len()].0).expect("a copy"));
            }
        },
    )
}

fn is_equal(full: &Sides) -> (f64, f64) {
    let rows: Vec<Vec<f32>> = full
        .live
        .iter()
        .map(|(index, _)| full.rust.copy(*index).expect("a copy"))
        .collect();
    let as_words: Vec<Vec<u32>> = rows.iter().map(|row| words(row)).collect();
    both(
        TURNS,
        || (full.lent.clone(), full.rust.clone()),
        |lent| {
            for k in 0..TURNS {
                let at = k % full.live.len();
                let mut equal = 0;
                taken(lent.is_equal(full.live[at].0, &as_words[at], &mut equal));
                assert_eq!(equal, 1);
            }
        },
        |rust| {
            for k in 0..TURNS {
                let at = k % full.live.len();
                assert!(rust.is_equal(&rows[at], full.live[at].0).expect("a comparison"));
            }
        },
    )
}

fn point_sum(full: &Sides) -> (f64, f64) {
    const SUMS: usize = 40;
    let list: Vec<(usize, usize)> = (0..1000)
        .map(|k| (full.live[k % full.live.len()].0, 1 + k % 7))
        .collect();
    let items: Vec<[usize; 2]> = list.iter().map(|(index, weight)| [*index, *weight]).collect();
    let mut out = vec![0.0; DIMENSIONS];
    let times = both(
        SUMS,
        || (full.lent.clone(), full.rust.clone()),
        |lent| (0..SUMS).for_each(|_| taken(lent.point_sum(&items, &mut out))),
        |rust| {
            for _ in 0..SUMS {
                black_box(rust.point_sum(&list).expect("a sum"));
            }
        },
    );
    assert_eq!(full.rust.point_sum(&list).expect("a sum"), out);
    times
}

fn compaction(o: Opening) -> (f64, f64) {
    const STORES: usize = 40;
    let fragmented = Sides::fragmented(o);
    both(
        STORES,
        || {
            (
                vec![fragmented.lent.clone(); STORES],
                vec![fragmented.rust.clone(); STORES],
            )
        },
        |stores| stores.iter_mut().for_each(|lent| taken(lent.compact())),
        |stores| stores.iter_mut().for_each(|rust| rust.compact().expect("a compaction")),
    )
}

fn opening_again(capacity: usize, labels: bool) -> (f64, f64) {
    const OPENINGS: usize = 200;
    let o = opening(capacity, labels);
    both(
        OPENINGS,
        || (lent(capacity, labels), ()),
        |lent| (0..OPENINGS).for_each(|_| taken(lent.open(o))),
        |()| {
            for _ in 0..OPENINGS {
                black_box(rust_opened(black_box(o)));
            }
        },
    )
}

/// A reading that does nothing but check, against a loop in C that reads the same tables.
fn check(full: &Sides) -> (f64, f64) {
    both(
        TURNS,
        || (full.lent.clone(), full.lent.clone()),
        |lent| {
            for _ in 0..TURNS {
                let mut number = 0;
                taken(lent.free_start(&mut number));
                black_box(number);
            }
        },
        |lent| {
            for _ in 0..TURNS {
                black_box(c_loop::read(black_box(lent)));
            }
        },
    )
}

pub const CHECK: &str = "check, to a C loop";

/// Everything at one capacity.
pub fn rows(capacity: usize, labels: bool) -> Vec<Row> {
    let full = Sides::filled(opening(capacity, labels), capacity);
    let row = |what, (here, there): (f64, f64)| Row {
        what,
        capacity,
        labels,
        here,
        there,
    };
    vec![
        row("add and dec", steady(capacity, labels)),
        row("hold add, to add and dec", hold_add(capacity, labels)),
        row("inc and dec", inc_and_dec(&full)),
        row("copy", copy(&full)),
        row("is_equal", is_equal(&full)),
        row("sum of 1,000", point_sum(&full)),
        row("compaction", compaction(opening(capacity, labels))),
        row("compaction, rotating", compaction(rotating(capacity, labels))),
        row("opening", opening_again(capacity, labels)),
        row(CHECK, check(&Sides::fragmented(opening(capacity, labels)))),
    ]
}
