//! Bytes to lend for typical shapes, beside what the Rust has allocated for the same shape once it was full and then gave up every
//! second point, its struct included.
use reference::pointstore::PointStore;
use reference::reasons::{Code, BUILT_IN};
use reference::Store;
use std::alloc::{GlobalAlloc, Layout, System};
use std::mem::size_of;
use std::sync::atomic::{AtomicUsize, Ordering::Relaxed};

static ALLOCATED: AtomicUsize = AtomicUsize::new(0);

/// Counts the bytes that are allocated and not given back.
struct Counting;

unsafe impl GlobalAlloc for Counting {
    unsafe fn alloc(&self, layout: Layout) -> *mut u8 {
        ALLOCATED.fetch_add(layout.size(), Relaxed);
        System.alloc(layout)
    }

    unsafe fn dealloc(&self, at: *mut u8, layout: Layout) {
        ALLOCATED.fetch_sub(layout.size(), Relaxed);
        System.dealloc(at, layout)
    }
}

#[global_allocator]
static COUNTING: Counting = Counting;

/// Dimensions, shingle size, capacity.
const SHAPES: [(usize, usize, usize); 5] = [(4, 2, 10), (16, 4, 64), (16, 4, 256), (16, 4, 1024), (64, 8, 256)];

/// Floats and window, four tables of 16 bits, the record's words; with labels six tables of 16 bits, two of 8, one of 32.
fn to_lend((dimensions, _, capacity): (usize, usize, usize), labels: bool) -> usize {
    4 * (capacity + 1) * dimensions + 8 * capacity + 39 * 8 + if labels { 18 * capacity } else { 0 }
}

/// The Rust's store, full and then thinned out.
fn thinned((dimensions, shingle_size, capacity): (usize, usize, usize), labels: bool) -> Store {
    let mut store =
        Store::new(dimensions, shingle_size, capacity, capacity, true, false, labels, false).expect("opening");
    let mut live = Vec::with_capacity(capacity);
    let mut added = 0;
    while live.len() < capacity {
        let point: Vec<f32> = (0..dimensions / shingle_size).map(|i| (7 * added + i) as f32).collect();
        let (index, label, _) = store.add(&point, Code::of(added % 24, &BUILT_IN)).expect("an add");
        added += 1;
        if index != usize::MAX {
            live.push((index, label));
        }
    }
    for (index, label) in live.iter().step_by(2).take(capacity / 2) {
        store.dec(*index, *label).expect("a dec");
    }
    store
}

fn main() {
    println!("| Dimensions / shingle size / capacity | Labels | To lend | The Rust |\n|---|---|---|---|");
    for shape in SHAPES {
        for labels in [false, true] {
            let before = ALLOCATED.load(Relaxed);
            let store = thinned(shape, labels);
            let bytes = ALLOCATED.load(Relaxed) - before + size_of::<Store>();
            drop(store);
            let (dimensions, shingle_size, capacity) = shape;
            let flag = if labels { "on" } else { "off" };
            let lent = to_lend(shape, labels);
            println!("| {dimensions} / {shingle_size} / {capacity} | {flag} | {lent} | {bytes} |");
        }
    }
}
