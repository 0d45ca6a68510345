//! The static library's calls: a slice goes over as a pointer and a length.
pub mod classes;
pub mod hold;
pub mod probes;
pub mod store;

mod c {
    extern "C" {
        pub fn ps_manager_new(
            words: *mut u64,
            words_len: usize,
            starts: *mut u16,
            starts_len: usize,
            ends: *mut u16,
            ends_len: usize,
            size: usize,
        ) -> u64;
        pub fn ps_manager_change_capacity(
            words: *mut u64,
            words_len: usize,
            starts: *mut u16,
            starts_len: usize,
            ends: *mut u16,
            ends_len: usize,
            new_capacity: usize,
        ) -> u64;
        pub fn ps_manager_get(
            words: *mut u64,
            words_len: usize,
            starts: *mut u16,
            starts_len: usize,
            ends: *const u16,
            ends_len: usize,
            index: &mut u64,
            free_indices: &mut u64,
        ) -> u64;
        pub fn ps_manager_release(
            words: *mut u64,
            words_len: usize,
            starts: *mut u16,
            starts_len: usize,
            ends: *mut u16,
            ends_len: usize,
            index: usize,
        ) -> u64;
        pub fn ps_manager_used(
            words: *const u64,
            words_len: usize,
            starts: *const u16,
            starts_len: usize,
            ends: *const u16,
            ends_len: usize,
            used: &mut u64,
        ) -> u64;
        pub fn ps_manager_is_empty(
            words: *const u64,
            words_len: usize,
            starts: *const u16,
            starts_len: usize,
            ends: *const u16,
            ends_len: usize,
            empty: &mut u64,
        ) -> u64;
        pub fn ps_manager_get_capacity(
            words: *const u64,
            words_len: usize,
            starts: *const u16,
            starts_len: usize,
            ends: *const u16,
            ends_len: usize,
            capacity: &mut u64,
        ) -> u64;
    }
}

macro_rules! parts {
    ($s:expr) => {
        ($s.as_ptr(), $s.len())
    };
}

macro_rules! parts_mut {
    ($s:expr) => {
        ($s.as_mut_ptr(), $s.len())
    };
}

// Each call below lends slices of Rust's for the call alone. They are valid and do not overlap, which is all that the
// library asks of a caller.

pub fn manager_new(words: &mut [u64], starts: &mut [u16], ends: &mut [u16], size: usize) -> u64 {
    let (w, s, e) = (parts_mut!(words), parts_mut!(starts), parts_mut!(ends));
    unsafe { c::ps_manager_new(w.0, w.1, s.0, s.1, e.0, e.1, size) }
}

pub fn manager_change_capacity(words: &mut [u64], starts: &mut [u16], ends: &mut [u16], new_capacity: usize) -> u64 {
    let (w, s, e) = (parts_mut!(words), parts_mut!(starts), parts_mut!(ends));
    unsafe { c::ps_manager_change_capacity(w.0, w.1, s.0, s.1, e.0, e.1, new_capacity) }
}

pub fn manager_get(
    words: &mut [u64],
    starts: &mut [u16],
    ends: &[u16],
    index: &mut u64,
    free_indices: &mut u64,
) -> u64 {
    let (w, s, e) = (parts_mut!(words), parts_mut!(starts), parts!(ends));
    unsafe { c::ps_manager_get(w.0, w.1, s.0, s.1, e.0, e.1, index, free_indices) }
}

pub fn manager_release(words: &mut [u64], starts: &mut [u16], ends: &mut [u16], index: usize) -> u64 {
    let (w, s, e) = (parts_mut!(words), parts_mut!(starts), parts_mut!(ends));
    unsafe { c::ps_manager_release(w.0, w.1, s.0, s.1, e.0, e.1, index) }
}

pub fn manager_used(words: &[u64], starts: &[u16], ends: &[u16], used: &mut u64) -> u64 {
    let (w, s, e) = (parts!(words), parts!(starts), parts!(ends));
    unsafe { c::ps_manager_used(w.0, w.1, s.0, s.1, e.0, e.1, used) }
}

pub fn manager_is_empty(words: &[u64], starts: &[u16], ends: &[u16], empty: &mut u64) -> u64 {
    let (w, s, e) = (parts!(words), parts!(starts), parts!(ends));
    unsafe { c::ps_manager_is_empty(w.0, w.1, s.0, s.1, e.0, e.1, empty) }
}

pub fn manager_get_capacity(words: &[u64], starts: &[u16], ends: &[u16], capacity: &mut u64) -> u64 {
    let (w, s, e) = (parts!(words), parts!(starts), parts!(ends));
    unsafe { c::ps_manager_get_capacity(w.0, w.1, s.0, s.1, e.0, e.1, capacity) }
}
