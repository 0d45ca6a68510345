//! The hold's calls over what a caller lends: its record's 41 words, of which the first 39 are the store's, the
//! store's fifteen slices, and two tables more.
use crate::store::{lend, prototypes, Added, Lent, Opening};

#[derive(Clone, Debug, Default, PartialEq)]
pub struct LentHold {
    /// Its words are the hold's: a call of the store sees the first 39.
    pub store: Lent,
    pub held_indices: Vec<u16>,
    pub held_labels: Vec<u16>,
}

prototypes! {
    ps_hold_open(
        held_indices: *mut u16,
        held_indices_len: usize,
        held_labels: *mut u16,
        held_labels_len: usize,
        class_text: *const u8,
        class_text_len: usize,
        dimensions: usize,
        shingle_size: usize,
        capacity: usize,
        initial_capacity: usize,
        internal_shingling: usize,
        internal_rotation: usize,
        store_labels: usize,
        width: usize
    );
    ps_hold_add(
        held_indices: *mut u16,
        held_indices_len: usize,
        held_labels: *mut u16,
        held_labels_len: usize,
        point: *const u32,
        point_len: usize,
        label: usize,
        kept: &mut u64,
        index: &mut u64,
        label_index: &mut u64,
        joined: &mut u64,
        place: &mut u64,
        free_indices: &mut u64
    );
    ps_hold_held(
        held_indices: *mut u16,
        held_indices_len: usize,
        held_labels: *mut u16,
        held_labels_len: usize,
        out: *mut u16,
        out_len: usize
    );
    ps_hold_number(
        held_indices: *mut u16,
        held_indices_len: usize,
        held_labels: *mut u16,
        held_labels_len: usize,
        number: &mut u64
    );
}

macro_rules! lend_hold {
    ($hold:ident, $call:ident($($argument:expr),* $(,)?)) => {{
        let LentHold { store, held_indices, held_labels } = $hold;
        lend!(
            store,
            $call(
                held_indices.as_mut_ptr(),
                held_indices.len(),
                held_labels.as_mut_ptr(),
                held_labels.len(),
                $($argument),*
            )
        )
    }};
}

impl LentHold {
    pub fn open(&mut self, o: Opening, width: usize) -> u64 {
        lend_hold!(
            self,
            ps_hold_open(
                o.class_text.bytes().as_ptr(),
                o.class_text.bytes().len(),
                o.dimensions,
                o.shingle_size,
                o.capacity,
                o.initial_capacity,
                o.internal_shingling,
                o.internal_rotation,
                o.store_labels,
                width,
            )
        )
    }

    pub fn add(&mut self, point: &[u32], label: usize, a: &mut Added) -> u64 {
        lend_hold!(
            self,
            ps_hold_add(
                point.as_ptr(),
                point.len(),
                label,
                &mut a.kept,
                &mut a.index,
                &mut a.label_index,
                &mut a.joined,
                &mut a.place,
                &mut a.free_indices,
            )
        )
    }

    pub fn held(&mut self, out: &mut [u16]) -> u64 {
        lend_hold!(self, ps_hold_held(out.as_mut_ptr(), out.len()))
    }

    pub fn number(&mut self, number: &mut u64) -> u64 {
        lend_hold!(self, ps_hold_number(number))
    }
}
