//! The product's calls over what a caller lends: its record's 47 words, of which the first 39 are the store's, and the store's
//! fifteen slices.
use crate::store::{lend, prototypes, Added, Lent, Opening};

prototypes! {
    ps_probes_open(
        class_text: *const u8,
        class_text_len: usize,
        dimensions: usize,
        shingle_size: usize,
        capacity: usize,
        initial_capacity: usize,
        internal_shingling: usize,
        internal_rotation: usize,
        store_labels: usize
    );
    ps_probes_set(
        kinds: *const u8,
        kinds_len: usize,
        floats: *const u32,
        floats_len: usize,
        label: usize,
        kept: &mut u64,
        index: &mut u64,
        label_index: &mut u64,
        joined: &mut u64,
        place: &mut u64,
        free_indices: &mut u64
    );
    ps_probes_tallies(out: *mut u32, out_len: usize);
}

impl Lent {
    pub fn probes_open(&mut self, o: Opening) -> u64 {
        lend!(
            self,
            ps_probes_open(
                o.class_text.bytes().as_ptr(),
                o.class_text.bytes().len(),
                o.dimensions,
                o.shingle_size,
                o.capacity,
                o.initial_capacity,
                o.internal_shingling,
                o.internal_rotation,
                o.store_labels,
            )
        )
    }

    pub fn probes_set(&mut self, kinds: &[u8], floats: &[u32], label: usize, a: &mut Added) -> u64 {
        lend!(
            self,
            ps_probes_set(
                kinds.as_ptr(),
                kinds.len(),
                floats.as_ptr(),
                floats.len(),
                label,
                &mut a.kept,
                &mut a.index,
                &mut a.label_index,
                &mut a.joined,
                &mut a.place,
                &mut a.free_indices,
            )
        )
    }

    pub fn probes_tallies(&mut self, out: &mut [u32]) -> u64 {
        lend!(self, ps_probes_tallies(out.as_mut_ptr(), out.len()))
    }
}
