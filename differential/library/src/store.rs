//! The store's calls over what a caller lends: the record's words and fifteen slices.
use crate::classes::ClassText;

#[derive(Clone, Debug, Default, PartialEq)]
pub struct Lent {
    pub words: Vec<u64>,
    pub store: Vec<u32>,
    pub last_known_shingle: Vec<u32>,
    pub reference_count: Vec<u16>,
    pub location: Vec<u16>,
    pub index_starts: Vec<u16>,
    pub index_ends: Vec<u16>,
    pub labels: Vec<u8>,
    pub label_attributes: Vec<u16>,
    pub label_count: Vec<u16>,
    pub label_starts: Vec<u16>,
    pub label_ends: Vec<u16>,
    pub attributes: Vec<u8>,
    pub attribute_count: Vec<u32>,
    pub attribute_starts: Vec<u16>,
    pub attribute_ends: Vec<u16>,
}

/// What an add answers: the last five only where it is kept.
#[derive(Clone, Copy, Debug)]
pub struct Added {
    pub kept: u64,
    pub index: u64,
    pub label_index: u64,
    pub joined: u64,
    pub place: u64,
    pub free_indices: u64,
}

/// The numbers and the text that open a store.
#[derive(Clone, Copy, Debug, Default, PartialEq)]
pub struct Opening {
    pub dimensions: usize,
    pub shingle_size: usize,
    pub capacity: usize,
    pub initial_capacity: usize,
    pub internal_shingling: usize,
    pub internal_rotation: usize,
    pub store_labels: usize,
    pub class_text: ClassText,
}

impl Opening {
    /// A shape (dimensions, shingle size, capacity, starting capacity) with internal shingling, rotation and labels as the three
    /// lowest bits of `flags` have them.
    pub fn with_flags(shape: [usize; 4], flags: usize) -> Self {
        let [dimensions, shingle_size, capacity, initial_capacity] = shape;
        Opening {
            dimensions,
            shingle_size,
            capacity,
            initial_capacity,
            internal_shingling: flags & 1,
            internal_rotation: flags >> 1 & 1,
            store_labels: flags >> 2 & 1,
            class_text: ClassText::default(),
        }
    }
}

macro_rules! prototypes {
    ($($name:ident($($argument:ident: $of:ty),*);)*) => {
        extern "C" {
            $(fn $name(
                words: *mut u64,
                words_len: usize,
                store: *mut u32,
                store_len: usize,
                last_known_shingle: *mut u32,
                last_known_shingle_len: usize,
                reference_count: *mut u16,
                reference_count_len: usize,
                location: *mut u16,
                location_len: usize,
                index_starts: *mut u16,
                index_starts_len: usize,
                index_ends: *mut u16,
                index_ends_len: usize,
                labels: *mut u8,
                labels_len: usize,
                label_attributes: *mut u16,
                label_attributes_len: usize,
                label_count: *mut u16,
                label_count_len: usize,
                label_starts: *mut u16,
                label_starts_len: usize,
                label_ends: *mut u16,
                label_ends_len: usize,
                attributes: *mut u8,
                attributes_len: usize,
                attribute_count: *mut u32,
                attribute_count_len: usize,
                attribute_starts: *mut u16,
                attribute_starts_len: usize,
                attribute_ends: *mut u16,
                attribute_ends_len: usize,
                $($argument: $of),*
            ) -> u64;)*
        }
    };
}
pub(crate) use prototypes;

prototypes! {
    ps_open(
        class_text: *const u8,
        class_text_len: usize,
        dimensions: usize,
        shingle_size: usize,
        capacity: usize,
        initial_capacity: usize,
        internal_shingling: usize,
        internal_rotation: usize,
        store_labels: usize
    );
    ps_add(
        point: *const u32,
        point_len: usize,
        label: usize,
        kept: &mut u64,
        index: &mut u64,
        label_index: &mut u64,
        joined: &mut u64,
        place: &mut u64,
        free_indices: &mut u64
    );
    ps_inc(index: usize, label: usize);
    ps_dec(index: usize, label: usize);
    ps_adjust(pairs: *const [usize; 4], pairs_len: usize, pairs_before: &mut u64);
    ps_compact();
    ps_copy(index: usize, out: *mut u32, out_len: usize);
    ps_count(index: usize, count: &mut u64);
    ps_live_number(number: &mut u64);
    ps_free_start(number: &mut u64);
    ps_page(text: *mut u8, text_len: usize, page_length: &mut u64);
    ps_is_equal(index: usize, point: *const u32, point_len: usize, equal: &mut u64);
    ps_point_sum(items: *const [usize; 2], items_len: usize, out: *mut f32, out_len: usize);
    ps_shingled_point(point: *const u32, point_len: usize, out: *mut u32, out_len: usize);
    ps_missing_indices(
        look_ahead: usize,
        values: *const usize,
        values_len: usize,
        out: *mut usize,
        out_len: usize
    );
    ps_next_indices(look_ahead: usize, out: *mut usize, out_len: usize);
    ps_label(label: usize, code: &mut u64);
    ps_attribute(label: usize, class: &mut u64);
    ps_attribute_vec(label: usize, out: *mut f32, out_len: usize);
}

extern "C" {
    fn ps_name(out: *mut u8, out_len: usize, name_length: &mut u64) -> u64;
}

/// The library's name at the front of `out`, and its length.
pub fn name(out: &mut [u8], name_length: &mut u64) -> u64 {
    unsafe { ps_name(out.as_mut_ptr(), out.len(), name_length) }
}

// Every call lends the vectors of one store for the call alone: they are valid and do not overlap, which is all that the
// library asks of a caller. A reading is lent them as it is lent to a call that changes them, so that a wrong write shows.
macro_rules! lend {
    ($lent:ident, $call:ident($($argument:expr),* $(,)?)) => {
        unsafe {
            $call(
                $lent.words.as_mut_ptr(),
                $lent.words.len(),
                $lent.store.as_mut_ptr(),
                $lent.store.len(),
                $lent.last_known_shingle.as_mut_ptr(),
                $lent.last_known_shingle.len(),
                $lent.reference_count.as_mut_ptr(),
                $lent.reference_count.len(),
                $lent.location.as_mut_ptr(),
                $lent.location.len(),
                $lent.index_starts.as_mut_ptr(),
                $lent.index_starts.len(),
                $lent.index_ends.as_mut_ptr(),
                $lent.index_ends.len(),
                $lent.labels.as_mut_ptr(),
                $lent.labels.len(),
                $lent.label_attributes.as_mut_ptr(),
                $lent.label_attributes.len(),
                $lent.label_count.as_mut_ptr(),
                $lent.label_count.len(),
                $lent.label_starts.as_mut_ptr(),
                $lent.label_starts.len(),
                $lent.label_ends.as_mut_ptr(),
                $lent.label_ends.len(),
                $lent.attributes.as_mut_ptr(),
                $lent.attributes.len(),
                $lent.attribute_count.as_mut_ptr(),
                $lent.attribute_count.len(),
                $lent.attribute_starts.as_mut_ptr(),
                $lent.attribute_starts.len(),
                $lent.attribute_ends.as_mut_ptr(),
                $lent.attribute_ends.len(),
                $($argument),*
            )
        }
    };
}
pub(crate) use lend;

impl Lent {
    pub fn open(&mut self, o: Opening) -> u64 {
        lend!(
            self,
            ps_open(
                o.class_text.bytes().as_ptr(),
                o.class_text.bytes().len(),
                o.dimensions,
                o.shingle_size,
                o.capacity,
                o.initial_capacity,
                o.internal_shingling,
                o.internal_rotation,
                o.store_labels,
            )
        )
    }

    pub fn add(&mut self, point: &[u32], label: usize, a: &mut Added) -> u64 {
        lend!(
            self,
            ps_add(
                point.as_ptr(),
                point.len(),
                label,
                &mut a.kept,
                &mut a.index,
                &mut a.label_index,
                &mut a.joined,
                &mut a.place,
                &mut a.free_indices,
            )
        )
    }

    pub fn inc(&mut self, index: usize, label: usize) -> u64 {
        lend!(self, ps_inc(index, label))
    }

    pub fn dec(&mut self, index: usize, label: usize) -> u64 {
        lend!(self, ps_dec(index, label))
    }

    pub fn adjust(&mut self, pairs: &[[usize; 4]], pairs_before: &mut u64) -> u64 {
        lend!(self, ps_adjust(pairs.as_ptr(), pairs.len(), pairs_before))
    }

    pub fn compact(&mut self) -> u64 {
        lend!(self, ps_compact())
    }

    pub fn copy(&mut self, index: usize, out: &mut [u32]) -> u64 {
        lend!(self, ps_copy(index, out.as_mut_ptr(), out.len()))
    }

    pub fn count(&mut self, index: usize, count: &mut u64) -> u64 {
        lend!(self, ps_count(index, count))
    }

    pub fn live_number(&mut self, number: &mut u64) -> u64 {
        lend!(self, ps_live_number(number))
    }

    pub fn free_start(&mut self, number: &mut u64) -> u64 {
        lend!(self, ps_free_start(number))
    }

    pub fn page(&mut self, text: &mut [u8], page_length: &mut u64) -> u64 {
        lend!(self, ps_page(text.as_mut_ptr(), text.len(), page_length))
    }

    pub fn is_equal(&mut self, index: usize, point: &[u32], equal: &mut u64) -> u64 {
        lend!(self, ps_is_equal(index, point.as_ptr(), point.len(), equal))
    }

    pub fn point_sum(&mut self, items: &[[usize; 2]], out: &mut [f32]) -> u64 {
        lend!(
            self,
            ps_point_sum(items.as_ptr(), items.len(), out.as_mut_ptr(), out.len())
        )
    }

    pub fn shingled_point(&mut self, point: &[u32], out: &mut [u32]) -> u64 {
        lend!(
            self,
            ps_shingled_point(point.as_ptr(), point.len(), out.as_mut_ptr(), out.len())
        )
    }

    pub fn missing_indices(&mut self, look_ahead: usize, values: &[usize], out: &mut [usize]) -> u64 {
        lend!(
            self,
            ps_missing_indices(look_ahead, values.as_ptr(), values.len(), out.as_mut_ptr(), out.len())
        )
    }

    pub fn next_indices(&mut self, look_ahead: usize, out: &mut [usize]) -> u64 {
        lend!(self, ps_next_indices(look_ahead, out.as_mut_ptr(), out.len()))
    }

    pub fn label(&mut self, label: usize, code: &mut u64) -> u64 {
        lend!(self, ps_label(label, code))
    }

    pub fn attribute(&mut self, label: usize, class: &mut u64) -> u64 {
        lend!(self, ps_attribute(label, class))
    }

    pub fn attribute_vec(&mut self, label: usize, out: &mut [f32]) -> u64 {
        lend!(self, ps_attribute_vec(label, out.as_mut_ptr(), out.len()))
    }
}
