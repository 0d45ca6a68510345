//! The library's functions as C sees them, and a safe function around each. All unsafe code of the
//! crate is in this file.
//!
//! A function takes the record, the fifteen tables, the call's arguments and the places of its
//! answers. A slice is a pointer and then a length in elements. The return value is 0 or a refusal's
//! number. The test `declarations` holds these declarations to the library's source.
//!
//! The library asks of a caller only that each pointer is aligned and valid for as many elements as
//! its length says, for writing where it is `*mut` or `&mut`, and that what is written overlaps
//! nothing else that is lent. It keeps no pointer and has no state of its own. A slice of Rust's meets
//! the first for the time of a call; an empty one has a pointer that is not null, is aligned and is
//! never followed. The second is what a `&mut` says: the record and the tables are separate slices of
//! one `LentMemory`, the answers are locals or slices that the caller lends for this call, and the
//! arguments are borrowed beside them.
//!
//! A float goes over as its 32 bits: `f32` and `u32` have the same size and alignment, and every
//! pattern of 32 bits is a value of both, so a NaN's bits come back as they were given.

use crate::lent::{Item, Pair};
use crate::memory::{LentMemory, ReadMemory};
use crate::shape::Shape;
use core::mem::size_of;

const _: () = assert!(size_of::<usize>() == 8, "the library is for 64-bit targets");
const _: () = assert!(size_of::<Pair>() == size_of::<[usize; 4]>());
const _: () = assert!(size_of::<Item>() == size_of::<[usize; 2]>());

/// Declares functions that take the record and the tables, to read (`const`) or to change (`mut`)
/// them, and then the arguments named.
macro_rules! declare {
    ($access:tt $($function:ident($($argument:ident: $kind:ty),* $(,)?);)*) => {
        extern "C" {
            $(fn $function(
                words: *$access u64,
                words_length: usize,
                store: *$access u32,
                store_length: usize,
                last_known_shingle: *$access u32,
                last_known_shingle_length: usize,
                reference_count: *$access u16,
                reference_count_length: usize,
                location: *$access u16,
                location_length: usize,
                index_starts: *$access u16,
                index_starts_length: usize,
                index_ends: *$access u16,
                index_ends_length: usize,
                labels: *$access u8,
                labels_length: usize,
                label_attributes: *$access u16,
                label_attributes_length: usize,
                label_count: *$access u16,
                label_count_length: usize,
                label_starts: *$access u16,
                label_starts_length: usize,
                label_ends: *$access u16,
                label_ends_length: usize,
                attributes: *$access u8,
                attributes_length: usize,
                attribute_count: *$access u32,
                attribute_count_length: usize,
                attribute_starts: *$access u16,
                attribute_starts_length: usize,
                attribute_ends: *$access u16,
                attribute_ends_length: usize,
                $($argument: $kind),*
            ) -> u64;)*
        }
    };
}

declare! { mut
    ps_open(
        class_text: *const u8,
        class_text_length: usize,
        dimensions: usize,
        shingle_size: usize,
        capacity: usize,
        initial_capacity: usize,
        internal_shingling: usize,
        internal_rotation: usize,
        store_labels: usize,
    );
    ps_add(
        point: *const u32,
        point_length: usize,
        label: usize,
        kept: &mut u64,
        index: &mut u64,
        label_index: &mut u64,
        joined: &mut u64,
        place: &mut u64,
        free_indices: &mut u64,
    );
    ps_inc(index: usize, label: usize);
    ps_dec(index: usize, label: usize);
    ps_adjust(pairs: *const [usize; 4], pairs_length: usize, pairs_before: &mut u64);
    ps_compact();
    ps_hold_open(
        held_indices: *const u16,
        held_indices_length: usize,
        held_labels: *const u16,
        held_labels_length: usize,
        class_text: *const u8,
        class_text_length: usize,
        dimensions: usize,
        shingle_size: usize,
        capacity: usize,
        initial_capacity: usize,
        internal_shingling: usize,
        internal_rotation: usize,
        store_labels: usize,
        width: usize,
    );
    ps_hold_add(
        held_indices: *mut u16,
        held_indices_length: usize,
        held_labels: *mut u16,
        held_labels_length: usize,
        point: *const u32,
        point_length: usize,
        label: usize,
        kept: &mut u64,
        index: &mut u64,
        label_index: &mut u64,
        joined: &mut u64,
        place: &mut u64,
        free_indices: &mut u64,
    );
    ps_probes_open(
        class_text: *const u8,
        class_text_length: usize,
        dimensions: usize,
        shingle_size: usize,
        capacity: usize,
        initial_capacity: usize,
        internal_shingling: usize,
        internal_rotation: usize,
        store_labels: usize,
    );
    ps_probes_set(
        kinds: *const u8,
        kinds_length: usize,
        floats: *const u32,
        floats_length: usize,
        label: usize,
        kept: &mut u64,
        index: &mut u64,
        label_index: &mut u64,
        joined: &mut u64,
        place: &mut u64,
        free_indices: &mut u64,
    );
}

declare! { const
    ps_copy(index: usize, out: *mut u32, out_length: usize);
    ps_count(index: usize, count: &mut u64);
    ps_live_number(number: &mut u64);
    ps_free_start(number: &mut u64);
    ps_page(text: *mut u8, text_length: usize, page_length: &mut u64);
    ps_is_equal(index: usize, point: *const u32, point_length: usize, equal: &mut u64);
    ps_point_sum(items: *const [usize; 2], items_length: usize, out: *mut f32, out_length: usize);
    ps_shingled_point(point: *const u32, point_length: usize, out: *mut u32, out_length: usize);
    ps_missing_indices(
        look_ahead: usize,
        values: *const usize,
        values_length: usize,
        out: *mut usize,
        out_length: usize,
    );
    ps_next_indices(look_ahead: usize, out: *mut usize, out_length: usize);
    ps_label(label: usize, code: &mut u64);
    ps_attribute(label: usize, class: &mut u64);
    ps_attribute_vec(label: usize, out: *mut f32, out_length: usize);
    ps_hold_held(
        held_indices: *const u16,
        held_indices_length: usize,
        held_labels: *const u16,
        held_labels_length: usize,
        out: *mut u16,
        out_length: usize,
    );
    ps_hold_number(
        held_indices: *const u16,
        held_indices_length: usize,
        held_labels: *const u16,
        held_labels_length: usize,
        number: &mut u64,
    );
    ps_probes_tallies(out: *mut u32, out_length: usize);
}

extern "C" {
    fn ps_name(out: *mut u8, out_length: usize, name_length: &mut u64) -> u64;

    fn ps_manager_new(
        words: *mut u64,
        words_length: usize,
        starts: *mut u16,
        starts_length: usize,
        ends: *mut u16,
        ends_length: usize,
        size: usize,
    ) -> u64;
    fn ps_manager_change_capacity(
        words: *mut u64,
        words_length: usize,
        starts: *mut u16,
        starts_length: usize,
        ends: *mut u16,
        ends_length: usize,
        new_capacity: usize,
    ) -> u64;
    fn ps_manager_get(
        words: *mut u64,
        words_length: usize,
        starts: *mut u16,
        starts_length: usize,
        ends: *const u16,
        ends_length: usize,
        index: &mut u64,
        free_indices: &mut u64,
    ) -> u64;
    fn ps_manager_release(
        words: *mut u64,
        words_length: usize,
        starts: *mut u16,
        starts_length: usize,
        ends: *mut u16,
        ends_length: usize,
        index: usize,
    ) -> u64;
    fn ps_manager_used(
        words: *const u64,
        words_length: usize,
        starts: *const u16,
        starts_length: usize,
        ends: *const u16,
        ends_length: usize,
        used: &mut u64,
    ) -> u64;
    fn ps_manager_is_empty(
        words: *const u64,
        words_length: usize,
        starts: *const u16,
        starts_length: usize,
        ends: *const u16,
        ends_length: usize,
        empty: &mut u64,
    ) -> u64;
    fn ps_manager_get_capacity(
        words: *const u64,
        words_length: usize,
        starts: *const u16,
        starts_length: usize,
        ends: *const u16,
        ends_length: usize,
        capacity: &mut u64,
    ) -> u64;
}

/// Calls a function that changes the memory.
macro_rules! change {
    ($function:ident, $memory:ident $(, $argument:expr)*) => {
        $function(
            $memory.words.as_mut_ptr(),
            $memory.words.len(),
            $memory.store.as_mut_ptr().cast(),
            $memory.store.len(),
            $memory.last_known_shingle.as_mut_ptr().cast(),
            $memory.last_known_shingle.len(),
            $memory.reference_count.as_mut_ptr(),
            $memory.reference_count.len(),
            $memory.location.as_mut_ptr(),
            $memory.location.len(),
            $memory.index_starts.as_mut_ptr(),
            $memory.index_starts.len(),
            $memory.index_ends.as_mut_ptr(),
            $memory.index_ends.len(),
            $memory.labels.as_mut_ptr(),
            $memory.labels.len(),
            $memory.label_attributes.as_mut_ptr(),
            $memory.label_attributes.len(),
            $memory.label_count.as_mut_ptr(),
            $memory.label_count.len(),
            $memory.label_starts.as_mut_ptr(),
            $memory.label_starts.len(),
            $memory.label_ends.as_mut_ptr(),
            $memory.label_ends.len(),
            $memory.attributes.as_mut_ptr(),
            $memory.attributes.len(),
            $memory.attribute_count.as_mut_ptr(),
            $memory.attribute_count.len(),
            $memory.attribute_starts.as_mut_ptr(),
            $memory.attribute_starts.len(),
            $memory.attribute_ends.as_mut_ptr(),
            $memory.attribute_ends.len(),
            $($argument),*
        )
    };
}

/// Calls a function that reads the memory.
macro_rules! read {
    ($function:ident, $memory:ident $(, $argument:expr)*) => {
        $function(
            $memory.words.as_ptr(),
            $memory.words.len(),
            $memory.store.as_ptr().cast(),
            $memory.store.len(),
            $memory.last_known_shingle.as_ptr().cast(),
            $memory.last_known_shingle.len(),
            $memory.reference_count.as_ptr(),
            $memory.reference_count.len(),
            $memory.location.as_ptr(),
            $memory.location.len(),
            $memory.index_starts.as_ptr(),
            $memory.index_starts.len(),
            $memory.index_ends.as_ptr(),
            $memory.index_ends.len(),
            $memory.labels.as_ptr(),
            $memory.labels.len(),
            $memory.label_attributes.as_ptr(),
            $memory.label_attributes.len(),
            $memory.label_count.as_ptr(),
            $memory.label_count.len(),
            $memory.label_starts.as_ptr(),
            $memory.label_starts.len(),
            $memory.label_ends.as_ptr(),
            $memory.label_ends.len(),
            $memory.attributes.as_ptr(),
            $memory.attributes.len(),
            $memory.attribute_count.as_ptr(),
            $memory.attribute_count.len(),
            $memory.attribute_starts.as_ptr(),
            $memory.attribute_starts.len(),
            $memory.attribute_ends.as_ptr(),
            $memory.attribute_ends.len(),
            $($argument),*
        )
    };
}

pub fn open(memory: &mut LentMemory<'_>, shape: &Shape<'_>) -> u64 {
    // SAFETY: memory and text are borrowed for this call alone; a table or text of any length is fine.
    unsafe {
        change!(
            ps_open,
            memory,
            shape.class_text.as_ptr(),
            shape.class_text.len(),
            shape.dimensions,
            shape.shingle_size,
            shape.capacity,
            shape.initial_capacity,
            usize::from(shape.internal_shingling),
            usize::from(shape.internal_rotation),
            usize::from(shape.store_labels)
        )
    }
}

/// What an add answers; the last five are written only if the point is kept.
#[derive(Default)]
pub struct AddAnswer {
    pub kept: u64,
    pub index: u64,
    pub label_index: u64,
    pub joined: u64,
    pub place: u64,
    pub free_indices: u64,
}

pub fn add(
    memory: &mut LentMemory<'_>,
    point: &[f32],
    label: usize,
    answer: &mut AddAnswer,
) -> u64 {
    // SAFETY: the memory and the answer's six fields are borrowed to be changed, so that the point
    // overlaps neither.
    unsafe {
        change!(
            ps_add,
            memory,
            point.as_ptr().cast(),
            point.len(),
            label,
            &mut answer.kept,
            &mut answer.index,
            &mut answer.label_index,
            &mut answer.joined,
            &mut answer.place,
            &mut answer.free_indices
        )
    }
}

pub fn inc(memory: &mut LentMemory<'_>, index: usize, label: usize) -> u64 {
    // SAFETY: the memory is borrowed for this call alone; the rest is numbers.
    unsafe { change!(ps_inc, memory, index, label) }
}

pub fn dec(memory: &mut LentMemory<'_>, index: usize, label: usize) -> u64 {
    // SAFETY: the memory is borrowed for this call alone; the rest is numbers.
    unsafe { change!(ps_dec, memory, index, label) }
}

pub fn adjust(memory: &mut LentMemory<'_>, pairs: &[Pair], pairs_before: &mut u64) -> u64 {
    // SAFETY: the memory and the answer are borrowed to be changed, so that the pairs overlap
    // neither; a `Pair` is laid out as four numbers.
    unsafe {
        change!(
            ps_adjust,
            memory,
            pairs.as_ptr().cast(),
            pairs.len(),
            pairs_before
        )
    }
}

pub fn compact(memory: &mut LentMemory<'_>) -> u64 {
    // SAFETY: the memory is borrowed for this call alone.
    unsafe { change!(ps_compact, memory) }
}

pub fn copy(memory: &ReadMemory<'_>, index: usize, out: &mut [f32]) -> u64 {
    // SAFETY: the output is borrowed to be changed, so that it overlaps nothing of the memory.
    unsafe { read!(ps_copy, memory, index, out.as_mut_ptr().cast(), out.len()) }
}

pub fn count(memory: &ReadMemory<'_>, index: usize, count: &mut u64) -> u64 {
    // SAFETY: the answer is borrowed to be changed, so that it overlaps nothing of the memory.
    unsafe { read!(ps_count, memory, index, count) }
}

pub fn live_number(memory: &ReadMemory<'_>, number: &mut u64) -> u64 {
    // SAFETY: as for count.
    unsafe { read!(ps_live_number, memory, number) }
}

pub fn free_start(memory: &ReadMemory<'_>, number: &mut u64) -> u64 {
    // SAFETY: as for count.
    unsafe { read!(ps_free_start, memory, number) }
}

pub fn page(memory: &ReadMemory<'_>, text: &mut [u8], page_length: &mut u64) -> u64 {
    // SAFETY: text and answer are borrowed to be changed, so that they overlap nothing else.
    unsafe { read!(ps_page, memory, text.as_mut_ptr(), text.len(), page_length) }
}

pub fn is_equal(memory: &ReadMemory<'_>, index: usize, point: &[f32], equal: &mut u64) -> u64 {
    // SAFETY: the answer is borrowed to be changed; the memory and the point are only read.
    unsafe {
        read!(
            ps_is_equal,
            memory,
            index,
            point.as_ptr().cast(),
            point.len(),
            equal
        )
    }
}

pub fn point_sum(memory: &ReadMemory<'_>, items: &[Item], out: &mut [f32]) -> u64 {
    // SAFETY: the output is borrowed to be changed; the memory and the items are only read; an
    // `Item` is laid out as two numbers.
    unsafe {
        read!(
            ps_point_sum,
            memory,
            items.as_ptr().cast(),
            items.len(),
            out.as_mut_ptr(),
            out.len()
        )
    }
}

pub fn shingled_point(memory: &ReadMemory<'_>, point: &[f32], out: &mut [f32]) -> u64 {
    // SAFETY: the output is borrowed to be changed; the memory and the point are only read.
    unsafe {
        read!(
            ps_shingled_point,
            memory,
            point.as_ptr().cast(),
            point.len(),
            out.as_mut_ptr().cast(),
            out.len()
        )
    }
}

pub fn missing_indices(
    memory: &ReadMemory<'_>,
    look_ahead: usize,
    values: &[usize],
    out: &mut [usize],
) -> u64 {
    // SAFETY: the output is borrowed to be changed; the memory and the values are only read.
    unsafe {
        read!(
            ps_missing_indices,
            memory,
            look_ahead,
            values.as_ptr(),
            values.len(),
            out.as_mut_ptr(),
            out.len()
        )
    }
}

pub fn next_indices(memory: &ReadMemory<'_>, look_ahead: usize, out: &mut [usize]) -> u64 {
    // SAFETY: as for copy.
    unsafe {
        read!(
            ps_next_indices,
            memory,
            look_ahead,
            out.as_mut_ptr(),
            out.len()
        )
    }
}

pub fn label(memory: &ReadMemory<'_>, label: usize, code: &mut u64) -> u64 {
    // SAFETY: as for count.
    unsafe { read!(ps_label, memory, label, code) }
}

pub fn attribute(memory: &ReadMemory<'_>, label: usize, class: &mut u64) -> u64 {
    // SAFETY: as for count.
    unsafe { read!(ps_attribute, memory, label, class) }
}

pub fn attribute_vec(memory: &ReadMemory<'_>, label: usize, out: &mut [f32]) -> u64 {
    // SAFETY: as for copy.
    unsafe { read!(ps_attribute_vec, memory, label, out.as_mut_ptr(), out.len()) }
}

pub fn name(out: &mut [u8], name_length: &mut u64) -> u64 {
    // SAFETY: output and answer are borrowed to be changed, and all that is lent.
    unsafe { ps_name(out.as_mut_ptr(), out.len(), name_length) }
}

/// No memory: an opening with it can only be refused.
fn no_memory() -> LentMemory<'static> {
    LentMemory {
        words: &mut [],
        store: &mut [],
        last_known_shingle: &mut [],
        reference_count: &mut [],
        location: &mut [],
        index_starts: &mut [],
        index_ends: &mut [],
        labels: &mut [],
        label_attributes: &mut [],
        label_count: &mut [],
        label_starts: &mut [],
        label_ends: &mut [],
        attributes: &mut [],
        attribute_count: &mut [],
        attribute_starts: &mut [],
        attribute_ends: &mut [],
    }
}

/// An opening without memory.
pub fn open_nothing(shape: &Shape<'_>) -> u64 {
    open(&mut no_memory(), shape)
}

/// An opening of a hold without memory.
pub fn hold_open_nothing(shape: &Shape<'_>, width: usize) -> u64 {
    hold_open(&mut no_memory(), &[], &[], shape, width)
}

// SAFETY, of each of the hold's: its two tables are borrowed beside the memory, to be changed where
// the library writes them, and so are output and answers.

pub fn hold_open(
    memory: &mut LentMemory<'_>,
    held_indices: &[u16],
    held_labels: &[u16],
    shape: &Shape<'_>,
    width: usize,
) -> u64 {
    unsafe {
        change!(
            ps_hold_open,
            memory,
            held_indices.as_ptr(),
            held_indices.len(),
            held_labels.as_ptr(),
            held_labels.len(),
            shape.class_text.as_ptr(),
            shape.class_text.len(),
            shape.dimensions,
            shape.shingle_size,
            shape.capacity,
            shape.initial_capacity,
            usize::from(shape.internal_shingling),
            usize::from(shape.internal_rotation),
            usize::from(shape.store_labels),
            width
        )
    }
}

pub fn hold_add(
    memory: &mut LentMemory<'_>,
    held_indices: &mut [u16],
    held_labels: &mut [u16],
    point: &[f32],
    label: usize,
    answer: &mut AddAnswer,
) -> u64 {
    unsafe {
        change!(
            ps_hold_add,
            memory,
            held_indices.as_mut_ptr(),
            held_indices.len(),
            held_labels.as_mut_ptr(),
            held_labels.len(),
            point.as_ptr().cast(),
            point.len(),
            label,
            &mut answer.kept,
            &mut answer.index,
            &mut answer.label_index,
            &mut answer.joined,
            &mut answer.place,
            &mut answer.free_indices
        )
    }
}

pub fn hold_held(
    memory: &ReadMemory<'_>,
    held_indices: &[u16],
    held_labels: &[u16],
    out: &mut [u16],
) -> u64 {
    unsafe {
        read!(
            ps_hold_held,
            memory,
            held_indices.as_ptr(),
            held_indices.len(),
            held_labels.as_ptr(),
            held_labels.len(),
            out.as_mut_ptr(),
            out.len()
        )
    }
}

pub fn hold_number(
    memory: &ReadMemory<'_>,
    held_indices: &[u16],
    held_labels: &[u16],
    number: &mut u64,
) -> u64 {
    unsafe {
        read!(
            ps_hold_number,
            memory,
            held_indices.as_ptr(),
            held_indices.len(),
            held_labels.as_ptr(),
            held_labels.len(),
            number
        )
    }
}

/// What an opening of a product says of the shape, lent nothing.
pub fn probes_open_nothing(shape: &Shape) -> u64 {
    probes_open(&mut no_memory(), shape)
}

// SAFETY, of each of the product's: what is borrowed beside the memory is read, or is an output or an
// answer, borrowed to be changed.

pub fn probes_open(memory: &mut LentMemory<'_>, shape: &Shape) -> u64 {
    unsafe {
        change!(
            ps_probes_open,
            memory,
            shape.class_text.as_ptr(),
            shape.class_text.len(),
            shape.dimensions,
            shape.shingle_size,
            shape.capacity,
            shape.initial_capacity,
            usize::from(shape.internal_shingling),
            usize::from(shape.internal_rotation),
            usize::from(shape.store_labels)
        )
    }
}

pub fn probes_set(
    memory: &mut LentMemory<'_>,
    kinds: &[u8],
    floats: &[f32],
    label: usize,
    answer: &mut AddAnswer,
) -> u64 {
    unsafe {
        change!(
            ps_probes_set,
            memory,
            kinds.as_ptr(),
            kinds.len(),
            floats.as_ptr().cast(),
            floats.len(),
            label,
            &mut answer.kept,
            &mut answer.index,
            &mut answer.label_index,
            &mut answer.joined,
            &mut answer.place,
            &mut answer.free_indices
        )
    }
}

pub fn probes_tallies(memory: &ReadMemory<'_>, out: &mut [u32]) -> u64 {
    unsafe { read!(ps_probes_tallies, memory, out.as_mut_ptr(), out.len()) }
}

/// Calls a function of the manager that changes its record and a table, or both.
macro_rules! manager {
    ($function:ident, $words:ident, $starts:ident, $ends:ident.$as_ptr:ident $(, $argument:expr)*) => {
        $function(
            $words.as_mut_ptr(),
            $words.len(),
            $starts.as_mut_ptr(),
            $starts.len(),
            $ends.$as_ptr(),
            $ends.len(),
            $($argument),*
        )
    };
}

/// Calls a function of the manager that reads.
macro_rules! read_manager {
    ($function:ident, $words:ident, $starts:ident, $ends:ident, $argument:expr) => {
        $function(
            $words.as_ptr(),
            $words.len(),
            $starts.as_ptr(),
            $starts.len(),
            $ends.as_ptr(),
            $ends.len(),
            $argument,
        )
    };
}

// SAFETY, of each of the manager's: the record and the tables are separate slices, borrowed for the
// call, and the answer is borrowed beside them.

pub fn manager_new(words: &mut [u64], starts: &mut [u16], ends: &mut [u16], size: usize) -> u64 {
    unsafe { manager!(ps_manager_new, words, starts, ends.as_mut_ptr, size) }
}

pub fn manager_change_capacity(
    words: &mut [u64],
    starts: &mut [u16],
    ends: &mut [u16],
    new_capacity: usize,
) -> u64 {
    unsafe {
        manager!(
            ps_manager_change_capacity,
            words,
            starts,
            ends.as_mut_ptr,
            new_capacity
        )
    }
}

pub fn manager_get(
    words: &mut [u64],
    starts: &mut [u16],
    ends: &[u16],
    index: &mut u64,
    free_indices: &mut u64,
) -> u64 {
    unsafe {
        manager!(
            ps_manager_get,
            words,
            starts,
            ends.as_ptr,
            index,
            free_indices
        )
    }
}

pub fn manager_release(
    words: &mut [u64],
    starts: &mut [u16],
    ends: &mut [u16],
    index: usize,
) -> u64 {
    unsafe { manager!(ps_manager_release, words, starts, ends.as_mut_ptr, index) }
}

pub fn manager_used(words: &[u64], starts: &[u16], ends: &[u16], used: &mut u64) -> u64 {
    unsafe { read_manager!(ps_manager_used, words, starts, ends, used) }
}

pub fn manager_is_empty(words: &[u64], starts: &[u16], ends: &[u16], empty: &mut u64) -> u64 {
    unsafe { read_manager!(ps_manager_is_empty, words, starts, ends, empty) }
}

pub fn manager_get_capacity(
    words: &[u64],
    starts: &[u16],
    ends: &[u16],
    capacity: &mut u64,
) -> u64 {
    unsafe { read_manager!(ps_manager_get_capacity, words, starts, ends, capacity) }
}

/// A type of at most 64 bits, of which every pattern of bits is a value.
///
/// # Safety
///
/// Its size divides 8, and so does its alignment.
pub unsafe trait Plain {}

unsafe impl Plain for u8 {}
unsafe impl Plain for u16 {}
unsafe impl Plain for u32 {}
unsafe impl Plain for u64 {}
unsafe impl Plain for f32 {}

/// The first `length` elements of another type in a block of words, and the words after them. The
/// block is long enough, else this panics.
pub fn split_off<T: Plain>(block: &mut [u64], length: usize) -> (&mut [T], &mut [u64]) {
    let words = (length * size_of::<T>()).div_ceil(8);
    let (taken, rest) = block.split_at_mut(words);
    // SAFETY: the words taken are aligned for T, hold at least `length` of them, any bits of them are
    // values of T and of u64, and they are borrowed as long as what comes back.
    let table = unsafe { core::slice::from_raw_parts_mut(taken.as_mut_ptr().cast(), length) };
    (table, rest)
}
