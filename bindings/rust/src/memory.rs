//! What a store lends to the library's functions: lent slices, a shared view of them, and the slices of a store that owns them.

use crate::refusal::{Refusal, Result};
use crate::shape::Shape;
use crate::sys::split_off;

/// How many words a store's record has.
pub const RECORD_WORDS: usize = 39;

/// Which entries a table has for a shape: those of `lengths`, in the tables' order.
macro_rules! tables {
    ($($(#[$text:meta])* $name:ident: $of:ty, $length:ident;)*) => {
        /// A store's record and its fifteen tables, lent for as long as `'a`: the memory of a
        /// [`LentPointStore`](crate::LentPointStore). Longer slices are fine, what lies past is never
        /// touched; with labels off the last nine may be empty.
        #[derive(Debug)]
        pub struct LentMemory<'a> {
            /// The record, [`RECORD_WORDS`] words; the library's to write.
            pub words: &'a mut [u64],
            $($(#[$text])* pub $name: &'a mut [$of],)*
        }

        /// The same to be read.
        pub struct ReadMemory<'a> {
            pub words: &'a [u64],
            $(pub $name: &'a [$of],)*
        }

        impl<'a> LentMemory<'a> {
            /// The slices for a shape out of one block, which has at least
            /// [`Shape::block_words`] words.
            ///
            /// Refused with [`Refusal::Shape`], and with [`Refusal::IllFormed`] where the block is too
            /// short.
            pub fn in_block(block: &'a mut [u64], shape: &Shape<'_>) -> Result<LentMemory<'a>> {
                shape.check()?;
                if block.len() < shape.block_words() {
                    return Err(Refusal::IllFormed);
                }
                Ok(LentMemory::front(block, shape, RECORD_WORDS).0)
            }

            /// The same with the record of a product, [`PROBES_WORDS`](crate::PROBES_WORDS) words, out
            /// of a block of at least [`Shape::probes_block_words`] words.
            pub fn in_probes_block(block: &'a mut [u64], shape: &Shape) -> Result<LentMemory<'a>> {
                shape.check()?;
                if block.len() < shape.probes_block_words() {
                    return Err(Refusal::IllFormed);
                }
                Ok(LentMemory::front(block, shape, crate::probes::PROBES_WORDS).0)
            }

            /// A record of so many words and the tables at the front of a block that is long enough,
            /// and the rest of it.
            pub(crate) fn front(
                block: &'a mut [u64],
                shape: &Shape<'_>,
                record_words: usize,
            ) -> (LentMemory<'a>, &'a mut [u64]) {
                let (words, rest) = split_off(block, record_words);
                words.fill(0);
                $(let ($name, rest) = split_off(rest, shape.lengths().$length);)*
                (LentMemory { words, $($name),* }, rest)
            }

            pub(crate) fn read(&self) -> ReadMemory<'_> {
                ReadMemory { words: self.words, $($name: self.$name),* }
            }
        }

        /// How many words of 64 bits [`LentMemory::in_block`] takes: each table begins at a word.
        pub fn block_words(shape: &Shape<'_>) -> usize {
            RECORD_WORDS $(+ (shape.lengths().$length * core::mem::size_of::<$of>()).div_ceil(8))*
        }

        /// The record and the tables of a store that owns them.
        #[cfg(feature = "alloc")]
        #[derive(Clone, Debug)]
        pub struct Memory {
            pub words: alloc::vec::Vec<u64>,
            $(pub $name: alloc::vec::Vec<$of>,)*
        }

        #[cfg(feature = "alloc")]
        impl Memory {
            /// Tables as long as the shape, which is within the bounds, asks for.
            pub fn new(shape: &Shape<'_>) -> Memory {
                Memory {
                    words: alloc::vec![0; RECORD_WORDS],
                    $($name: alloc::vec![<$of>::default(); shape.lengths().$length],)*
                }
            }

            pub fn lent(&mut self) -> LentMemory<'_> {
                LentMemory { words: &mut self.words, $($name: &mut self.$name),* }
            }

            pub fn read(&self) -> ReadMemory<'_> {
                ReadMemory { words: &self.words, $($name: &self.$name),* }
            }
        }
    };
}

tables! {
    /// The floats: capacity × dimensions.
    store: f32, floats;
    /// The window: dimensions floats.
    last_known_shingle: f32, dimensions;
    /// Counts of points: capacity entries, as have the next three.
    reference_count: u16, capacity;
    /// Places of points; 65,535 is the empty place.
    location: u16, capacity;
    /// The starts of the intervals of free indices.
    index_starts: u16, capacity;
    /// Their ends.
    index_ends: u16, capacity;
    /// Label codes: with labels on capacity entries, as have the rest.
    labels: u8, labels;
    /// The labels' attribute slots.
    label_attributes: u16, labels;
    /// Counts of labels.
    label_count: u16, labels;
    /// The starts of the intervals of free label indices.
    label_starts: u16, labels;
    /// Their ends.
    label_ends: u16, labels;
    /// The classes of attribute slots.
    attributes: u8, labels;
    /// Counts of attribute slots.
    attribute_count: u32, labels;
    /// The starts of the intervals of free attribute slots.
    attribute_starts: u16, labels;
    /// Their ends.
    attribute_ends: u16, labels;
}

/// How many entries the tables have for a shape.
pub struct Lengths {
    pub floats: usize,
    pub dimensions: usize,
    pub capacity: usize,
    pub labels: usize,
}

impl ReadMemory<'_> {
    /// How many floats a stored point has.
    pub fn dimensions(&self) -> usize {
        self.words.first().map_or(0, |&word| word as usize)
    }

    /// Dimensions / shingle size: how many floats one reading has. An opened store's shingle size is
    /// not 0.
    pub fn base(&self) -> usize {
        let shingle_size = self.words.get(1).map_or(0, |&word| word as usize);
        self.dimensions().checked_div(shingle_size).unwrap_or(0)
    }
}
