//! A store over lent memory, which needs no allocator.

use crate::memory::{LentMemory, ReadMemory};
use crate::refusal::{AdjustRefusal, Refusal, Result};
use crate::shape::Shape;
use crate::sys;

/// The index that no point and no label has.
pub const NONE: usize = usize::MAX;

/// How many floats `attribute_vec` gives.
pub const MAX_ATTRIBUTES: usize = 10;

/// Long enough for the name of every version of the library.
pub const NAME_BYTES: usize = 256;

/// How a kept row was laid, with its place.
#[derive(Clone, Copy, Debug, PartialEq, Eq, Hash)]
pub enum Laid {
    /// All of its floats were written.
    Whole(usize),
    /// Its first floats are the last ones of what stood before it; only the rest was written.
    Joined(usize),
}

impl Laid {
    /// The place: the stored row starts at place × dimensions / shingle size.
    pub fn place(self) -> usize {
        match self {
            Laid::Whole(place) | Laid::Joined(place) => place,
        }
    }
}

/// What an accepted add did.
#[derive(Clone, Copy, Debug, PartialEq, Eq, Hash)]
pub enum Added {
    /// The point is kept.
    Kept {
        /// The point's index.
        index: usize,
        /// Its label index; [`NONE`] with labels off.
        label: usize,
        /// How its row was laid, and where.
        laid: Laid,
        /// How many indices remain free: the table's length, after growth, less the live points, this one
        /// among them. In a hold as it stood before the oldest was given up.
        free_indices: usize,
    },
    /// The first window is not full yet; the reading is in it, and nothing else is kept.
    Waiting,
}

impl Added {
    pub(crate) fn of(answer: &sys::AddAnswer) -> Added {
        if answer.kept == 0 {
            return Added::Waiting;
        }
        let place = answer.place as usize;
        Added::Kept {
            index: answer.index as usize,
            label: answer.label_index as usize,
            laid: if answer.joined == 0 {
                Laid::Whole(place)
            } else {
                Laid::Joined(place)
            },
            free_indices: answer.free_indices as usize,
        }
    }
}

/// One pair of an adjust: one count more for the first index and label index, one less for the second.
/// [`NONE`] as the insert's index skips the pair, as the delete's index it leaves the delete out.
#[repr(C)]
#[derive(Clone, Copy, Debug, PartialEq, Eq, Hash)]
pub struct Pair {
    /// The point that gets a count.
    pub insert_index: usize,
    /// Its label.
    pub insert_label: usize,
    /// The point that gives one up.
    pub delete_index: usize,
    /// Its label.
    pub delete_label: usize,
}

/// One item of a sum.
#[repr(C)]
#[derive(Clone, Copy, Debug, PartialEq, Eq, Hash)]
pub struct Item {
    /// The point.
    pub index: usize,
    /// How often it is taken, at most 16,777,216.
    pub weight: usize,
}

/// The library's name at the front of `out`: version, requested changes, the source of the port.
///
/// [`Refusal::Length`] where `out` is shorter; [`NAME_BYTES`] is long enough.
///
/// ```
/// let mut out = [0; point_store::NAME_BYTES];
/// assert!(point_store::name_in(&mut out)?.starts_with("point store"));
/// # Ok::<(), point_store::Refusal>(())
/// ```
pub fn name_in(out: &mut [u8]) -> Result<&str> {
    let mut length = 0;
    Refusal::of_number(sys::name(out, &mut length))?;
    let text = out.get(..length as usize).unwrap_or_default();
    Ok(core::str::from_utf8(text).unwrap_or_default())
}

// The calls that change, over lent memory; the two kinds of store hand theirs on.
impl LentMemory<'_> {
    pub(crate) fn open(&mut self, shape: &Shape<'_>) -> Result<()> {
        Refusal::of_number(sys::open(self, shape))
    }

    pub(crate) fn add(&mut self, point: &[f32], label: usize) -> Result<Added> {
        let mut answer = sys::AddAnswer::default();
        Refusal::of_number(sys::add(self, point, label, &mut answer))?;
        Ok(Added::of(&answer))
    }

    pub(crate) fn inc(&mut self, index: usize, label: usize) -> Result<()> {
        Refusal::of_number(sys::inc(self, index, label))
    }

    pub(crate) fn dec(&mut self, index: usize, label: usize) -> Result<()> {
        Refusal::of_number(sys::dec(self, index, label))
    }

    pub(crate) fn adjust(&mut self, pairs: &[Pair]) -> core::result::Result<(), AdjustRefusal> {
        let mut pairs_before = 0;
        let number = sys::adjust(self, pairs, &mut pairs_before);
        Refusal::of_number(number).map_err(|refusal| AdjustRefusal {
            refusal,
            pairs_before: pairs_before as usize,
        })
    }

    pub(crate) fn compact(&mut self) -> Result<()> {
        Refusal::of_number(sys::compact(self))
    }
}

/// The number that a call of the library answers.
pub(crate) fn number(call: impl FnOnce(&mut u64) -> u64) -> Result<usize> {
    let mut answer = 0;
    Refusal::of_number(call(&mut answer))?;
    Ok(answer as usize)
}

// The readings.
impl ReadMemory<'_> {
    pub(crate) fn copy(&self, index: usize, out: &mut [f32]) -> Result<()> {
        Refusal::of_number(sys::copy(self, index, out))
    }

    pub(crate) fn count(&self, index: usize) -> Result<usize> {
        number(|count| sys::count(self, index, count))
    }

    pub(crate) fn live_number(&self) -> Result<usize> {
        number(|live| sys::live_number(self, live))
    }

    pub(crate) fn free_start(&self) -> Result<usize> {
        number(|start| sys::free_start(self, start))
    }

    pub(crate) fn page(&self, text: &mut [u8]) -> Result<usize> {
        number(|length| sys::page(self, text, length))
    }

    pub(crate) fn is_equal(&self, point: &[f32], index: usize) -> Result<bool> {
        number(|equal| sys::is_equal(self, index, point, equal)).map(|equal| equal != 0)
    }

    pub(crate) fn point_sum(&self, items: &[Item], out: &mut [f32]) -> Result<()> {
        Refusal::of_number(sys::point_sum(self, items, out))
    }

    pub(crate) fn shingled_point(&self, point: &[f32], out: &mut [f32]) -> Result<()> {
        Refusal::of_number(sys::shingled_point(self, point, out))
    }

    pub(crate) fn missing_indices(
        &self,
        look_ahead: usize,
        values: &[usize],
        out: &mut [usize],
    ) -> Result<()> {
        Refusal::of_number(sys::missing_indices(self, look_ahead, values, out))
    }

    pub(crate) fn next_indices(&self, look_ahead: usize, out: &mut [usize]) -> Result<()> {
        Refusal::of_number(sys::next_indices(self, look_ahead, out))
    }

    pub(crate) fn label(&self, index: usize) -> Result<usize> {
        number(|code| sys::label(self, index, code))
    }

    pub(crate) fn attribute(&self, index: usize) -> Result<usize> {
        number(|class| sys::attribute(self, index, class))
    }

    pub(crate) fn attribute_vec(&self, index: usize, out: &mut [f32]) -> Result<()> {
        Refusal::of_number(sys::attribute_vec(self, index, out))
    }
}

/// A store over lent memory, every call of which is a proved function of the library
/// `point_store_c`. It allocates nothing: what a call of
/// [`ProvedPointStore`](crate::ProvedPointStore) gives as a vector goes to a slice of the caller's,
/// exactly as long as the answer, else [`Refusal::Length`].
///
/// ```
/// use point_store::{Added, LentMemory, LentPointStore, Shape, NONE};
///
/// let shape = Shape::new(4, 10).shingle_size(2).internal_shingling(true);
/// let mut block = [0; 96];
/// assert!(shape.block_words() <= block.len());
/// let mut store = shape.open_in(LentMemory::in_block(&mut block, &shape)?)?;
/// for reading in [[21.0, 30.5], [21.5, 31.0], [22.0, 33.5]] {
///     store.add(&reading, 0)?;
/// }
/// let mut row = [0.0; 4];
/// store.copy(1, &mut row)?;
/// assert_eq!(row, [21.5, 31.0, 22.0, 33.5]);
/// store.dec(0, NONE)?;
/// store.compact()?;
/// assert_eq!((store.live_number()?, store.free_start()?), (1, 4));
///
/// // The memory may leave the store and come back.
/// let memory = store.into_memory();
/// assert_eq!(LentPointStore::resume(memory)?.count(1)?, 1);
/// # Ok::<(), point_store::Refusal>(())
/// ```
#[derive(Debug)]
pub struct LentPointStore<'a> {
    pub(crate) memory: LentMemory<'a>,
}

impl<'a> LentPointStore<'a> {
    /// Opens a store in lent memory; what it held is gone. [`Refusal::Shape`], and
    /// [`Refusal::IllFormed`] where a slice is too short.
    pub fn open(mut memory: LentMemory<'a>, shape: &Shape<'_>) -> Result<Self> {
        memory.open(shape)?;
        Ok(LentPointStore { memory })
    }

    /// Goes on with a store that is open in this memory; [`Refusal::IllFormed`] where there is none.
    /// That is no check against corruption: memory can be well-formed and wrong.
    pub fn resume(memory: LentMemory<'a>) -> Result<Self> {
        memory.read().live_number()?;
        Ok(LentPointStore { memory })
    }

    /// The memory, with the store in it.
    pub fn into_memory(self) -> LentMemory<'a> {
        self.memory
    }

    /// How many floats a stored point has, and an output for one.
    pub fn dimensions(&self) -> usize {
        self.memory.read().dimensions()
    }

    /// Dimensions / shingle size: how many floats one reading has.
    pub fn base(&self) -> usize {
        self.memory.read().base()
    }

    /// Adds a point: one reading with internal shingling, else a whole point.
    pub fn add(&mut self, point: &[f32], label: usize) -> Result<Added> {
        self.memory.add(point, label)
    }

    /// One count more for a live point and its label.
    pub fn inc(&mut self, index: usize, label: usize) -> Result<()> {
        self.memory.inc(index, label)
    }

    /// One count less for a live point and a live label. At 0 the index is free again.
    pub fn dec(&mut self, index: usize, label: usize) -> Result<()> {
        self.memory.dec(index, label)
    }

    /// A list of pairs in order; those before a refused one stand.
    pub fn adjust(&mut self, pairs: &[Pair]) -> core::result::Result<(), AdjustRefusal> {
        self.memory.adjust(pairs)
    }

    /// Moves the live points together, so that the floats of given-up ones can be used again.
    pub fn compact(&mut self) -> Result<()> {
        self.memory.compact()
    }

    /// The point at a live index, turned where the store rotates, into `dimensions` floats.
    pub fn copy(&self, index: usize, out: &mut [f32]) -> Result<()> {
        self.memory.read().copy(index, out)
    }

    /// The count of a live point.
    pub fn count(&self, index: usize) -> Result<usize> {
        self.memory.read().count(index)
    }

    /// How many points are live.
    pub fn live_number(&self) -> Result<usize> {
        self.memory.read().live_number()
    }

    /// Where the next row is written, in floats.
    pub fn free_start(&self) -> Result<usize> {
        self.memory.read().free_start()
    }

    /// The store on a page, at the front of `text`, and the page's length in bytes: 19 for each live
    /// index. Bytes past it are left as they were. [`Refusal::TextLength`] where `text` is shorter.
    ///
    /// A line is an index, its count and its place, right-justified in six columns each, and a line
    /// feed; the indices rise.
    pub fn page(&self, text: &mut [u8]) -> Result<usize> {
        self.memory.read().page(text)
    }

    /// Whether `point` equals what [`copy`](Self::copy) gives, entry by entry by the 32 bits.
    pub fn is_equal(&self, point: &[f32], index: usize) -> Result<bool> {
        self.memory.read().is_equal(point, index)
    }

    /// The sum of stored points, each by its weight and unturned, into `dimensions` floats.
    pub fn point_sum(&self, items: &[Item], out: &mut [f32]) -> Result<()> {
        self.memory.read().point_sum(items, out)
    }

    /// The window as it would be with `point` added, into `dimensions` floats.
    pub fn shingled_point(&self, point: &[f32], out: &mut [f32]) -> Result<()> {
        self.memory.read().shingled_point(point, out)
    }

    /// Where in a window the entries `values` of the reading after `look_ahead` more will stand.
    pub fn missing_indices(
        &self,
        look_ahead: usize,
        values: &[usize],
        out: &mut [usize],
    ) -> Result<()> {
        self.memory.read().missing_indices(look_ahead, values, out)
    }

    /// The same for a whole reading: dimensions / shingle size numbers.
    pub fn next_indices(&self, look_ahead: usize, out: &mut [usize]) -> Result<()> {
        self.memory.read().next_indices(look_ahead, out)
    }

    /// The code that a label index holds.
    pub fn label(&self, index: usize) -> Result<usize> {
        self.memory.read().label(index)
    }

    /// The class of that code.
    pub fn attribute(&self, index: usize) -> Result<usize> {
        self.memory.read().attribute(index)
    }

    /// [`MAX_ATTRIBUTES`] floats: 1.0 at the label's attribute slot modulo ten, else 0.0.
    pub fn attribute_vec(&self, index: usize, out: &mut [f32]) -> Result<()> {
        self.memory.read().attribute_vec(index, out)
    }
}
