//! A hold: a store of its own that keeps the newest points and nothing older.

use crate::lent::{number, Added, LentPointStore};
use crate::memory::{block_words, LentMemory, ReadMemory, RECORD_WORDS};
use crate::refusal::{Refusal, Result};
use crate::shape::Shape;
#[cfg(feature = "alloc")]
use crate::store::ProvedPointStore;
use crate::sys;
#[cfg(feature = "alloc")]
use alloc::{vec, vec::Vec};

/// How many words a hold's record has: its store's, then its width and how many points are held.
pub const HOLD_WORDS: usize = RECORD_WORDS + 2;

/// A hold's record, its store's fifteen tables and two more, lent for as long as `'a`: the memory of a
/// [`LentHold`].
#[derive(Debug)]
pub struct LentHoldMemory<'a> {
    /// The memory of the store inside, with a record of [`HOLD_WORDS`] words.
    pub store: LentMemory<'a>,
    /// Indices of held points, oldest first: capacity entries.
    pub held_indices: &'a mut [u16],
    /// Their label indices: with labels on capacity entries, else it may be empty.
    pub held_labels: &'a mut [u16],
}

impl<'a> LentHoldMemory<'a> {
    /// The slices for a shape out of one block, which has at least [`Shape::hold_block_words`] words.
    ///
    /// Refused with [`Refusal::Shape`], and with [`Refusal::IllFormed`] where the block is too short.
    pub fn in_block(block: &'a mut [u64], shape: &Shape<'_>) -> Result<LentHoldMemory<'a>> {
        shape.check()?;
        if block.len() < shape.hold_block_words() {
            return Err(Refusal::IllFormed);
        }
        let (store, rest) = LentMemory::front(block, shape, HOLD_WORDS);
        let (held_indices, rest) = sys::split_off(rest, shape.lengths().capacity);
        let (held_labels, _) = sys::split_off(rest, shape.lengths().labels);
        Ok(LentHoldMemory {
            store,
            held_indices,
            held_labels,
        })
    }
}

/// For a shape within the bounds: each table begins at a word.
pub(crate) fn hold_block_words(shape: &Shape<'_>) -> usize {
    let table = |entries: usize| entries.div_ceil(4);
    let lengths = shape.lengths();
    block_words(shape) - RECORD_WORDS + HOLD_WORDS + table(lengths.capacity) + table(lengths.labels)
}

fn width(memory: &ReadMemory<'_>) -> usize {
    memory
        .words
        .get(RECORD_WORDS)
        .map_or(0, |&word| word as usize)
}

/// A hold over lent memory, every call of which is a proved function of the library `point_store_c`.
/// It allocates nothing; [`Hold`](crate::Hold) says what it does.
///
/// ```
/// use point_store::{LentHoldMemory, Shape};
///
/// let shape = Shape::new(2, 4);
/// let mut block = [0; 52];
/// assert!(shape.hold_block_words() <= block.len());
/// let mut hold = shape.open_hold_in(LentHoldMemory::in_block(&mut block, &shape)?, 2)?;
/// for point in [[20.0, 30.5], [21.0, 31.5], [22.0, 32.5]] {
///     hold.add(&point, 0)?;
/// }
/// let mut held = [0; 2];
/// hold.held(&mut held)?;
/// assert_eq!(held, [1, 2]);
/// let mut row = [0.0; 2];
/// hold.store().copy(1, &mut row)?;
/// assert_eq!(row, [21.0, 31.5]);
/// # Ok::<(), point_store::Refusal>(())
/// ```
#[derive(Debug)]
pub struct LentHold<'a> {
    store: LentPointStore<'a>,
    held_indices: &'a mut [u16],
    held_labels: &'a mut [u16],
}

impl<'a> LentHold<'a> {
    /// Opens a hold of the newest `width` points in lent memory; what it held is gone.
    /// [`Refusal::Shape`], then [`Refusal::HoldWidth`], and [`Refusal::IllFormed`] where a slice is too
    /// short.
    pub fn open(memory: LentHoldMemory<'a>, shape: &Shape<'_>, width: usize) -> Result<Self> {
        let mut hold = LentHold::over(memory);
        Refusal::of_number(sys::hold_open(
            &mut hold.store.memory,
            hold.held_indices,
            hold.held_labels,
            shape,
            width,
        ))?;
        Ok(hold)
    }

    /// Goes on with a hold that is open in this memory; [`Refusal::IllFormed`] where there is none.
    /// That is no check against corruption: memory can be well-formed and wrong.
    pub fn resume(memory: LentHoldMemory<'a>) -> Result<Self> {
        let hold = LentHold::over(memory);
        hold.number()?;
        Ok(hold)
    }

    fn over(memory: LentHoldMemory<'a>) -> Self {
        LentHold {
            store: LentPointStore {
                memory: memory.store,
            },
            held_indices: memory.held_indices,
            held_labels: memory.held_labels,
        }
    }

    /// The memory, with the hold in it.
    pub fn into_memory(self) -> LentHoldMemory<'a> {
        LentHoldMemory {
            store: self.store.into_memory(),
            held_indices: self.held_indices,
            held_labels: self.held_labels,
        }
    }

    /// Adds a point as a store does, with the same answer; where it is kept and more than the width
    /// are held, the oldest is given up. How many indices remain free is told as it was before that.
    pub fn add(&mut self, point: &[f32], label: usize) -> Result<Added> {
        let mut answer = sys::AddAnswer::default();
        Refusal::of_number(sys::hold_add(
            &mut self.store.memory,
            self.held_indices,
            self.held_labels,
            point,
            label,
            &mut answer,
        ))?;
        Ok(Added::of(&answer))
    }

    /// Compacts the store inside.
    pub fn compact(&mut self) -> Result<()> {
        self.store.compact()
    }

    /// The held indices, oldest first, into exactly as many entries as are held.
    pub fn held(&self, out: &mut [u16]) -> Result<()> {
        Refusal::of_number(sys::hold_held(
            &self.store.memory.read(),
            self.held_indices,
            self.held_labels,
            out,
        ))
    }

    /// How many points are held.
    pub fn number(&self) -> Result<usize> {
        number(|held| {
            let memory = self.store.memory.read();
            sys::hold_number(&memory, self.held_indices, self.held_labels, held)
        })
    }

    /// How many are held at most.
    pub fn width(&self) -> usize {
        width(&self.store.memory.read())
    }

    /// The store inside, for its readings.
    pub fn store(&self) -> &LentPointStore<'a> {
        &self.store
    }
}

/// The newest kept points, as many as the hold is wide, over a store of its own: an add that keeps a
/// point gives up the oldest once more than the width are held. It is opened with
/// [`Shape::open_hold`].
///
/// A waiting add and a refused one give up nothing. Copy, count and the other readings are those of
/// the [`store`](Self::store) inside; each held point has count 1 there, and no other point is live.
///
/// ```
/// use point_store::{PointStore, Shape};
///
/// # fn main() -> point_store::Result<()> {
/// // Windows of two readings, the newest three of them.
/// let shape = Shape::new(2, 8).shingle_size(2).internal_shingling(true);
/// let mut hold = shape.open_hold(3)?;
/// for reading in [41.0, 42.5, 44.0, 47.5, 46.0, 45.5] {
///     hold.add(&[reading], 0)?;
/// }
/// let windows: Vec<_> = hold.held()?.into_iter().map(|index| hold.store().copy(index)).collect();
/// assert_eq!(windows, [Ok(vec![44.0, 47.5]), Ok(vec![47.5, 46.0]), Ok(vec![46.0, 45.5])]);
/// # Ok(())
/// # }
/// ```
#[cfg(feature = "alloc")]
#[derive(Clone, Debug)]
pub struct Hold {
    store: ProvedPointStore,
    held_indices: Vec<u16>,
    held_labels: Vec<u16>,
}

#[cfg(feature = "alloc")]
impl Hold {
    /// Nothing is allocated for a shape or a width that is refused.
    pub(crate) fn opened(shape: &Shape<'_>, width: usize) -> Result<Hold> {
        shape.check_hold(width)?;
        let mut memory = crate::memory::Memory::new(shape);
        memory.words.resize(HOLD_WORDS, 0);
        let held_indices = vec![0; shape.lengths().capacity];
        let held_labels = vec![0; shape.lengths().labels];
        Refusal::of_number(sys::hold_open(
            &mut memory.lent(),
            &held_indices,
            &held_labels,
            shape,
            width,
        ))?;
        Ok(Hold {
            store: ProvedPointStore { memory },
            held_indices,
            held_labels,
        })
    }

    /// Adds a point as a store does, with the same answer; where it is kept and more than the width
    /// are held, the oldest is given up. How many indices remain free is told as it was before that.
    ///
    /// ```
    /// use point_store::{Refusal, Shape};
    ///
    /// # fn main() -> point_store::Result<()> {
    /// let mut hold = Shape::new(2, 4).open_hold(1)?;
    /// hold.add(&[20.0, 21.0], 0)?;
    /// assert_eq!(hold.add(&[20.0], 0), Err(Refusal::Length));
    /// assert_eq!(hold.held()?, [0]);
    /// hold.add(&[22.0, 23.0], 0)?;
    /// assert_eq!(hold.held()?, [1]);
    /// # Ok(())
    /// # }
    /// ```
    pub fn add(&mut self, point: &[f32], label: usize) -> Result<Added> {
        let mut answer = sys::AddAnswer::default();
        Refusal::of_number(sys::hold_add(
            &mut self.store.memory.lent(),
            &mut self.held_indices,
            &mut self.held_labels,
            point,
            label,
            &mut answer,
        ))?;
        Ok(Added::of(&answer))
    }

    /// Compacts the store inside: indices and copies stay.
    pub fn compact(&mut self) -> Result<()> {
        self.store.memory.lent().compact()
    }

    /// The held indices, oldest first.
    pub fn held(&self) -> Result<Vec<usize>> {
        let mut out = vec![0; self.number()?];
        Refusal::of_number(sys::hold_held(
            &self.store.memory.read(),
            &self.held_indices,
            &self.held_labels,
            &mut out,
        ))?;
        Ok(out.into_iter().map(usize::from).collect())
    }

    /// How many points are held.
    pub fn number(&self) -> Result<usize> {
        number(|held| {
            let memory = self.store.memory.read();
            sys::hold_number(&memory, &self.held_indices, &self.held_labels, held)
        })
    }

    /// How many are held at most.
    pub fn width(&self) -> usize {
        width(&self.store.memory.read())
    }

    /// The store inside, for its readings.
    pub fn store(&self) -> &ProvedPointStore {
        &self.store
    }
}
