//! What a store is opened with.

use crate::hold::{hold_block_words, LentHold, LentHoldMemory};
use crate::lent::LentPointStore;
use crate::memory::{block_words, Lengths, LentMemory};
use crate::probes::{probes_block_words, LentProbes};
use crate::refusal::{Refusal, Result};
use crate::sys;

/// How many bytes the text of a table of classes has.
pub const CLASS_TEXT_BYTES: usize = 216;

/// The table of reason classes of a store whose shape names no other: see [`Shape::classes`].
pub const REASON_CLASSES: &[u8; CLASS_TEXT_BYTES] = b"   0   0
   1   0
   2   0
   3   1
   4   1
   5   2
   6   2
   7   2
   8   3
   9   3
  10   4
  11   4
  12   5
  13   5
  14   5
  15   6
  16   6
  17   6
  18   7
  19   7
  20   8
  21   8
  22   9
  23   9
";

/// The shape and flags of a store, and its table of reason classes, from which it is opened.
///
/// Dimensions are 1 to 64, the shingle size divides them, the capacity is 1 to 1,024, capacity ×
/// dimensions is at most 16,384, and the starting capacity is 1 to the capacity; else opening gives
/// [`Refusal::Shape`].
///
/// ```
/// use point_store::{Refusal, Shape};
///
/// // Windows of two readings of two probes, up to ten of them, room for five at first.
/// let shape = Shape::new(4, 10).shingle_size(2).initial_capacity(5).internal_shingling(true);
/// # #[cfg(feature = "alloc")]
/// assert_eq!(shape.open()?.live_number()?, 0);
/// assert_eq!(Shape::new(65, 1).check(), Err(Refusal::Shape));
/// # Ok::<(), Refusal>(())
/// ```
#[derive(Clone, Copy, Debug, PartialEq, Eq, Hash)]
#[must_use]
pub struct Shape<'t> {
    pub(crate) dimensions: usize,
    pub(crate) shingle_size: usize,
    pub(crate) capacity: usize,
    pub(crate) initial_capacity: usize,
    pub(crate) internal_shingling: bool,
    pub(crate) internal_rotation: bool,
    pub(crate) store_labels: bool,
    pub(crate) class_text: &'t [u8],
}

impl<'t> Shape<'t> {
    /// Points of `dimensions` floats, at most `capacity` of them at a time; the shingle size is 1, the
    /// starting capacity is the capacity, every flag is off, and the reason classes are
    /// [`REASON_CLASSES`].
    pub const fn new(dimensions: usize, capacity: usize) -> Shape<'t> {
        Shape {
            dimensions,
            shingle_size: 1,
            capacity,
            initial_capacity: capacity,
            internal_shingling: false,
            internal_rotation: false,
            store_labels: false,
            class_text: REASON_CLASSES,
        }
    }

    /// How many readings a point is made of.
    pub const fn shingle_size(self, shingle_size: usize) -> Shape<'t> {
        Shape {
            shingle_size,
            ..self
        }
    }

    /// For how many points indices and floats are there at first; both grow up to the capacity.
    pub const fn initial_capacity(self, initial_capacity: usize) -> Shape<'t> {
        Shape {
            initial_capacity,
            ..self
        }
    }

    /// Whether the store forms the windows: an add then takes one reading.
    pub const fn internal_shingling(self, internal_shingling: bool) -> Shape<'t> {
        Shape {
            internal_shingling,
            ..self
        }
    }

    /// Whether a copy is turned by its place.
    pub const fn internal_rotation(self, internal_rotation: bool) -> Shape<'t> {
        Shape {
            internal_rotation,
            ..self
        }
    }

    /// Whether points have labels and attributes.
    pub const fn labels(self, labels: bool) -> Shape<'t> {
        Shape {
            store_labels: labels,
            ..self
        }
    }

    /// The reason classes, as a text of [`CLASS_TEXT_BYTES`] bytes: 24 lines, each a code in columns 1
    /// to 4 and its class in columns 5 to 8, right-justified with spaces and with no leading zeros, and a
    /// line feed. The codes are 0 to 23 in order, a class is at most 9, and every class from 0 to the
    /// largest that is used occurs; they need not rise. Opening gives [`Refusal::ClassText`] for any
    /// other text, with labels off too. The text is read on opening and not kept.
    ///
    /// ```
    /// use point_store::{Refusal, Shape};
    ///
    /// let two_classes: String = (0..24).map(|code| format!("{code:4}{:4}\n", code % 2)).collect();
    /// let shape = Shape::new(4, 10).labels(true).classes(two_classes.as_bytes());
    /// # #[cfg(feature = "alloc")]
    /// assert!(shape.open().is_ok());
    /// # #[cfg(feature = "alloc")]
    /// assert_eq!(shape.classes(b"").open().unwrap_err(), Refusal::ClassText);
    /// ```
    pub const fn classes(self, text: &'t [u8]) -> Shape<'t> {
        Shape {
            class_text: text,
            ..self
        }
    }

    /// [`Refusal::Shape`] for a shape outside the bounds.
    pub fn check(&self) -> Result<()> {
        // The library judges the shape before the memory: lent none, it refuses a shape outside the
        // bounds as that, and any other for its memory.
        match Refusal::of_number(sys::open_nothing(self)) {
            Err(Refusal::IllFormed) => Ok(()),
            other => other,
        }
    }

    /// How many words of 64 bits a block for [`LentMemory::in_block`] has; 0 for a shape outside the
    /// bounds.
    pub fn block_words(&self) -> usize {
        self.check().map_or(0, |()| block_words(self))
    }

    /// Opens a store that owns its memory.
    #[cfg(feature = "alloc")]
    pub fn open(&self) -> Result<crate::store::ProvedPointStore> {
        crate::store::ProvedPointStore::opened(self)
    }

    /// Opens a hold of the newest `width` points, which owns its memory.
    ///
    /// ```
    /// use point_store::{Refusal, Shape};
    ///
    /// let shape = Shape::new(4, 10);
    /// assert!(shape.open_hold(9).is_ok());
    /// assert_eq!(shape.open_hold(10).unwrap_err(), Refusal::HoldWidth);
    /// assert_eq!(shape.open_hold(0).unwrap_err(), Refusal::HoldWidth);
    /// ```
    #[cfg(feature = "alloc")]
    pub fn open_hold(&self, width: usize) -> Result<crate::hold::Hold> {
        crate::hold::Hold::opened(self, width)
    }

    /// [`Refusal::Shape`] for a shape outside the bounds, then [`Refusal::HoldWidth`] for a width of 0
    /// or not below the capacity.
    pub fn check_hold(&self, width: usize) -> Result<()> {
        // As for `check`.
        match Refusal::of_number(sys::hold_open_nothing(self, width)) {
            Err(Refusal::IllFormed) => Ok(()),
            other => other,
        }
    }

    /// How many words of 64 bits a block for [`LentHoldMemory::in_block`] has; 0 for a shape outside
    /// the bounds.
    pub fn hold_block_words(&self) -> usize {
        self.check().map_or(0, |()| hold_block_words(self))
    }

    /// Opens a product for the eight-probe block, which owns its memory.
    ///
    /// ```
    /// use point_store::{Refusal, Shape};
    ///
    /// let shape = Shape::new(16, 10).shingle_size(2).internal_shingling(true);
    /// assert!(shape.open_probes().is_ok());
    /// assert_eq!(shape.shingle_size(4).open_probes().unwrap_err(), Refusal::Shape);
    /// assert_eq!(shape.internal_shingling(false).open_probes().unwrap_err(), Refusal::Shape);
    /// ```
    #[cfg(feature = "alloc")]
    pub fn open_probes(&self) -> Result<crate::probes::Probes> {
        crate::probes::Probes::opened(self)
    }

    /// [`Refusal::Shape`] for a shape outside the bounds, for another base than 8 and for no internal
    /// shingling.
    pub fn check_probes(&self) -> Result<()> {
        // As for `check`.
        match Refusal::of_number(sys::probes_open_nothing(self)) {
            Err(Refusal::IllFormed) => Ok(()),
            other => other,
        }
    }

    /// How many words of 64 bits a block for [`LentMemory::in_probes_block`] has; 0 for a shape outside
    /// the bounds.
    pub fn probes_block_words(&self) -> usize {
        self.check().map_or(0, |()| probes_block_words(self))
    }

    /// Opens a product in lent memory, whose record has [`PROBES_WORDS`](crate::PROBES_WORDS) words.
    pub fn open_probes_in<'a>(&self, memory: LentMemory<'a>) -> Result<LentProbes<'a>> {
        LentProbes::open(memory, self)
    }

    /// Opens a store in lent memory.
    pub fn open_in<'a>(&self, memory: LentMemory<'a>) -> Result<LentPointStore<'a>> {
        LentPointStore::open(memory, self)
    }

    /// Opens a hold in lent memory.
    pub fn open_hold_in<'a>(
        &self,
        memory: LentHoldMemory<'a>,
        width: usize,
    ) -> Result<LentHold<'a>> {
        LentHold::open(memory, self, width)
    }

    /// For a shape within the bounds.
    pub(crate) fn lengths(&self) -> Lengths {
        Lengths {
            floats: self.capacity * self.dimensions,
            dimensions: self.dimensions,
            capacity: self.capacity,
            labels: if self.store_labels { self.capacity } else { 0 },
        }
    }
}
