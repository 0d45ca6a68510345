//! The trait that analysers are written against.

use crate::refusal::Result;
use alloc::vec::Vec;
use core::hash::Hash;

/// A store of points that are windows over readings: the Rust original's trait, with its method
/// names, argument order and return types.
///
/// Left out are `size`, `entries_seen` and `reference_and_offset`. The index that goes with a point's
/// index is a label index, as [`add`](PointStore::add) gives it.
///
/// ```
/// use point_store::{PointStore, ProvedPointStore, Result};
///
/// // Written against the trait, this runs on any store of it.
/// fn mean<Store: PointStore<usize, usize>>(store: &Store, indices: &[usize]) -> Result<Vec<f32>> {
///     let once: Vec<(usize, usize)> = indices.iter().map(|&index| (index, 1)).collect();
///     let sum = store.point_sum(&once)?;
///     Ok(sum.iter().map(|x| x / indices.len() as f32).collect())
/// }
///
/// # fn main() -> Result<()> {
/// let mut store = ProvedPointStore::new(2, 1, 8, 8, false, false, false, false)?;
/// let (cold, _, _) = store.add(&[20.0, 30.0], 0)?;
/// let (warm, _, _) = store.add(&[40.0, 60.0], 0)?;
/// assert_eq!(mean(&store, &[cold, warm])?, [30.0, 45.0]);
/// # Ok(())
/// # }
/// ```
pub trait PointStore<Label, Attributes>
where
    Label: Copy + Sync + Into<Attributes>,
    Attributes: Copy + Sync + Hash + Eq + Send,
{
    /// The window as it would be with `point` added, and nothing changed: the window moved on by one
    /// reading or, rotating, the unmoved one with the reading over the oldest. A point of full length
    /// comes back unchanged.
    ///
    /// ```
    /// # use point_store::{PointStore, ProvedPointStore};
    /// # fn main() -> point_store::Result<()> {
    /// let mut store = ProvedPointStore::new(4, 2, 10, 5, true, false, false, false)?;
    /// store.add(&[1.0, 2.0], 0)?;
    /// assert_eq!(store.shingled_point(&[3.0, 4.0])?, [1.0, 2.0, 3.0, 4.0]);
    /// # Ok(())
    /// # }
    /// ```
    fn shingled_point(&self, point: &[f32]) -> Result<Vec<f32>>;

    /// Where in a window the entries `values` of the reading after `look_ahead` more will stand.
    fn missing_indices(&self, look_ahead: usize, values: &[usize]) -> Result<Vec<usize>>;

    /// Where in a window a whole reading, that after `look_ahead` more, will stand.
    ///
    /// ```
    /// # use point_store::{PointStore, ProvedPointStore};
    /// # fn main() -> point_store::Result<()> {
    /// let store = ProvedPointStore::new(4, 2, 10, 5, true, false, false, false)?;
    /// assert_eq!(store.next_indices(0)?, [2, 3]);
    /// let rotating = ProvedPointStore::new(4, 2, 10, 5, true, true, false, false)?;
    /// assert_eq!(rotating.next_indices(0)?, [0, 1]);
    /// assert_eq!(rotating.next_indices(1)?, [2, 3]);
    /// # Ok(())
    /// # }
    /// ```
    fn next_indices(&self, look_ahead: usize) -> Result<Vec<usize>>;

    /// The point at a live index; in a rotating store turned by its place.
    fn copy(&self, index: usize) -> Result<Vec<f32>>;

    /// Whether `point` equals what [`copy`](PointStore::copy) gives, entry by entry by the 32 bits:
    /// -0.0 is not 0.0, and a NaN equals a NaN of the same bits.
    ///
    /// ```
    /// # use point_store::{PointStore, ProvedPointStore};
    /// # fn main() -> point_store::Result<()> {
    /// let mut store = ProvedPointStore::new(2, 1, 4, 4, false, false, false, false)?;
    /// let (index, _, _) = store.add(&[0.0, f32::NAN], 0)?;
    /// assert!(store.is_equal(&[0.0, f32::NAN], index)?);
    /// assert!(!store.is_equal(&[-0.0, f32::NAN], index)?);
    /// # Ok(())
    /// # }
    /// ```
    fn is_equal(&self, point: &[f32], index: usize) -> Result<bool>;

    /// Adds a point: one reading with internal shingling, else a whole window. The answer is the
    /// point's index, its label index ([`NONE`](crate::NONE) with labels off) and always `None`; while
    /// the first window is not full, both indices are [`NONE`](crate::NONE).
    ///
    /// ```
    /// # use point_store::{PointStore, ProvedPointStore, NONE};
    /// # fn main() -> point_store::Result<()> {
    /// let mut store = ProvedPointStore::new(4, 2, 10, 5, true, false, false, false)?;
    /// assert_eq!(store.add(&[1.0, 2.0], 0)?, (NONE, NONE, None));
    /// assert_eq!(store.add(&[3.0, 4.0], 0)?, (0, NONE, None));
    /// assert_eq!(store.copy(0)?, [1.0, 2.0, 3.0, 4.0]);
    /// # Ok(())
    /// # }
    /// ```
    fn add(&mut self, point: &[f32], label: Label) -> Result<(usize, usize, Option<Vec<f32>>)>;

    /// One count more for a live point and its label.
    fn inc(&mut self, index: usize, attribute_index: usize) -> Result<()>;

    /// One count less for a live point and a live label: which label a point was given is not kept, so
    /// any live one is taken. At 0 the index is free again.
    fn dec(&mut self, index: usize, attribute_index: usize) -> Result<()>;

    /// For each pair of an insert and a delete, each a point index and a label index: one count more
    /// for the first, one less for the second. A pair is skipped where its insert index is
    /// [`NONE`](crate::NONE), its delete where that index is. A refused pair ends the call; those
    /// before it stand.
    ///
    /// ```
    /// # use point_store::{PointStore, ProvedPointStore, NONE};
    /// # fn main() -> point_store::Result<()> {
    /// let mut store = ProvedPointStore::new(2, 1, 4, 4, false, false, false, false)?;
    /// let (old, _, _) = store.add(&[20.0, 21.0], 0)?;
    /// let (new, _, _) = store.add(&[22.0, 23.0], 0)?;
    /// store.adjust_count(&[((new, NONE), (old, NONE))])?;
    /// assert_eq!(store.count(new)?, 2);
    /// assert!(store.copy(old).is_err());
    /// # Ok(())
    /// # }
    /// ```
    #[allow(clippy::type_complexity)] // the original's
    fn adjust_count(&mut self, result: &[((usize, usize), (usize, usize))]) -> Result<()>;

    /// Moves the live points together, so that the floats of given-up ones can be used again.
    fn compact(&mut self) -> Result<()>;

    /// The label that a point was added with, by its label index.
    fn label(&self, index: usize) -> Result<Label>;

    /// The class of that label.
    ///
    /// ```
    /// # use point_store::{PointStore, ProvedPointStore};
    /// # fn main() -> point_store::Result<()> {
    /// let mut store = ProvedPointStore::new(1, 1, 4, 4, false, false, true, false)?;
    /// let (_, label, _) = store.add(&[48.5], 9)?;
    /// assert_eq!(store.label(label)?, 9);
    /// assert_eq!(store.attribute(label)?, 3);
    /// # Ok(())
    /// # }
    /// ```
    fn attribute(&self, index: usize) -> Result<Attributes>;

    /// The sum of points, each by its weight, entry by entry as the floats are stored: a rotating
    /// store's are not turned.
    fn point_sum(&self, list: &[(usize, usize)]) -> Result<Vec<f32>>;

    /// Ten floats: 1.0 at the label's attribute slot modulo ten, else 0.0.
    fn attribute_vec(&self, index: usize) -> Result<Vec<f32>>;
}
