//! The store that owns its memory.

use crate::lent::{name_in, Added, Item, Pair, MAX_ATTRIBUTES, NAME_BYTES, NONE};
use crate::memory::Memory;
use crate::point_store::PointStore;
use crate::refusal::{AdjustRefusal, Refusal, Result};
use crate::shape::Shape;
use alloc::string::String;
use alloc::vec;
use alloc::vec::Vec;

/// A point store whose every call is a proved function of the library `point_store_c`.
///
/// It owns the memory that the library is lent. Labels are reason codes 0 to 23, and a label's
/// attribute is its class, 0 to 9. `docs/STORE.md` in the repository says what a store does.
#[derive(Clone, Debug)]
pub struct ProvedPointStore {
    pub(crate) memory: Memory,
}

impl ProvedPointStore {
    /// Opens a store. `store_attributes` turns labels and attributes on; `_propagate_attributes` is
    /// there because the Rust original's constructor has it, which never reads it either.
    ///
    /// The bounds are those of [`Shape`], else [`Refusal::Shape`]; [`builder`](Self::builder) reads
    /// better.
    ///
    /// ```
    /// use point_store::{ProvedPointStore, Refusal};
    ///
    /// assert!(ProvedPointStore::new(64, 8, 256, 256, true, false, true, false).is_ok());
    /// let refused = ProvedPointStore::new(65, 1, 1, 1, false, false, false, false);
    /// assert_eq!(refused.unwrap_err(), Refusal::Shape);
    /// ```
    #[allow(clippy::too_many_arguments)] // the original's
    pub fn new(
        dimensions: usize,
        shingle_size: usize,
        capacity: usize,
        initial_capacity: usize,
        internal_shingling: bool,
        internal_rotation: bool,
        store_attributes: bool,
        _propagate_attributes: bool,
    ) -> Result<ProvedPointStore> {
        Shape::new(dimensions, capacity)
            .shingle_size(shingle_size)
            .initial_capacity(initial_capacity)
            .internal_shingling(internal_shingling)
            .internal_rotation(internal_rotation)
            .labels(store_attributes)
            .open()
    }

    /// A shape to be filled in and then opened: see [`Shape`].
    ///
    /// ```
    /// use point_store::ProvedPointStore;
    ///
    /// let store = ProvedPointStore::builder(6, 16).shingle_size(3).internal_shingling(true).open()?;
    /// assert_eq!(store.live_number()?, 0);
    /// # Ok::<(), point_store::Refusal>(())
    /// ```
    pub const fn builder(dimensions: usize, capacity: usize) -> Shape<'static> {
        Shape::new(dimensions, capacity)
    }

    /// Nothing is allocated for a shape outside the bounds.
    pub(crate) fn opened(shape: &Shape<'_>) -> Result<ProvedPointStore> {
        shape.check()?;
        let mut memory = Memory::new(shape);
        memory.lent().open(shape)?;
        Ok(ProvedPointStore { memory })
    }

    /// The library's name: its version, the requested changes that it has, the port's source with its
    /// commit, and the target.
    ///
    /// ```
    /// assert!(point_store::ProvedPointStore::name().starts_with("point store"));
    /// ```
    pub fn name() -> String {
        let mut out = [0; NAME_BYTES];
        String::from(name_in(&mut out).unwrap_or_default())
    }

    /// [`add`](PointStore::add), with how the row was laid and where, and how many indices remain free.
    ///
    /// ```
    /// use point_store::{Added, Laid, ProvedPointStore, NONE};
    ///
    /// # fn main() -> point_store::Result<()> {
    /// let mut store = ProvedPointStore::new(4, 2, 10, 5, true, false, false, false)?;
    /// assert_eq!(store.add_laid(&[1.0, 2.0], 0)?, Added::Waiting);
    /// let whole = Added::Kept { index: 0, label: NONE, laid: Laid::Whole(0), free_indices: 4 };
    /// assert_eq!(store.add_laid(&[3.0, 4.0], 0)?, whole);
    /// let joined = Added::Kept { index: 1, label: NONE, laid: Laid::Joined(1), free_indices: 3 };
    /// assert_eq!(store.add_laid(&[5.0, 6.0], 0)?, joined);
    /// # Ok(())
    /// # }
    /// ```
    pub fn add_laid(&mut self, point: &[f32], label: usize) -> Result<Added> {
        self.memory.lent().add(point, label)
    }

    /// [`adjust_count`](PointStore::adjust_count), with how many pairs stand where one is refused.
    ///
    /// ```
    /// use point_store::{PointStore, ProvedPointStore, Refusal, NONE};
    ///
    /// # fn main() -> point_store::Result<()> {
    /// let mut store = ProvedPointStore::new(1, 1, 4, 4, false, false, false, false)?;
    /// let (index, _, _) = store.add(&[21.5], 0)?;
    /// let none = (NONE, NONE);
    /// let pairs = [((index, NONE), none), (none, none), ((3, NONE), none), ((index, NONE), none)];
    /// let refused = store.adjust_count_detailed(&pairs).unwrap_err();
    /// assert_eq!(refused.refusal, Refusal::PointNotInUse);
    /// assert_eq!(refused.pairs_before, 2);
    /// assert_eq!(store.count(index)?, 2);
    /// # Ok(())
    /// # }
    /// ```
    #[allow(clippy::type_complexity)] // the original's
    pub fn adjust_count_detailed(
        &mut self,
        result: &[((usize, usize), (usize, usize))],
    ) -> core::result::Result<(), AdjustRefusal> {
        let pairs: Vec<Pair> = result
            .iter()
            .map(|&(insert, delete)| Pair {
                insert_index: insert.0,
                insert_label: insert.1,
                delete_index: delete.0,
                delete_label: delete.1,
            })
            .collect();
        self.memory.lent().adjust(&pairs)
    }

    /// The count of a live point.
    pub fn count(&self, index: usize) -> Result<usize> {
        self.memory.read().count(index)
    }

    /// How many points are live.
    pub fn live_number(&self) -> Result<usize> {
        self.memory.read().live_number()
    }

    /// Where the next row is written: how many floats are taken, those of given-up points included.
    ///
    /// ```
    /// use point_store::{PointStore, ProvedPointStore, NONE};
    ///
    /// # fn main() -> point_store::Result<()> {
    /// let mut store = ProvedPointStore::new(2, 1, 4, 4, false, false, false, false)?;
    /// let (index, _, _) = store.add(&[20.0, 21.0], 0)?;
    /// store.add(&[22.0, 23.0], 0)?;
    /// store.dec(index, NONE)?;
    /// assert_eq!((store.live_number()?, store.free_start()?), (1, 4));
    /// store.compact()?;
    /// assert_eq!((store.live_number()?, store.free_start()?), (1, 2));
    /// # Ok(())
    /// # }
    /// ```
    pub fn free_start(&self) -> Result<usize> {
        self.memory.read().free_start()
    }

    /// The store on a page: a line for each live index in rising order, its index, count and place
    /// right-justified in six columns each.
    ///
    /// ```
    /// use point_store::{PointStore, ProvedPointStore, NONE};
    ///
    /// # fn main() -> point_store::Result<()> {
    /// let mut store = ProvedPointStore::new(2, 1, 4, 4, false, false, false, false)?;
    /// let (index, _, _) = store.add(&[20.0, 21.0], 0)?;
    /// store.add(&[22.0, 23.0], 0)?;
    /// store.inc(index, NONE)?;
    /// assert_eq!(store.page()?, "     0     2     0\n     1     1     1\n");
    /// # Ok(())
    /// # }
    /// ```
    pub fn page(&self) -> Result<String> {
        let mut text = vec![0; LINE_BYTES * self.live_number()?];
        let length = self.memory.read().page(&mut text)?;
        text.truncate(length);
        // Digits, spaces and line feeds.
        Ok(text.into_iter().map(char::from).collect())
    }
}

/// The bytes of a page's line.
const LINE_BYTES: usize = 19;

/// The output, `length` entries long, that a call fills.
fn filled<T: Clone + Default>(
    length: usize,
    call: impl FnOnce(&mut [T]) -> Result<()>,
) -> Result<Vec<T>> {
    let mut out = vec![T::default(); length];
    call(&mut out)?;
    Ok(out)
}

impl PointStore<usize, usize> for ProvedPointStore {
    fn shingled_point(&self, point: &[f32]) -> Result<Vec<f32>> {
        let memory = self.memory.read();
        filled(memory.dimensions(), |out| memory.shingled_point(point, out))
    }

    fn missing_indices(&self, look_ahead: usize, values: &[usize]) -> Result<Vec<usize>> {
        let memory = self.memory.read();
        filled(values.len(), |out| {
            memory.missing_indices(look_ahead, values, out)
        })
    }

    fn next_indices(&self, look_ahead: usize) -> Result<Vec<usize>> {
        let memory = self.memory.read();
        filled(memory.base(), |out| memory.next_indices(look_ahead, out))
    }

    fn copy(&self, index: usize) -> Result<Vec<f32>> {
        let memory = self.memory.read();
        filled(memory.dimensions(), |out| memory.copy(index, out))
    }

    fn is_equal(&self, point: &[f32], index: usize) -> Result<bool> {
        self.memory.read().is_equal(point, index)
    }

    fn add(&mut self, point: &[f32], label: usize) -> Result<(usize, usize, Option<Vec<f32>>)> {
        Ok(match self.add_laid(point, label)? {
            Added::Kept { index, label, .. } => (index, label, None),
            Added::Waiting => (NONE, NONE, None),
        })
    }

    fn inc(&mut self, index: usize, attribute_index: usize) -> Result<()> {
        self.memory.lent().inc(index, attribute_index)
    }

    fn dec(&mut self, index: usize, attribute_index: usize) -> Result<()> {
        self.memory.lent().dec(index, attribute_index)
    }

    fn adjust_count(&mut self, result: &[((usize, usize), (usize, usize))]) -> Result<()> {
        self.adjust_count_detailed(result).map_err(Refusal::from)
    }

    fn compact(&mut self) -> Result<()> {
        self.memory.lent().compact()
    }

    fn label(&self, index: usize) -> Result<usize> {
        self.memory.read().label(index)
    }

    fn attribute(&self, index: usize) -> Result<usize> {
        self.memory.read().attribute(index)
    }

    fn point_sum(&self, list: &[(usize, usize)]) -> Result<Vec<f32>> {
        let items: Vec<Item> = list
            .iter()
            .map(|&(index, weight)| Item { index, weight })
            .collect();
        let memory = self.memory.read();
        filled(memory.dimensions(), |out| memory.point_sum(&items, out))
    }

    fn attribute_vec(&self, index: usize) -> Result<Vec<f32>> {
        let memory = self.memory.read();
        filled(MAX_ATTRIBUTES, |out| memory.attribute_vec(index, out))
    }
}

#[cfg(test)]
mod tests {
    use super::*;

    const SEQUENCE: usize = 8;

    fn opened() -> ProvedPointStore {
        ProvedPointStore::new(4, 2, 10, 5, true, false, true, false).unwrap()
    }

    #[test]
    fn the_sequence_ends() {
        let mut store = opened();
        store.memory.words[SEQUENCE] = 4_294_967_294;
        assert!(store.add(&[1.0, 2.0], 0).is_ok());
        assert_eq!(store.add(&[1.0, 2.0], 0), Err(Refusal::SequenceFull));
        assert_eq!(store.add(&[1.0], 0), Err(Refusal::Length));
        assert_eq!(store.add(&[1.0, 2.0], 24), Err(Refusal::SequenceFull));
    }

    #[test]
    fn an_ill_formed_store_is_refused_by_every_call() {
        let mut store = opened();
        store.memory.reference_count[0] = 1;
        assert_eq!(store.add(&[1.0, 2.0], 0), Err(Refusal::IllFormed));
        assert_eq!(store.inc(0, 0), Err(Refusal::IllFormed));
        assert_eq!(store.dec(0, 0), Err(Refusal::IllFormed));
        let refused = store
            .adjust_count_detailed(&[((0, 0), (0, 0))])
            .unwrap_err();
        assert_eq!(refused.refusal, Refusal::IllFormed);
        assert_eq!(refused.pairs_before, 0);
        assert_eq!(store.compact(), Err(Refusal::IllFormed));
        assert_eq!(store.copy(0), Err(Refusal::IllFormed));
        assert_eq!(store.count(0), Err(Refusal::IllFormed));
        assert_eq!(store.live_number(), Err(Refusal::IllFormed));
        assert_eq!(store.free_start(), Err(Refusal::IllFormed));
        assert_eq!(store.is_equal(&[0.0; 4], 0), Err(Refusal::IllFormed));
        assert_eq!(store.point_sum(&[]), Err(Refusal::IllFormed));
        assert_eq!(store.shingled_point(&[0.0; 4]), Err(Refusal::IllFormed));
        assert_eq!(store.missing_indices(0, &[]), Err(Refusal::IllFormed));
        assert_eq!(store.next_indices(0), Err(Refusal::IllFormed));
        assert_eq!(store.label(0), Err(Refusal::IllFormed));
        assert_eq!(store.attribute(0), Err(Refusal::IllFormed));
        assert_eq!(store.attribute_vec(0), Err(Refusal::IllFormed));
    }

    #[test]
    fn a_record_that_is_no_store_is_refused() {
        for (word, value) in [(3, 2), (SEQUENCE, 4_294_967_296), (0, 65), (9, 0), (9, 11)] {
            let mut store = opened();
            store.memory.words[word] = value;
            assert_eq!(store.live_number(), Err(Refusal::IllFormed), "word {word}");
        }
    }

    #[test]
    fn one_entry_short_is_too_short() {
        let mut store = opened();
        store.memory.attribute_ends.pop();
        assert_eq!(store.live_number(), Err(Refusal::IllFormed));
    }
}
