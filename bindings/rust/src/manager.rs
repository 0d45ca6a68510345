//! The interval manager by itself.

use crate::refusal::{Refusal, Result};
use crate::sys;

/// A stack of free intervals, from which indices below a capacity are taken and to which they are
/// given back: what a store keeps its indices, label indices and attribute slots with.
///
/// Its two tables are vectors, arrays or lent slices, each with at least as many entries as the
/// capacity.
///
/// ```
/// use point_store::{Given, IntervalManager, Refusal};
///
/// let mut manager = IntervalManager::new([0; 4], [0; 4], 3)?;
/// assert_eq!(manager.get()?, Given { index: 0, free_indices: 2 });
/// assert_eq!((manager.get()?.index, manager.used()?), (1, 2));
/// manager.release(0)?;
/// assert_eq!(manager.get()?.index, 0);
/// assert_eq!(manager.release(2), Err(Refusal::NotReleasable));
/// assert_eq!(manager.get()?, Given { index: 2, free_indices: 0 });
/// assert_eq!(manager.get(), Err(Refusal::PointsFull));
/// manager.change_capacity(4)?;
/// assert_eq!((manager.get()?.index, manager.is_empty()?), (3, true));
/// # Ok::<(), Refusal>(())
/// ```
#[derive(Clone, Debug)]
pub struct IntervalManager<Table> {
    words: [u64; 2],
    starts: Table,
    ends: Table,
}

/// What a manager's get gives.
#[derive(Clone, Copy, Debug, PartialEq, Eq, Hash)]
pub struct Given {
    /// The index taken.
    pub index: usize,
    /// How many are then free.
    pub free_indices: usize,
}

impl<Table: AsRef<[u16]> + AsMut<[u16]>> IntervalManager<Table> {
    /// A manager of `size` free indices, 1 to 1,024, else [`Refusal::ManagerCapacity`]. Tables shorter
    /// than that are refused with [`Refusal::IllFormed`].
    pub fn new(starts: Table, ends: Table, size: usize) -> Result<Self> {
        let mut manager = IntervalManager {
            words: [0; 2],
            starts,
            ends,
        };
        Refusal::of_number(sys::manager_new(
            &mut manager.words,
            manager.starts.as_mut(),
            manager.ends.as_mut(),
            size,
        ))?;
        Ok(manager)
    }

    /// A larger capacity, at most 1,024 ([`Refusal::ManagerCapacity`]) and at most the tables' lengths
    /// ([`Refusal::IllFormed`]); one that is not larger changes nothing.
    pub fn change_capacity(&mut self, new_capacity: usize) -> Result<()> {
        Refusal::of_number(sys::manager_change_capacity(
            &mut self.words,
            self.starts.as_mut(),
            self.ends.as_mut(),
            new_capacity,
        ))
    }

    /// Takes a free index, and tells how many are left; [`Refusal::PointsFull`] where there is none.
    pub fn get(&mut self) -> Result<Given> {
        let (mut index, mut free_indices) = (0, 0);
        Refusal::of_number(sys::manager_get(
            &mut self.words,
            self.starts.as_mut(),
            self.ends.as_ref(),
            &mut index,
            &mut free_indices,
        ))?;
        Ok(Given {
            index: index as usize,
            free_indices: free_indices as usize,
        })
    }

    /// Gives an index back; [`Refusal::NotReleasable`] for one that is free, or not below the capacity.
    pub fn release(&mut self, index: usize) -> Result<()> {
        Refusal::of_number(sys::manager_release(
            &mut self.words,
            self.starts.as_mut(),
            self.ends.as_mut(),
            index,
        ))
    }

    /// How many indices are taken.
    pub fn used(&self) -> Result<usize> {
        self.number(sys::manager_used)
    }

    /// Whether no index is free.
    pub fn is_empty(&self) -> Result<bool> {
        self.number(sys::manager_is_empty).map(|empty| empty != 0)
    }

    /// The capacity.
    pub fn get_capacity(&self) -> Result<usize> {
        self.number(sys::manager_get_capacity)
    }

    fn number(&self, call: fn(&[u64], &[u16], &[u16], &mut u64) -> u64) -> Result<usize> {
        let mut answer = 0;
        Refusal::of_number(call(
            &self.words,
            self.starts.as_ref(),
            self.ends.as_ref(),
            &mut answer,
        ))?;
        Ok(answer as usize)
    }
}
