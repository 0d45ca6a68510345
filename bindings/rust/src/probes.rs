//! The product for the eight-probe block: a store of its own that takes sets of eight readings.

use crate::lent::{Added, LentPointStore};
use crate::memory::{block_words, LentMemory, ReadMemory, RECORD_WORDS};
#[cfg(feature = "alloc")]
use crate::point_store::PointStore;
use crate::refusal::{Refusal, Result};
use crate::shape::Shape;
#[cfg(feature = "alloc")]
use crate::store::ProvedPointStore;
use crate::sys;

/// How many probes there are.
pub const PROBES: usize = 8;

/// How many words a product's record has: its store's, then its eight tallies.
pub const PROBES_WORDS: usize = RECORD_WORDS + PROBES;

/// What one probe reports.
#[derive(Clone, Copy, Debug, PartialEq)]
pub enum Reading {
    /// A float that was measured.
    Measured(f32),
    /// One that was not, stored like a measured one and tallied for its probe.
    Estimated(f32),
    /// None: the probe's last stored float is repeated.
    Absent,
}

impl Reading {
    /// The kind and the float as the library takes them. The float goes over as its bits, so that a
    /// NaN keeps its own.
    fn parts(self) -> (u8, f32) {
        match self {
            Reading::Measured(float) => (0, float),
            Reading::Estimated(float) => (1, float),
            Reading::Absent => (2, 0.0),
        }
    }
}

/// For a shape within the bounds: each table begins at a word.
pub(crate) fn probes_block_words(shape: &Shape) -> usize {
    block_words(shape) - RECORD_WORDS + PROBES_WORDS
}

fn set(memory: &mut LentMemory<'_>, readings: [Reading; PROBES], label: usize) -> Result<Added> {
    let mut answer = sys::AddAnswer::default();
    let kinds = readings.map(|reading| reading.parts().0);
    let floats = readings.map(|reading| reading.parts().1);
    Refusal::of_number(sys::probes_set(memory, &kinds, &floats, label, &mut answer))?;
    Ok(Added::of(&answer))
}

fn tallies(memory: &ReadMemory<'_>) -> Result<[u32; PROBES]> {
    let mut out = [0; PROBES];
    Refusal::of_number(sys::probes_tallies(memory, &mut out))?;
    Ok(out)
}

/// A product over lent memory, every call of which is a proved function of the library
/// `point_store_c`. It allocates nothing; [`Probes`](crate::Probes) says what it does.
///
/// ```
/// use point_store::{Added, LentMemory, Reading::*, Shape};
///
/// let shape = Shape::new(16, 4).shingle_size(2).internal_shingling(true);
/// let mut block = [0; 128];
/// assert!(shape.probes_block_words() <= block.len());
/// let mut probes = shape.open_probes_in(LentMemory::in_probes_block(&mut block, &shape)?)?;
/// assert_eq!(probes.set([Measured(20.0); 8], 0)?, Added::Waiting);
/// let mut readings = [Measured(21.0); 8];
/// readings[3] = Absent;
/// readings[5] = Estimated(20.5);
/// probes.set(readings, 0)?;
/// let mut row = [0.0; 16];
/// probes.store().copy(0, &mut row)?;
/// assert_eq!(row[8..], [21.0, 21.0, 21.0, 20.0, 21.0, 20.5, 21.0, 21.0]);
/// assert_eq!(probes.tallies()?, [0, 0, 0, 0, 0, 1, 0, 0]);
/// # Ok::<(), point_store::Refusal>(())
/// ```
#[derive(Debug)]
pub struct LentProbes<'a> {
    store: LentPointStore<'a>,
}

impl<'a> LentProbes<'a> {
    /// Opens a product in lent memory, with a record of [`PROBES_WORDS`] words; what it held is gone.
    /// [`Refusal::Shape`] for a shape that is no product's, and [`Refusal::IllFormed`] where a slice is
    /// too short.
    pub fn open(mut memory: LentMemory<'a>, shape: &Shape) -> Result<Self> {
        Refusal::of_number(sys::probes_open(&mut memory, shape))?;
        Ok(LentProbes {
            store: LentPointStore { memory },
        })
    }

    /// Goes on with a product that is open in this memory; [`Refusal::IllFormed`] where there is none.
    /// That is no check against corruption: memory can be well-formed and wrong.
    pub fn resume(memory: LentMemory<'a>) -> Result<Self> {
        let probes = LentProbes {
            store: LentPointStore { memory },
        };
        probes.tallies()?;
        Ok(probes)
    }

    /// The memory, with the product in it.
    pub fn into_memory(self) -> LentMemory<'a> {
        self.store.into_memory()
    }

    /// Takes a set of eight readings, one a probe, and answers as a store's add does.
    pub fn set(&mut self, readings: [Reading; PROBES], label: usize) -> Result<Added> {
        set(&mut self.store.memory, readings, label)
    }

    /// How many estimates each probe has had in accepted sets.
    pub fn tallies(&self) -> Result<[u32; PROBES]> {
        tallies(&self.store.memory.read())
    }

    /// One count more for a window of the store inside.
    pub fn inc(&mut self, index: usize, label: usize) -> Result<()> {
        self.store.inc(index, label)
    }

    /// One fewer: at 0 the window is given up.
    pub fn dec(&mut self, index: usize, label: usize) -> Result<()> {
        self.store.dec(index, label)
    }

    /// Compacts the store inside.
    pub fn compact(&mut self) -> Result<()> {
        self.store.compact()
    }

    /// The store inside, for its readings.
    pub fn store(&self) -> &LentPointStore<'a> {
        &self.store
    }
}

/// The product for the eight-probe block over a store of its own, which has base 8 and internal
/// shingling: a set of eight [`Reading`]s is one add. It is opened with [`Shape::open_probes`].
///
/// An absent reading repeats its probe's last stored float; before the first accepted set there is
/// none, and the set is refused with [`Refusal::NoEarlierReading`]. An estimated one is tallied for its
/// probe once its set is accepted, waiting ones included. A refused set alters no tally and no last
/// float. Copy, count and the other readings are those of the [`store`](Self::store) inside.
///
/// ```
/// use point_store::{PointStore, Reading::*, Refusal, Shape};
///
/// # fn main() -> point_store::Result<()> {
/// let mut probes = Shape::new(8, 4).internal_shingling(true).open_probes()?;
/// assert_eq!(probes.set([Absent; 8], 0), Err(Refusal::NoEarlierReading));
/// probes.set([Estimated(20.0); 8], 0)?;
/// probes.set([Absent; 8], 0)?;
/// assert_eq!(probes.store().copy(1)?, [20.0; 8]);
/// assert_eq!(probes.tallies()?, [1; 8]);
/// # Ok(())
/// # }
/// ```
#[cfg(feature = "alloc")]
#[derive(Clone, Debug)]
pub struct Probes {
    store: ProvedPointStore,
}

#[cfg(feature = "alloc")]
impl Probes {
    /// Nothing is allocated for a shape that is refused.
    pub(crate) fn opened(shape: &Shape) -> Result<Probes> {
        shape.check_probes()?;
        let mut memory = crate::memory::Memory::new(shape);
        memory.words.resize(PROBES_WORDS, 0);
        Refusal::of_number(sys::probes_open(&mut memory.lent(), shape))?;
        Ok(Probes {
            store: ProvedPointStore { memory },
        })
    }

    /// Takes a set of eight readings, one a probe, and answers as a store's add does.
    pub fn set(&mut self, readings: [Reading; PROBES], label: usize) -> Result<Added> {
        set(&mut self.store.memory.lent(), readings, label)
    }

    /// How many estimates each probe has had in accepted sets.
    pub fn tallies(&self) -> Result<[u32; PROBES]> {
        tallies(&self.store.memory.read())
    }

    /// One count more for a window of the store inside.
    pub fn inc(&mut self, index: usize, label: usize) -> Result<()> {
        self.store.inc(index, label)
    }

    /// One fewer: at 0 the window is given up.
    pub fn dec(&mut self, index: usize, label: usize) -> Result<()> {
        self.store.dec(index, label)
    }

    /// Compacts the store inside: indices and copies stay.
    pub fn compact(&mut self) -> Result<()> {
        self.store.compact()
    }

    /// The store inside, for its readings.
    pub fn store(&self) -> &ProvedPointStore {
        &self.store
    }
}
