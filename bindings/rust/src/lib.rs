//! A store of float windows, as a safe wrapper around the proved static library `point_store_c`.
//!
//! [`ProvedPointStore`] has the methods of the Rust original's trait [`PointStore`], in the same
//! argument order and with the same return types. It owns its memory and lends it to the library for
//! each call. A call answers, or refuses with a [`Refusal`]; none panics. [`Hold`] is a store that
//! keeps the newest points and gives up older ones by itself. [`Probes`] is the product for the
//! eight-probe block. [`LentPointStore`], [`LentHold`] and [`LentProbes`] have the same calls over memory that the caller lends, for `no_std` without an allocator, and
//! [`IntervalManager`] is the library's manager of free indices by itself.
//!
//! `docs/STORE.md` in the repository says what a store does: points and windows, places, growth,
//! compaction, rotation, labels, and each call with its refusals in order.
//!
//! ```
//! use point_store::{PointStore, ProvedPointStore, NONE};
//!
//! # fn main() -> point_store::Result<()> {
//! // Windows of two readings of two probes, up to ten of them.
//! let mut store = ProvedPointStore::new(4, 2, 10, 5, true, false, false, false)?;
//! for reading in [[21.0, 30.5], [21.5, 31.0], [22.0, 33.5]] {
//!     store.add(&reading, 0)?;
//! }
//! assert_eq!(store.copy(0)?, [21.0, 30.5, 21.5, 31.0]);
//! assert_eq!(store.copy(1)?, [21.5, 31.0, 22.0, 33.5]);
//! // The two windows share the middle reading.
//! assert_eq!(store.free_start()?, 6);
//!
//! store.dec(0, NONE)?;
//! store.compact()?;
//! assert_eq!(store.copy(1)?, [21.5, 31.0, 22.0, 33.5]);
//! assert_eq!(store.free_start()?, 4);
//! # Ok(())
//! # }
//! ```
//!
//! Features: `std` (on by default) and `alloc`, which [`ProvedPointStore`], [`Hold`],
//! [`Probes`] and [`PointStore`] need.
//! The archive `libpoint_store_c.a` is taken from the folder that `POINT_STORE_LIB` names, from the
//! repository's `target/staticlib`, or from where `pkg-config` finds it installed.
#![warn(missing_docs)]
#![cfg_attr(not(feature = "std"), no_std)]

#[cfg(feature = "alloc")]
extern crate alloc;

mod hold;
mod lent;
mod manager;
mod memory;
#[cfg(feature = "alloc")]
mod point_store;
mod probes;
mod refusal;
mod shape;
#[cfg(feature = "alloc")]
mod store;
mod sys;

#[cfg(feature = "alloc")]
pub use hold::Hold;
pub use hold::{LentHold, LentHoldMemory, HOLD_WORDS};
pub use lent::{
    name_in, Added, Item, Laid, LentPointStore, Pair, MAX_ATTRIBUTES, NAME_BYTES, NONE,
};
pub use manager::{Given, IntervalManager};
pub use memory::{LentMemory, RECORD_WORDS};
#[cfg(feature = "alloc")]
pub use point_store::PointStore;
#[cfg(feature = "alloc")]
pub use probes::Probes;
pub use probes::{LentProbes, Reading, PROBES, PROBES_WORDS};
pub use refusal::{AdjustRefusal, Refusal, Result};
pub use shape::{Shape, CLASS_TEXT_BYTES, REASON_CLASSES};
#[cfg(feature = "alloc")]
pub use store::ProvedPointStore;
