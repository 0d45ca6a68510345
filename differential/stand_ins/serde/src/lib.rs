//! Stands in for the crate of this name, of which the Rust uses the two derives alone.
pub use serde_derive::{Deserialize, Serialize};
