//! Stands in for the crate of this name, of which the Rust uses nothing.
