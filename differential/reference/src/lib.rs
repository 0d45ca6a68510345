//! The Rust's own files, compiled unchanged from where they stand. Each is included in a module of its name, so that the
//! readers beside it reach its private fields; they change nothing (but for `at_sequence`, which says so).
#![allow(dead_code, clippy::all)]

pub mod errors {
    include!(concat!(env!("RCFLIB"), "/errors.rs"));
}

pub mod types {
    include!(concat!(env!("RCFLIB"), "/types.rs"));
}

pub mod util {
    include!(concat!(env!("RCFLIB"), "/util.rs"));
}

pub mod pointstore {
    include!(concat!(env!("RCFLIB"), "/pointstore.rs"));

    mod readers;
}

pub mod reasons;

/// The store that document 01 compares with: 16-bit locations, reason codes and their classes.
pub type Store = pointstore::VectorizedPointStore<u16, reasons::Code, reasons::Class>;

pub mod common {
    pub mod intervalstoremanager {
        include!(concat!(env!("RCFLIB"), "/common/intervalstoremanager.rs"));

        impl<T> IntervalStoreManager<T> {
            pub fn last_in_use(&self) -> usize {
                self.last_in_use
            }

            pub fn starts(&self) -> &[T] {
                &self.free_indices_start
            }

            pub fn ends(&self) -> &[T] {
                &self.free_indices_end
            }
        }
    }
}
