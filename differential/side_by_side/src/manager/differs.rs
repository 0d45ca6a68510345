//! Where the Rust takes what document 01 refuses: the smallest input of each, and what the Rust makes of it.
use super::{made_by_library, Call, Memory};
use crate::coverage::Coverage;
use reference::common::intervalstoremanager::IntervalStoreManager;

struct Difference {
    name: &'static str,
    /// The capacity opened at before the call.
    opened: usize,
    call: Call,
    refusal: u64,
    /// What the Rust's `used` answers after it.
    used: usize,
}

const DIFFERENCES: [Difference; 6] = [
    Difference {
        name: "opening at 0",
        opened: 1,
        call: Call::New(0),
        refusal: 13,
        used: 0,
    },
    Difference {
        name: "opening above 1,024",
        opened: 1,
        call: Call::New(1025),
        refusal: 13,
        used: 0,
    },
    Difference {
        name: "a change to above 1,024",
        opened: 1,
        call: Call::ChangeCapacity(1025),
        refusal: 13,
        used: 0,
    },
    Difference {
        name: "release of a free index",
        opened: 1,
        call: Call::Release(0),
        refusal: 14,
        used: usize::MAX,
    },
    Difference {
        name: "release of an index not below the capacity",
        opened: 1,
        call: Call::Release(1),
        refusal: 14,
        used: usize::MAX,
    },
    Difference {
        name: "release of 2^64 - 1, whose next index wraps to the top's start",
        opened: 1,
        call: Call::Release(usize::MAX),
        refusal: 14,
        used: usize::MAX,
    },
];

fn used_in_rust(opened: usize, call: Call) -> usize {
    let mut rust = IntervalStoreManager::<usize>::new(opened);
    match call {
        Call::New(size) => rust = IntervalStoreManager::new(size),
        Call::ChangeCapacity(n) => rust.change_capacity(n),
        Call::Release(i) => rust.release(i).expect("a release has no error"),
        _ => unreachable!("no such difference"),
    }
    rust.used()
}

pub fn each(coverage: &mut Coverage) -> Result<(), String> {
    for d in DIFFERENCES {
        let mut memory = Memory {
            words: vec![0; 2],
            starts: vec![0; 1100],
            ends: vec![0; 1100],
        };
        made_by_library(Call::New(d.opened), &mut memory);
        let before = memory.clone();
        let value = made_by_library(d.call, &mut memory).value;
        let used = used_in_rust(d.opened, d.call);
        if value != d.refusal || memory != before || used != d.used {
            return Err(format!("{}: refused with {value}, used in the Rust {used}", d.name));
        }
        coverage.meet(match value {
            13 => "taken by the Rust, refused with 13",
            _ => "taken by the Rust, refused with 14",
        });
    }
    Ok(())
}
