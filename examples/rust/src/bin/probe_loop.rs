//! An eight-probe loop over the product of the proved point store: each turn takes a set of readings and keeps windows of three sets. A
//! probe that says nothing is Absent and repeats its last float; one whose value was worked out from its neighbours is Estimated, and
//! the loop tells how often that was.
//!
//! At the root of the repository:
//!
//!     make
//!     cargo run --manifest-path examples/rust/Cargo.toml --bin probe_loop
//!
//! The file 'probe_loop.stdout' is what it prints.

use point_store::{Added, PointStore, Reading, Result, Shape, NONE, PROBES};
use std::collections::VecDeque;

const SETS: usize = 3;
const WINDOWS: usize = 4;
const TURNS: usize = 9;

/// What the probes report in a turn: probe 2 is silent in turns 3 and 4, and probe 5 is reckoned from 4 and 6 in turns 4 to 6.
fn report(turn: usize) -> [Reading; PROBES] {
    let degrees = |probe: usize| 20.0 + probe as f32 + 0.5 * turn as f32;
    let mut readings: [Reading; PROBES] =
        std::array::from_fn(|probe| Reading::Measured(degrees(probe)));
    if (3..=4).contains(&turn) {
        readings[2] = Reading::Absent;
    }
    if (4..=6).contains(&turn) {
        readings[5] = Reading::Estimated((degrees(4) + degrees(6)) / 2.0);
    }
    readings
}

fn main() -> Result<()> {
    let shape = Shape::new(SETS * PROBES, WINDOWS)
        .shingle_size(SETS)
        .internal_shingling(true);
    let mut probes = shape.open_probes()?;
    let mut windows = VecDeque::new();
    let mut left = WINDOWS;
    for turn in 0..TURNS {
        // The window that has been looked at longest makes room for the next.
        if left == 0 {
            if let Some(oldest) = windows.pop_front() {
                probes.dec(oldest, NONE)?;
            }
        }
        match probes.set(report(turn), 0)? {
            Added::Waiting => println!("turn {turn}: waiting"),
            Added::Kept {
                index,
                free_indices,
                ..
            } => {
                windows.push_back(index);
                left = free_indices;
                let window = probes.store().copy(index)?;
                let of = |probe: usize| {
                    let floats: Vec<String> = (0..SETS)
                        .map(|k| format!("{:.1}", window[k * PROBES + probe]))
                        .collect();
                    floats.join(" ")
                };
                println!(
                    "turn {turn}: window {index}, {left} left, probe 2: {}, probe 5: {}",
                    of(2),
                    of(5)
                );
            }
        }
    }
    let tallies: Vec<String> = probes.tallies()?.iter().map(u32::to_string).collect();
    println!("estimates: {}", tallies.join(" "));
    Ok(())
}
