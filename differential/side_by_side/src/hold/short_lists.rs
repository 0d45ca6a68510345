//! Every short list of hold adds over small shapes, all widths and all flags, beside the Rust.
use super::call::HoldCall;
use super::memory::*;
use super::sides::HoldSides;
use crate::coverage::Coverage;
use library::store::Opening;
use random::Random;

/// Dimensions, shingle size, capacity, starting capacity.
const SHAPES: [[usize; 4]; 5] = [[1, 1, 2, 2], [2, 2, 2, 2], [2, 2, 3, 1], [4, 2, 3, 3], [1, 1, 4, 2]];

/// Points of rising numbers, of which the second joins the first where rows overlap, one that joins nothing, and one that is too long.
fn adds(o: Opening) -> Vec<HoldCall> {
    let n = if o.internal_shingling == 1 {
        o.dimensions / o.shingle_size
    } else {
        o.dimensions
    };
    let step = o.dimensions / o.shingle_size;
    let from = |first: usize, n: usize| (first..first + n).map(|k| (k as f32).to_bits()).collect();
    [(1, n), (1 + step, n), (50, n), (1, n + 1)]
        .into_iter()
        .enumerate()
        .map(|(label, (first, n))| HoldCall::Add {
            point: from(first, n),
            label: 3 * label,
        })
        .collect()
}

fn lists_after(sides: &mut HoldSides, adds: &[HoldCall], more: usize, coverage: &mut Coverage) -> Result<(), String> {
    coverage.meet("lists");
    if more == 0 {
        return sides.check_copies(coverage);
    }
    for add in adds {
        let mut next = sides.clone();
        next.step(add, coverage)?;
        lists_after(&mut next, adds, more - 1, coverage)?;
    }
    Ok(())
}

pub fn every_short_list(longest: usize, coverage: &mut Coverage) -> Result<(), String> {
    let mut random = Random::new(9);
    for shape in SHAPES {
        for flags in 0..8 {
            for width in 1..shape[2] {
                let opening = Opening::with_flags(shape, flags);
                let memory = hold_rubbish_for(opening, 1, &mut random);
                let mut sides = HoldSides::opened(memory, opening, width, coverage)?;
                lists_after(&mut sides, &adds(opening), longest, coverage)?;
            }
        }
    }
    Ok(())
}
