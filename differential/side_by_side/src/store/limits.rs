//! Counts up to 65,535 and back, beside the Rust.
use super::call::Call;
use super::lent::rubbish_for;
use super::memory::*;
use super::sides::Sides;
use crate::coverage::Coverage;
use library::store::Opening;
use random::Random;

fn owed(sides: &mut Sides, call: Call, number: u64, coverage: &mut Coverage) -> Result<(), String> {
    let value = sides.step(&call, coverage)?.value;
    if value != number {
        return Err(format!("{call:?} gives {value}, not {number}, on {:?}", sides.model));
    }
    Ok(())
}

/// Two points and two labels of one class: each count rises to 65,535, the slot's to twice that, and all fall to 0.
pub fn counts_to_the_limit(store_labels: usize, coverage: &mut Coverage) -> Result<(), String> {
    let opening = Opening {
        dimensions: 2,
        shingle_size: 2,
        capacity: 2,
        initial_capacity: 2,
        internal_shingling: 0,
        internal_rotation: 0,
        store_labels,
        ..Opening::default()
    };
    let memory = rubbish_for(opening, 2, &mut Random::new(9));
    let mut sides = Sides::opened(memory, opening, coverage)?;
    let label = |index: usize| if store_labels == 1 { index } else { NONE };
    for index in 0..2 {
        let point = vec![index as u32, 7];
        owed(&mut sides, Call::Add { point, label: 1 }, 0, coverage)?;
        for _ in 1..65_535 {
            owed(&mut sides, Call::Inc(index, label(index)), 0, coverage)?;
        }
        let (at_limit, this) = (Call::Inc(index, label(index)), label(index));
        owed(&mut sides, at_limit.clone(), 7, coverage)?;
        // The pair's dec would undo the inc.
        owed(&mut sides, Call::Adjust(vec![[index, this, index, this]]), 7, coverage)?;
        owed(&mut sides, Call::Dec(index, this), 0, coverage)?;
        owed(&mut sides, Call::Adjust(vec![[index, this, index, this]]), 0, coverage)?;
        owed(&mut sides, at_limit, 0, coverage)?;
        coverage.meet("a count at 65,535");
    }
    if sides.model.attribute_count.first() == Some(&131_070) {
        coverage.meet("a slot's count at 131,070");
    }
    if store_labels == 1 {
        // A label's count alone at its limit.
        owed(&mut sides, Call::Dec(0, 1), 0, coverage)?;
        owed(&mut sides, Call::Inc(0, 0), 7, coverage)?;
        owed(&mut sides, Call::Inc(0, 1), 0, coverage)?;
    }
    for index in 0..2 {
        for _ in 0..65_535 {
            owed(&mut sides, Call::Dec(index, label(index)), 0, coverage)?;
        }
        owed(&mut sides, Call::Dec(index, label(index)), 5, coverage)?;
    }
    Ok(())
}
