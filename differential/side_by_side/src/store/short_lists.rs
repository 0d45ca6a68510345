//! Every list of a few calls over small shapes, beside the Rust; shorter ones of zeros and of NaNs by the model.
use super::call::Call;
use super::lent::rubbish_for;
use super::memory::*;
use super::sides::Sides;
use crate::coverage::Coverage;
use library::store::{Lent, Opening};
use random::Random;

/// Dimensions, shingle size, capacity, starting capacity.
const SHAPES: [[usize; 4]; 7] = [
    [1, 1, 1, 1],
    [1, 1, 2, 2],
    [2, 1, 3, 2],
    [2, 2, 2, 2],
    [2, 2, 3, 3],
    [4, 2, 2, 2],
    [3, 3, 3, 2],
];

/// The two floats of a list's rows.
type Floats = [u32; 2];

const ONE_AND_TWO: Floats = [0x3f80_0000, 0x4000_0000];
const ZEROS: Floats = [0x0000_0000, 0x8000_0000];
const NANS: Floats = [0x7fc0_0000, 0x7fc0_0001];

/// With how many calls fewer than the longest lists have.
const FLOATS: [(Floats, usize); 3] = [(ONE_AND_TWO, 0), (ZEROS, 2), (NANS, 2)];

/// The rows and points that are added, each base floats alike.
fn points(s: Shape, floats: Floats) -> Vec<Vec<u32>> {
    let pieces = if s.shingling { 1 } else { s.shingle_size.min(2) };
    (0..1usize << pieces)
        .map(|bits| {
            let n = if s.shingling { s.base } else { s.dimensions };
            (0..n)
                .map(|i| floats[bits >> (i / s.base).min(pieces - 1) & 1])
                .collect()
        })
        .collect()
}

/// Calls on indices and labels 0 and 1, in use or not.
fn calls(m: &Lent, floats: Floats) -> Vec<Call> {
    let s = shape(m);
    let labels: &[usize] = if s.labels { &[0, 1] } else { &[NONE] };
    let codes: &[usize] = if s.labels { &[0, 3] } else { &[0] };
    let mut list = vec![Call::Compact];
    for point in points(s, floats) {
        list.extend(codes.iter().map(|code| Call::Add {
            point: point.clone(),
            label: *code,
        }));
    }
    for index in 0..s.capacity.min(2) {
        for label in labels {
            list.push(Call::Inc(index, *label));
            list.push(Call::Dec(index, *label));
        }
    }
    list.push(Call::Adjust(vec![
        [0, labels[0], NONE, NONE],
        [NONE, 0, 0, 0],
        [1, labels[0], 0, labels[labels.len() - 1]],
    ]));
    list
}

/// What a caller reads of a store.
fn readings(m: &Lent, floats: Floats) -> Vec<Call> {
    let s = shape(m);
    let live = live_indices(m);
    let mut list = vec![Call::LiveNumber, Call::FreeStart];
    for index in &live {
        list.push(Call::Count(*index));
        list.push(Call::Copy {
            index: *index,
            out: s.dimensions,
        });
        list.push(Call::IsEqual {
            index: *index,
            point: vec![floats[0]; s.dimensions],
        });
    }
    list.push(Call::PointSum {
        items: live.iter().map(|i| [*i, i + 2]).collect(),
        out: s.dimensions,
    });
    list.push(Call::ShingledPoint {
        point: vec![floats[1]; s.base],
        out: s.dimensions,
    });
    list.push(Call::NextIndices {
        look_ahead: 1,
        out: s.base,
    });
    list.push(Call::MissingIndices {
        look_ahead: 2,
        values: vec![0],
        out: 1,
    });
    for label in live_labels(m) {
        list.push(Call::Label(label));
        list.push(Call::Attribute(label));
        list.push(Call::AttributeVec { label, out: 10 });
    }
    list
}

/// Every list of up to `left` calls more. After the last of a list everything is read.
fn lists_from(sides: &Sides, floats: Floats, left: usize, coverage: &mut Coverage) -> Result<(), String> {
    coverage.meet("lists");
    if left == 0 {
        let mut last = sides.clone();
        for call in readings(&sides.model, floats) {
            last.step(&call, coverage)?;
        }
        return Ok(());
    }
    for call in calls(&sides.model, floats) {
        let mut next = sides.clone();
        // A refused call leads nowhere new, but for 10.
        let value = next.step(&call, coverage)?.value;
        let goes_on = value == 0 || value == 10 || matches!(call, Call::Adjust(_));
        if goes_on {
            lists_from(&next, floats, left - 1, coverage)?;
        }
    }
    Ok(())
}

/// With labels there are more calls to choose from, so the lists are shorter by one.
pub fn every_short_list(length: usize, coverage: &mut Coverage) -> Result<(), String> {
    let mut random = Random::new(6);
    for shape in SHAPES {
        for flags in 0..8 {
            let opening = Opening::with_flags(shape, flags);
            let memory = rubbish_for(opening, 1, &mut random);
            let sides = Sides::opened(memory, opening, coverage)?;
            for (floats, fewer) in FLOATS {
                lists_from(&sides, floats, length - fewer - opening.store_labels, coverage)?;
            }
        }
    }
    Ok(())
}
