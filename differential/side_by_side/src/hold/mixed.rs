//! Mixed use: calls of the store on the store inside. What they leave is a hold or is not.
use super::call::HoldCall;
use super::memory::*;
use super::sides::HoldSides;
use crate::coverage::Coverage;
use crate::store::call::Call;
use crate::store::memory::*;
use library::store::Opening;
use random::Random;

pub const KINDS: [&str; 10] = [
    "an inc inside: then 1",
    "an inc and its dec inside: then taken",
    "a dec inside: then 1",
    "an add inside: then 1",
    "an add inside and its dec: then taken",
    "a compact inside: then taken",
    "an opening of the store inside, nothing held: then taken",
    "an opening of the store inside, points held: then 1",
    "rotating, every row whole: 10 again and again",
    "capacity 1: 15 for every width",
];

struct Case<'a> {
    sides: HoldSides,
    opening: Opening,
    coverage: &'a mut Coverage,
    next: u32,
}

impl<'a> Case<'a> {
    /// A fresh hold of this width, with so many points added.
    fn of(opening: Opening, width: usize, adds: usize, coverage: &'a mut Coverage) -> Result<Self, String> {
        let memory = hold_rubbish_for(opening, 1, &mut Random::new(7));
        let mut sides = HoldSides::opened(memory, opening, width, coverage)?;
        sides.without_the_rust();
        let mut case = Case {
            sides,
            opening,
            coverage,
            next: 0,
        };
        for _ in 0..adds {
            case.add(0)?;
        }
        Ok(case)
    }

    fn point(&mut self) -> Vec<u32> {
        let o = self.opening;
        let n = if o.internal_shingling == 1 {
            o.dimensions / o.shingle_size
        } else {
            o.dimensions
        };
        self.next += 1;
        vec![(self.next as f32).to_bits(); n]
    }

    fn step(&mut self, call: HoldCall, number: u64) -> Result<(), String> {
        let value = self.sides.step(&call, self.coverage)?.value();
        if value != number {
            return Err(format!(
                "{call:?} gives {value}, not {number}, on {:?}",
                self.sides.model
            ));
        }
        Ok(())
    }

    fn add(&mut self, number: u64) -> Result<(), String> {
        let point = self.point();
        self.step(HoldCall::Add { point, label: 3 }, number)
    }

    fn inside(&mut self, call: Call) -> Result<(), String> {
        self.step(HoldCall::Inside(call), 0)
    }

    fn add_inside(&mut self) -> Result<(), String> {
        let point = self.point();
        self.inside(Call::Add { point, label: 3 })
    }

    fn met(self, kind: usize) {
        self.coverage.meet(KINDS[kind]);
    }
}

fn each_with(flags: usize, coverage: &mut Coverage) -> Result<(), String> {
    let opening = Opening::with_flags([4, 2, 8, 5], flags);
    macro_rules! case {
        () => {
            Case::of(opening, 3, 6, coverage)?
        };
    }
    let of = |case: &Case, k: usize| listed(&case.sides.model)[k];

    let mut case = case!();
    let (index, label) = of(&case, 1);
    case.inside(Call::Inc(index, label))?;
    case.add(1)?;
    case.step(HoldCall::Number, 1)?;
    case.inside(Call::Dec(index, label))?;
    case.add(0)?;
    case.coverage.meet(KINDS[0]);
    case.met(1);

    let mut case = case!();
    let (index, label) = of(&case, 0);
    case.inside(Call::Dec(index, label))?;
    case.add(1)?;
    case.met(2);

    let mut case = case!();
    let before = live_indices(&case.sides.model.store);
    let labels_before = live_labels(&case.sides.model.store);
    case.add_inside()?;
    case.add(1)?;
    case.coverage.meet(KINDS[3]);
    let m = &case.sides.model.store;
    let new = live_indices(m).into_iter().find(|i| !before.contains(i));
    let new_label = live_labels(m).into_iter().find(|l| !labels_before.contains(l));
    case.inside(Call::Dec(new.ok_or("no new index")?, new_label.unwrap_or(NONE)))?;
    case.add(0)?;
    case.met(4);

    let mut case = case!();
    case.inside(Call::Compact)?;
    case.add(0)?;
    case.met(5);

    let mut case = Case::of(opening, 3, 0, coverage)?;
    case.inside(Call::Open(opening))?;
    case.add(0)?;
    case.met(6);

    let mut case = case!();
    case.inside(Call::Open(opening))?;
    case.add(1)?;
    case.met(7);

    Ok(())
}

/// Dimensions 2, shingle size 2, capacity 2, start 2, width 1: after 1 2 and 2 3 every 9 9 is refused with 10, and 3 4 joins.
fn no_float_space(coverage: &mut Coverage) -> Result<(), String> {
    let opening = Opening::with_flags([2, 2, 2, 2], 2);
    let mut case = Case::of(opening, 1, 0, coverage)?;
    let row = |a: f32, b: f32| HoldCall::Add {
        point: vec![a.to_bits(), b.to_bits()],
        label: 0,
    };
    case.step(row(1.0, 2.0), 0)?;
    case.step(row(2.0, 3.0), 0)?;
    for _ in 0..5 {
        case.step(row(9.0, 9.0), 10)?;
    }
    case.step(row(3.0, 4.0), 0)?;
    case.met(8);
    Ok(())
}

fn capacity_1(coverage: &mut Coverage) -> Result<(), String> {
    let opening = Opening::with_flags([2, 1, 1, 1], 0);
    for width in [0, 1, 2, 1024, NONE] {
        let memory = hold_rubbish_for(opening, 1, &mut Random::new(8));
        let value = HoldSides::over(memory)
            .step(&HoldCall::Open(opening, width), coverage)?
            .value();
        if value != 15 {
            return Err(format!("capacity 1 and width {width}: {value}"));
        }
    }
    coverage.meet(KINDS[9]);
    Ok(())
}

pub fn each(coverage: &mut Coverage) -> Result<(), String> {
    for flags in 0..8 {
        each_with(flags, coverage)?;
    }
    no_float_space(coverage)?;
    capacity_1(coverage)
}
