//! A hold on all sides: the library and the model over memory of their own and, as long as it takes the calls, the Rust, whose
//! hold is an add followed by a dec of the oldest of a queue that is kept here.
use super::call::{HoldCall, HoldReturned};
use super::kinds;
use super::library_side;
use super::memory::*;
use super::model::{self, free_now, GAVE_UP};
use crate::coverage::Coverage;
use crate::mutant;
use crate::store::call::{Call, FIGURE};
use crate::store::memory::*;
use crate::store::model::Met;
use crate::store::model_rows::PAST_A_FIFTH;
use crate::store::rust_side::{self, Ground, Outcome};
use crate::store::sides::refused_in_rust;
use library::hold::LentHold;
use library::store::{Lent, Opening};
use reference::Store;
use std::collections::VecDeque;

/// A held point: its indices, and what copy gave right after its add.
#[derive(Clone, Debug)]
struct Kept {
    index: usize,
    label: usize,
    copied: Vec<u32>,
}

#[derive(Clone)]
pub struct HoldSides {
    pub model: LentHold,
    library: LentHold,
    before: LentHold,
    lent: LentHold,
    rust: Option<Store>,
    /// The last kept adds, as many as the width, from the answers alone; none where the hold was not opened here.
    kept: Option<VecDeque<Kept>>,
    slots: bool,
    met: Met,
}

impl HoldSides {
    /// Without the Rust.
    pub fn over(memory: LentHold) -> Self {
        HoldSides {
            model: memory.clone(),
            library: memory.clone(),
            before: memory.clone(),
            lent: memory,
            rust: None,
            kept: None,
            slots: true,
            met: Met::new(),
        }
    }

    /// Opened on all sides.
    pub fn opened(memory: LentHold, o: Opening, width: usize, coverage: &mut Coverage) -> Result<Self, String> {
        let mut sides = HoldSides::over(memory);
        let value = sides.step(&HoldCall::Open(o, width), coverage)?.value();
        if value != 0 {
            return Err(format!("{o:?} at width {width} is refused with {value}"));
        }
        sides.rust = (!mutant::is("harness-leaves-the-rust-out-of-the-hold")).then(|| rust_side::opened(o));
        sides.kept = Some(VecDeque::new());
        Ok(sides)
    }

    /// For calls inside that the Rust does not refuse alike.
    pub fn without_the_rust(&mut self) {
        self.rust = None;
    }

    /// Sets the sequence on every side.
    pub fn at_sequence(&mut self, sequence: u64) {
        self.model.store.words[SEQUENCE] = sequence;
        self.library.store.words[SEQUENCE] = sequence;
        if let Some(rust) = &mut self.rust {
            rust.at_sequence(sequence as usize);
        }
    }

    /// One call on every side, and then all that can be seen compared.
    pub fn step(&mut self, call: &HoldCall, coverage: &mut Coverage) -> Result<HoldReturned, String> {
        self.before.clone_from(&self.model);
        self.met.clear();
        let mut owed = model::made(call, &mut self.model, &mut self.met);
        let mut got = library_side::made(call, &mut self.library);
        if let HoldCall::Inside(call) = call {
            owed.of_store = owed.of_store.with_one_nan(call);
            got.of_store = got.of_store.with_one_nan(call);
        }
        sow_in_both(call, &mut owed, &mut self.model);
        sow_in_both(call, &mut got, &mut self.library);
        if got != owed || self.library != self.model {
            return Err(format!(
                "{call:?}\n    on {:?}\nlibrary: {got:?}\n    leaves {:?}\nthe model: {owed:?}\n    leaves {:?}",
                self.before, self.library, self.model
            ));
        }
        let kind = kinds::answer_kind(call, got.value());
        let kind = kind.ok_or_else(|| format!("no refusal {} of {call:?} on {:?}", got.value(), self.before))?;
        if got.value() != 0 && !matches!(call, HoldCall::Inside(_)) {
            self.check_refused(call, &got)?;
        }
        self.step_rust(call, &got, coverage)?;
        self.step_kept(call, &got)?;
        self.meet(call, &got, coverage);
        coverage.meet("calls");
        coverage.meet(kind);
        Ok(got)
    }

    fn meet(&self, call: &HoldCall, got: &HoldReturned, coverage: &mut Coverage) {
        for kind in &self.met {
            coverage.meet(kind);
        }
        match call {
            HoldCall::Inside(_) => coverage.meet("a store call inside"),
            HoldCall::Add { .. } if got.value() > 1 && held(&self.before) == width(&self.before) => {
                coverage.meet("a refused add while the list is full")
            }
            HoldCall::Add { .. } if got.kept().is_some() && !self.met.contains(&GAVE_UP) => {
                coverage.meet("a kept add with fewer held than the width")
            }
            HoldCall::Add { .. } if got.value() == 0 && got.kept().is_none() && held(&self.model) > 0 => {
                coverage.meet("a Waiting add while points are held")
            }
            _ => {}
        }
    }

    /// A refusal changes nothing, the list included, and writes no answer, except for what the store's 10 leaves.
    fn check_refused(&self, call: &HoldCall, got: &HoldReturned) -> Result<(), String> {
        let mut unchanged = self.before.clone();
        if got.value() == 10 {
            unchanged.store.store.clone_from(&self.model.store.store);
            unchanged.store.location.clone_from(&self.model.store.location);
            for k in [STORE_LENGTH, FREE_START] {
                unchanged.store.words[k] = self.model.store.words[k];
            }
        }
        if !got.is_untouched() || self.model != unchanged {
            return Err(format!("a refused call wrote: {call:?}\n    on {:?}", self.before));
        }
        Ok(())
    }

    /// The Rust's add, and its dec of the oldest kept one where there are more than the width.
    fn step_rust(&mut self, call: &HoldCall, got: &HoldReturned, coverage: &mut Coverage) -> Result<(), String> {
        let as_add;
        let of_store = match call {
            HoldCall::Add { point, label } => {
                as_add = Call::Add {
                    point: point.clone(),
                    label: *label,
                };
                &as_add
            }
            HoldCall::Inside(call) => call,
            _ => return Ok(()),
        };
        let Some(mut rust) = self.rust.take() else {
            return Ok(());
        };
        if self.met.contains(&PAST_A_FIFTH) {
            return Ok(());
        }
        match rust_side::ground(of_store, got.value(), coverage) {
            Ground::Compared => {}
            Ground::NotAsked => {
                self.rust = Some(rust);
                return Ok(());
            }
            Ground::Left => return Ok(()),
        }
        if self.met.contains(&"a slot's count reached 0") {
            self.slots = false;
        }
        if got.value() != 0 {
            let goes_on = refused_in_rust(of_store, got.value(), &self.before.store, &rust, coverage)?;
            self.rust = goes_on.then_some(rust);
            return Ok(());
        }
        let attributes = matches!(of_store, Call::Attribute(_) | Call::AttributeVec { .. });
        if attributes && !self.slots {
            self.rust = Some(rust);
            return Ok(());
        }
        let s = shape(&self.model.store);
        let Outcome::Answered(expected) = rust_side::made(of_store, s, &mut rust) else {
            return Err(format!("the Rust refuses {call:?}\n    on {:?}", self.before));
        };
        if got.of_store != expected.with_one_nan(of_store) {
            return Err(format!(
                "the Rust answers otherwise than {got:?}: {call:?}\n    on {:?}",
                self.before
            ));
        }
        let oldest = self.kept.as_ref().and_then(|kept| kept.front());
        if let (HoldCall::Add { .. }, Some(_), Some(oldest)) = (call, got.kept(), oldest) {
            let full = self.kept.as_ref().is_some_and(|kept| kept.len() == width(&self.model));
            let dec = Call::Dec(oldest.index, oldest.label);
            if full && !matches!(rust_side::made(&dec, s, &mut rust), Outcome::Answered(_)) {
                return Err(format!(
                    "the Rust refuses {dec:?} after {call:?}\n    on {:?}",
                    self.before
                ));
            }
        }
        // The Rust knows nothing of the hold's own two words.
        self.lent.store.words[WIDTH..HOLD_WORDS].copy_from_slice(&self.library.store.words[WIDTH..HOLD_WORDS]);
        if let Some(part) = rust_side::difference(&self.library.store, &self.lent.store, &rust, self.slots) {
            return Err(format!(
                "{part} differ after {call:?}\n    on {:?}\n    leaves {:?}\nthe Rust: {rust:?}",
                self.before, self.library
            ));
        }
        rust_side::meet_compared(&self.met, coverage);
        self.rust = Some(rust);
        Ok(())
    }

    /// The list is that of the last kept adds, in order.
    fn step_kept(&mut self, call: &HoldCall, got: &HoldReturned) -> Result<(), String> {
        let Some(mut kept) = self.kept.take() else {
            return Ok(());
        };
        if let HoldCall::Open(..) = call {
            return Ok(());
        }
        if let (HoldCall::Add { .. }, Some((index, label))) = (call, got.kept()) {
            let copied = self.copied(index).ok_or("a kept point is not copied")?;
            kept.push_back(Kept { index, label, copied });
            if kept.len() > width(&self.model) && !mutant::is("harness-never-gives-up") {
                kept.pop_front();
            }
        }
        let owed: Vec<(usize, usize)> = kept.iter().map(|k| (k.index, k.label)).collect();
        if listed(&self.library) != owed {
            return Err(format!(
                "held are {:?}, not {owed:?}: {call:?}\n    on {:?}",
                self.library, self.before
            ));
        }
        self.kept = Some(kept);
        Ok(())
    }

    fn copied(&mut self, index: usize) -> Option<Vec<u32>> {
        let mut out = vec![0; word(&self.library.store, DIMENSIONS)];
        (self.library.store.copy(index, &mut out) == 0).then_some(out)
    }

    /// Every held point copies out what it did right after its add, and no other is live.
    pub fn check_copies(&mut self, coverage: &mut Coverage) -> Result<(), String> {
        let Some(kept) = self.kept.clone() else {
            return Ok(());
        };
        for k in &kept {
            if self.copied(k.index).as_ref() != Some(&k.copied) {
                return Err(format!("{k:?} is copied otherwise from {:?}", self.library));
            }
        }
        let mut live: Vec<usize> = kept.iter().map(|k| k.index).collect();
        live.sort_unstable();
        let ones = live.iter().all(|i| self.library.store.reference_count[*i] == 1);
        if live != live_indices(&self.library.store) || !ones {
            return Err(format!("live are others than {live:?}: {:?}", self.library));
        }
        coverage.meet("copies compared with those right after their adds");
        Ok(())
    }
}

/// The faults that the model and the library share: the Rust, or the answers alone, show them.
fn sow_in_both(call: &HoldCall, got: &mut HoldReturned, h: &mut LentHold) {
    if !matches!(call, HoldCall::Add { .. }) || got.kept().is_none() {
        return;
    }
    let n = held(h);
    if mutant::is("both-hold-in-another-order") && n > 1 {
        h.held_indices.swap(0, 1);
        if has_labels(h) {
            h.held_labels.swap(0, 1);
        }
    }
    if mutant::is("both-tell-the-figure-after-giving-up") {
        got.of_store.numbers[FIGURE] = free_now(h);
    }
    if mutant::is("both-clear-the-floats-of-a-point-given-up") {
        clear_dead_floats(&mut h.store);
    }
}

/// Floats before the free start that belong to no live row.
fn clear_dead_floats(m: &mut Lent) {
    let s = shape(m);
    let mut is_live = vec![false; word(m, FREE_START)];
    for i in live_indices(m) {
        let start = m.location[i] as usize * s.base;
        is_live[start..start + s.dimensions].fill(true);
    }
    for (float, _) in m.store.iter_mut().zip(is_live).filter(|(_, live)| !live) {
        *float = 0;
    }
}
