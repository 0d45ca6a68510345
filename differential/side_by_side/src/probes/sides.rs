//! A product on all sides: the library and the model over memory of their own and, as long as it takes the calls, the Rust, which
//! gets each filled set as an add. What the sets are filled with, and the tallies, are kept here from the answers alone.
use super::call::{answer_kind, ProbeCall, ProbeReturned};
use super::model::{self, filled, ABSENT, ESTIMATED, PROBES, PROBES_WORDS};
use crate::coverage::Coverage;
use crate::mutant;
use crate::store::call::Call;
use crate::store::library_side;
use crate::store::memory::*;
use crate::store::model::Met;
use crate::store::model_rows::PAST_A_FIFTH;
use crate::store::rust_side::{self, Ground, Outcome};
use crate::store::sides::refused_in_rust;
use library::store::{Lent, Opening};
use reference::Store;

/// What the sets and their answers say of the probes.
#[derive(Clone)]
struct Told {
    last: Vec<u32>,
    was_absent: [bool; PROBES],
    tallies: [u64; PROBES],
}

pub struct ProbeSides {
    pub model: Lent,
    library: Lent,
    before: Lent,
    lent: Lent,
    rust: Option<Store>,
    told: Option<Told>,
    slots: bool,
    met: Met,
}

fn made_by_the_library(call: &ProbeCall, m: &mut Lent) -> ProbeReturned {
    let mut r = ProbeReturned::lent(call);
    match call {
        ProbeCall::Open(opening) => r.of_store.value = m.probes_open(*opening),
        ProbeCall::Inside(call) => r.of_store = library_side::made(call, m),
        ProbeCall::Set { kinds, floats, label } => {
            let mut a = library_side::lent_to_an_add(r.of_store.numbers);
            r.of_store.value = m.probes_set(kinds, floats, *label, &mut a);
            r.of_store.numbers = library_side::written_by_an_add(r.of_store.value, a);
        }
        ProbeCall::Tallies { .. } => r.of_store.value = m.probes_tallies(&mut r.tallies),
    }
    r
}

impl ProbeSides {
    /// Without the Rust.
    pub fn over(memory: Lent) -> Self {
        ProbeSides {
            model: memory.clone(),
            library: memory.clone(),
            before: memory.clone(),
            lent: memory,
            rust: None,
            told: None,
            slots: true,
            met: Met::new(),
        }
    }

    /// Opened on all sides.
    pub fn opened(memory: Lent, o: Opening, coverage: &mut Coverage) -> Result<Self, String> {
        let mut sides = ProbeSides::over(memory);
        let value = sides.step(&ProbeCall::Open(o), coverage)?.value();
        if value != 0 {
            return Err(format!("{o:?} is refused with {value}"));
        }
        sides.rust = (!mutant::is("harness-leaves-the-rust-out-of-the-probes")).then(|| rust_side::opened(o));
        sides.told = Some(Told {
            last: vec![0; PROBES],
            was_absent: [false; PROBES],
            tallies: [0; PROBES],
        });
        Ok(sides)
    }

    /// Sets the sequence on every side.
    pub fn at_sequence(&mut self, sequence: u64) {
        self.model.words[SEQUENCE] = sequence;
        self.library.words[SEQUENCE] = sequence;
        if let Some(rust) = &mut self.rust {
            rust.at_sequence(sequence as usize);
        }
    }

    /// One call on every side, and then all that can be seen compared.
    pub fn step(&mut self, call: &ProbeCall, coverage: &mut Coverage) -> Result<ProbeReturned, String> {
        self.before.clone_from(&self.model);
        self.met.clear();
        let mut owed = model::made(call, &mut self.model, &mut self.met);
        let mut got = made_by_the_library(call, &mut self.library);
        if let ProbeCall::Inside(call) = call {
            owed.of_store = owed.of_store.with_one_nan(call);
            got.of_store = got.of_store.with_one_nan(call);
        }
        sow_in_both(call, &owed, &mut self.model);
        sow_in_both(call, &got, &mut self.library);
        if got != owed || self.library != self.model {
            return Err(format!(
                "{call:?}\n    on {:?}\nlibrary: {got:?}\n    leaves {:?}\nthe model: {owed:?}\n    leaves {:?}",
                self.before, self.library, self.model
            ));
        }
        let kind = answer_kind(call, got.value());
        let kind = kind.ok_or_else(|| format!("no refusal {} of {call:?} on {:?}", got.value(), self.before))?;
        if got.value() != 0 && !matches!(call, ProbeCall::Inside(_)) {
            self.check_refused(call, &got)?;
        }
        let of_store = self.as_of_store(call);
        self.step_rust(call, of_store.as_ref(), &got, coverage)?;
        self.step_told(call, of_store.as_ref(), &got, coverage)?;
        for kind in &self.met {
            coverage.meet(kind);
        }
        if matches!(call, ProbeCall::Inside(_)) {
            coverage.meet("a store call inside");
        }
        coverage.meet("calls");
        coverage.meet(kind);
        Ok(got)
    }

    /// The call of the store that a call comes to: of a set, the add of what it is filled with from the answers before.
    fn as_of_store(&self, call: &ProbeCall) -> Option<Call> {
        match call {
            ProbeCall::Inside(call) => Some(call.clone()),
            ProbeCall::Set { kinds, floats, label } if kinds.len() == PROBES && floats.len() == PROBES => {
                let last = &self.told.as_ref()?.last;
                Some(Call::Add {
                    point: filled(kinds, floats, last),
                    label: *label,
                })
            }
            _ => None,
        }
    }

    /// A refusal changes nothing and writes no answer, except for what the store's 10 leaves.
    fn check_refused(&self, call: &ProbeCall, got: &ProbeReturned) -> Result<(), String> {
        let mut unchanged = self.before.clone();
        if got.value() == 10 {
            unchanged.store.clone_from(&self.model.store);
            unchanged.location.clone_from(&self.model.location);
            for k in [STORE_LENGTH, FREE_START] {
                unchanged.words[k] = self.model.words[k];
            }
        }
        if !got.is_untouched() || self.model != unchanged {
            return Err(format!("a refused call wrote: {call:?}\n    on {:?}", self.before));
        }
        Ok(())
    }

    /// The Rust's call on the filled set.
    fn step_rust(
        &mut self,
        call: &ProbeCall,
        of_store: Option<&Call>,
        got: &ProbeReturned,
        coverage: &mut Coverage,
    ) -> Result<(), String> {
        let Some(of_store) = of_store else {
            return Ok(());
        };
        let Some(mut rust) = self.rust.take() else {
            return Ok(());
        };
        if self.met.contains(&PAST_A_FIFTH) {
            return Ok(());
        }
        match rust_side::ground(of_store, got.value(), coverage) {
            Ground::Compared => {}
            Ground::NotAsked => {
                self.rust = Some(rust);
                return Ok(());
            }
            Ground::Left => return Ok(()),
        }
        if self.met.contains(&"a slot's count reached 0") {
            self.slots = false;
        }
        let of_the_product = matches!(call, ProbeCall::Set { .. }) && [1, 3, 11, 16].contains(&got.value());
        if of_the_product {
            self.rust = Some(rust);
            return Ok(());
        }
        if got.value() != 0 {
            let goes_on = refused_in_rust(of_store, got.value(), &self.before, &rust, coverage)?;
            self.rust = goes_on.then_some(rust);
            return Ok(());
        }
        let attributes = matches!(of_store, Call::Attribute(_) | Call::AttributeVec { .. });
        if attributes && !self.slots {
            self.rust = Some(rust);
            return Ok(());
        }
        let s = shape(&self.model);
        let Outcome::Answered(expected) = rust_side::made(of_store, s, &mut rust) else {
            return Err(format!("the Rust refuses {call:?}\n    on {:?}", self.before));
        };
        if got.of_store != expected.with_one_nan(of_store) {
            return Err(format!(
                "the Rust answers otherwise than {got:?}: {call:?}\n    on {:?}",
                self.before
            ));
        }
        // The Rust knows nothing of the tallies.
        self.lent.words[RECORD_WORDS..PROBES_WORDS].copy_from_slice(&self.library.words[RECORD_WORDS..PROBES_WORDS]);
        if let Some(part) = rust_side::difference(&self.library, &self.lent, &rust, self.slots) {
            return Err(format!(
                "{part} differ after {call:?}\n    on {:?}\n    leaves {:?}\nthe Rust: {rust:?}",
                self.before, self.library
            ));
        }
        coverage.meet("compared with the Rust");
        self.rust = Some(rust);
        Ok(())
    }

    /// Tallies and last floats are those of the accepted sets.
    fn step_told(
        &mut self,
        call: &ProbeCall,
        of_store: Option<&Call>,
        got: &ProbeReturned,
        coverage: &mut Coverage,
    ) -> Result<(), String> {
        let Some(mut told) = self.told.take() else {
            return Ok(());
        };
        if let ProbeCall::Set { kinds, .. } = call {
            let estimated = kinds.contains(&ESTIMATED);
            match (got.value(), got.kept()) {
                (0, None) if estimated => coverage.meet("a Waiting set with an Estimated"),
                (0, Some(_)) if estimated => coverage.meet("a kept set with an Estimated"),
                (4.., _) if estimated => coverage.meet("a refused set with an Estimated"),
                _ => {}
            }
            if got.value() == 0 {
                for (k, kind) in kinds.iter().enumerate() {
                    let nan = told.last[k] & 0x7fff_ffff > 0x7f80_0000;
                    if *kind == ABSENT && nan {
                        coverage.meet("an Absent that repeats a NaN");
                    }
                    if *kind == ABSENT && told.was_absent[k] {
                        coverage.meet("an Absent that repeats an Absent");
                    }
                    told.was_absent[k] = *kind == ABSENT;
                    told.tallies[k] += u64::from(*kind == ESTIMATED);
                }
            }
        }
        if let (0, Some(Call::Add { point, .. })) = (got.value(), of_store) {
            told.last.clone_from(point);
        }
        let dimensions = word(&self.library, DIMENSIONS);
        if self.library.last_known_shingle[dimensions - PROBES..dimensions] != told.last[..] {
            return Err(format!(
                "the last floats are not {:?}: {call:?}\n    on {:?}",
                told.last, self.before
            ));
        }
        if self.library.words[RECORD_WORDS..PROBES_WORDS] != told.tallies {
            return Err(format!(
                "the tallies are not {:?}: {call:?}\n    on {:?}",
                told.tallies, self.before
            ));
        }
        self.told = Some(told);
        Ok(())
    }
}

/// The faults that the model and the library share: the Rust, or the answers alone, show them.
fn sow_in_both(call: &ProbeCall, got: &ProbeReturned, m: &mut Lent) {
    let ProbeCall::Set { kinds, .. } = call else {
        return;
    };
    if got.value() != 0 || !kinds.contains(&ABSENT) {
        return;
    }
    if mutant::is("both-tally-absent-readings") {
        for (tally, kind) in m.words[RECORD_WORDS..].iter_mut().zip(kinds) {
            *tally += u64::from(*kind == ABSENT);
        }
    }
    if mutant::is("both-repeat-a-zero") {
        let from = word(m, DIMENSIONS) - PROBES;
        for (k, kind) in kinds.iter().enumerate() {
            if *kind == ABSENT {
                m.last_known_shingle[from + k] = 0;
            }
        }
    }
}
