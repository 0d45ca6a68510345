//! A store on all sides: the library and the model over memory of their own and, as long as document 01's comparison ground
//! reaches, the Rust.
use super::call::{Call, Returned, FIGURE, NUMBERS, UNTOUCHED, UNTOUCHED_WORD};
use super::memory::*;
use super::model::Met;
use super::model_rows::PAST_A_FIFTH;
use super::rust_side::{Ground, Outcome};
use super::{kinds, library_side, model, rust_side};
use crate::coverage::Coverage;
use crate::mutant;
use library::store::{Lent, Opening};
use reference::Store;

#[derive(Clone)]
pub struct Sides {
    pub model: Lent,
    library: Lent,
    before: Lent,
    /// The memory before the opening: what is not written since still holds this.
    lent: Lent,
    rust: Option<Store>,
    /// Whether no slot's count has reached 0 yet.
    slots: bool,
    met: Met,
}

impl Sides {
    /// Without the Rust.
    pub fn over(memory: Lent) -> Self {
        Sides {
            model: memory.clone(),
            library: memory.clone(),
            before: memory.clone(),
            lent: memory,
            rust: None,
            slots: true,
            met: Met::new(),
        }
    }

    /// Opened on all sides.
    pub fn opened(memory: Lent, opening: Opening, coverage: &mut Coverage) -> Result<Self, String> {
        let mut sides = Sides::over(memory);
        sides.rust = (!mutant::is("harness-leaves-the-rust-out")).then(|| rust_side::opened(opening));
        sides.step(&Call::Open(opening), coverage)?;
        Ok(sides)
    }

    pub fn beside_the_rust(&self) -> bool {
        self.rust.is_some()
    }

    /// Sets the sequence on every side, as if so many points had been added.
    pub fn at_sequence(&mut self, sequence: u64) {
        self.model.words[SEQUENCE] = sequence;
        self.library.words[SEQUENCE] = sequence;
        if let Some(rust) = &mut self.rust {
            rust.at_sequence(sequence as usize);
        }
    }

    /// One call on every side, and then all that can be seen compared.
    pub fn step(&mut self, call: &Call, coverage: &mut Coverage) -> Result<Returned, String> {
        self.before.clone_from(&self.model);
        self.met.clear();
        let mut owed = model::made(call, &mut self.model, &mut self.met).with_one_nan(call);
        let mut got = library_side::made(call, &mut self.library).with_one_nan(call);
        sow_in_both(call, &mut owed, &mut self.model);
        sow_in_both(call, &mut got, &mut self.library);
        if got != owed || self.library != self.model {
            return Err(self.told(call, "library", &got, &self.library, "document 01", &owed));
        }
        let kind = kinds::answer_kind(call.kind(), got.value);
        let kind = kind.ok_or_else(|| format!("document 01 has no refusal {} of {call:?}", got.value))?;
        if got.value != 0 {
            self.check_refused(call, &got)?;
        }
        self.step_rust(call, &got, coverage)?;
        coverage.meet("calls");
        coverage.meet(kind);
        if let Some(kind) = answer_met(call, &got) {
            coverage.meet(kind);
        }
        for kind in &self.met {
            coverage.meet(kind);
        }
        Ok(got)
    }

    /// A refusal changes nothing and writes no answer, except for what 10 leaves and for the pairs before a refused one.
    fn check_refused(&self, call: &Call, got: &Returned) -> Result<(), String> {
        let mut answers = got.numbers;
        let mut unchanged = &self.before;
        let mut before;
        if let Call::Adjust(_) = call {
            unchanged = if answers[0] == 0 { unchanged } else { &self.model };
            answers[0] = UNTOUCHED;
        }
        if got.value == 10 {
            before = self.before.clone();
            before.store.clone_from(&self.model.store);
            before.location.clone_from(&self.model.location);
            before.words[STORE_LENGTH] = self.model.words[STORE_LENGTH];
            before.words[FREE_START] = self.model.words[FREE_START];
            unchanged = &before;
        }
        let wrote = answers != [UNTOUCHED; NUMBERS]
            || got.words.iter().any(|w| *w != UNTOUCHED_WORD)
            || got.list.iter().any(|k| *k != UNTOUCHED as usize);
        if wrote || self.model != *unchanged {
            return Err(format!("a refused call wrote: {call:?}\n    on {:?}", self.before));
        }
        Ok(())
    }

    fn step_rust(&mut self, call: &Call, got: &Returned, coverage: &mut Coverage) -> Result<(), String> {
        let Some(mut rust) = self.rust.take() else {
            return Ok(());
        };
        if self.met.contains(&PAST_A_FIFTH) {
            return Ok(());
        }
        match rust_side::ground(call, got.value, coverage) {
            Ground::Compared => {}
            Ground::NotAsked => {
                self.rust = Some(rust);
                return Ok(());
            }
            Ground::Left => return Ok(()),
        }
        if let Call::Open(_) = call {
            self.lent.clone_from(&self.before);
            self.slots = true;
        }
        if self.met.contains(&"a slot's count reached 0") && !mutant::is("harness-compares-slots-for-ever") {
            self.slots = false;
        }
        let made;
        let on_the_rust = match (got.value, call) {
            (0, _) => call,
            // The pairs before the refused one stand.
            (_, Call::Adjust(pairs)) => {
                made = Call::Adjust(pairs[..got.numbers[0] as usize].to_vec());
                &made
            }
            _ => {
                let goes_on = refused_in_rust(call, got.value, &self.before, &rust, coverage)?;
                self.rust = goes_on.then_some(rust);
                return Ok(());
            }
        };
        let attributes = matches!(call, Call::Attribute(_) | Call::AttributeVec { .. });
        if attributes && !self.slots {
            self.rust = Some(rust);
            return Ok(());
        }
        let expected = match rust_side::made(on_the_rust, shape(&self.model), &mut rust) {
            Outcome::Answered(returned) => returned.with_one_nan(call),
            Outcome::Error => return Err(format!("the Rust gives an error: {call:?}\n    on {:?}", self.before)),
            Outcome::Panic => return Err(format!("the Rust panics: {call:?}\n    on {:?}", self.before)),
        };
        if got.value == 0 && *got != expected {
            return Err(self.told(call, "library", got, &self.library, "the Rust", &expected));
        }
        if let Some(part) = rust_side::difference(&self.library, &self.lent, &rust, self.slots) {
            return Err(format!(
                "{part} differ after {call:?}\n    on {:?}\n    leaves {:?}\nthe Rust: {rust:?}",
                self.before, self.library
            ));
        }
        rust_side::meet_compared(&self.met, coverage);
        self.rust = Some(rust);
        Ok(())
    }

    fn told(&self, call: &Call, a: &str, got: &Returned, left: &Lent, b: &str, owed: &Returned) -> String {
        format!(
            "{call:?}\n    on {:?}\n{a}: {got:?}\n    leaves {left:?}\n{b}: {owed:?}\n    document 01 leaves {:?}",
            self.before, self.model
        )
    }
}

/// A call that document 01 refuses is tried on a copy of the Rust, which is then dropped: it keeps partial changes. After
/// 10 there is nothing to go on with.
pub fn refused_in_rust(
    call: &Call,
    number: u64,
    before: &Lent,
    rust: &Store,
    coverage: &mut Coverage,
) -> Result<bool, String> {
    let outcome = rust_side::made(call, shape(before), &mut rust.clone());
    let owed = owed_by_rust(call, number, before);
    let (got, kind) = match outcome {
        Outcome::Answered(_) => (Owed::Takes, "refused here, taken by the Rust"),
        Outcome::Error => (Owed::Error, "refused here, an error in the Rust"),
        Outcome::Panic => (Owed::Panic, "refused here, a panic in the Rust"),
    };
    if owed != Owed::Any && owed != got && !(owed == Owed::ErrorOrPanic && got != Owed::Takes) {
        return Err(format!(
            "refusal {number}: the Rust's answer is {got:?}, not {owed:?}: {call:?}\n    on {:?}",
            before
        ));
    }
    coverage.meet(kind);
    Ok(number != 10)
}

/// What an answer shows.
fn answer_met(call: &Call, got: &Returned) -> Option<&'static str> {
    let has_nan = || got.words.iter().any(|w| f32::from_bits(*w).is_nan());
    match call {
        _ if got.value != 0 => None,
        Call::IsEqual { .. } if got.numbers[0] == 1 => Some("a point equal to a row"),
        Call::IsEqual { .. } => Some("a point unequal to a row"),
        Call::PointSum { .. } if has_nan() => Some("a sum with a NaN"),
        _ => None,
    }
}

/// The Rust's answer to a call that document 01 refuses.
#[derive(Clone, Copy, Debug, PartialEq)]
enum Owed {
    Takes,
    Error,
    Panic,
    ErrorOrPanic,
    Any,
}

fn owed_by_rust(call: &Call, number: u64, m: &Lent) -> Owed {
    let s = shape(m);
    match (call, number) {
        (Call::Add { .. }, 3 | 8 | 9) => Owed::Error,
        (Call::Add { .. }, 10) => Owed::Panic,
        (Call::Add { .. }, 12) => Owed::Any,
        (Call::Inc(index, _), 5) if *index < word(m, TABLE_LENGTH) && !s.labels => Owed::Takes,
        (Call::Inc(index, _), 5) if *index >= word(m, TABLE_LENGTH) => Owed::Error,
        (Call::Inc(..), 7) => Owed::Takes,
        (Call::Dec(..), 5) => Owed::Error,
        (Call::Dec(..), 6) => Owed::ErrorOrPanic,
        (Call::Copy { .. } | Call::IsEqual { .. }, 5) => Owed::Error,
        // One item may be refused with 5 and an earlier one with 11, which the Rust takes.
        (Call::PointSum { .. }, 5) => Owed::Error,
        (Call::IsEqual { .. }, 3) if !s.rotation => Owed::Takes,
        (Call::ShingledPoint { out, .. }, 3) if *out == s.dimensions => Owed::Error,
        (Call::Label(_), 6) => Owed::Error,
        _ => Owed::Any,
    }
}

/// The faults that the model and the library share: the Rust alone shows them.
fn sow_in_both(call: &Call, returned: &mut Returned, m: &mut Lent) {
    if returned.value != 0 {
        return;
    }
    match call {
        Call::Add { .. } if returned.numbers[0] == 1 && mutant::is("both-give-the-wrong-place") => {
            returned.numbers[4] += 1
        }
        Call::Add { .. } if returned.numbers[0] == 1 && mutant::is("both-tell-one-free-index-more") => {
            returned.numbers[FIGURE] += 1
        }
        Call::Add { .. } if mutant::is("both-write-a-float-past-the-free-start") => {
            let at = m.words[FREE_START] as usize;
            if at < m.store.len() {
                m.store[at] = 1;
            }
        }
        Call::Compact if mutant::is("both-clear-floats-after-compaction") => {
            let (from, to) = (word(m, FREE_START), word(m, STORE_LENGTH));
            m.store[from..to].fill(0);
        }
        Call::Dec(..) if mutant::is("both-clear-the-code-of-a-dead-label") => {
            let labels = if m.words[STORE_LABELS] == 1 {
                word(m, CAPACITY)
            } else {
                0
            };
            for l in (0..labels).filter(|l| m.label_count[*l] == 0) {
                m.labels[l] = 0;
            }
        }
        Call::Copy { .. } if mutant::is("both-lose-a-copied-denormal") => {
            for w in returned.words.iter_mut().filter(|w| **w & 0x7f80_0000 == 0) {
                *w &= 1 << 31;
            }
        }
        _ => {}
    }
}
