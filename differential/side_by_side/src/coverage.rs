//! How often each kind of thing was met.
use std::collections::BTreeMap;

pub struct Coverage {
    title: &'static str,
    kinds: Vec<&'static str>,
    met: BTreeMap<&'static str, u64>,
}

impl Coverage {
    /// Every kind of `kinds` has to be met.
    pub fn new(title: &'static str, kinds: &[&'static str]) -> Self {
        Coverage {
            title,
            kinds: kinds.to_vec(),
            met: kinds.iter().map(|k| (*k, 0)).collect(),
        }
    }

    /// Counts `counted` and `owed`; those of `owed` have to be met.
    pub fn counting(title: &'static str, counted: &[&'static str], owed: &[&'static str]) -> Self {
        let mut coverage = Coverage::new(title, owed);
        for kind in counted {
            coverage.met.entry(kind).or_insert(0);
        }
        coverage
    }

    /// Adds another part's counts of the same kinds.
    pub fn merge(&mut self, other: Coverage) {
        for (kind, n) in other.met {
            *self.met.get_mut(kind).expect(kind) += n;
        }
    }

    pub fn meet(&mut self, kind: &'static str) {
        *self.met.get_mut(kind).expect(kind) += 1;
    }

    pub fn count(&self, kind: &str) -> u64 {
        self.met.get(kind).copied().unwrap_or(0)
    }

    /// Prints the counts. An error names the first kind that was never met.
    pub fn close(self) -> Result<(), String> {
        println!("{}", self.title);
        for kind in &self.kinds {
            println!("{:>12}  {kind}", self.met[kind]);
        }
        for (kind, n) in self
            .met
            .iter()
            .filter(|(kind, n)| **n > 0 && !self.kinds.contains(kind))
        {
            println!("{n:>12}  {kind}");
        }
        match self.kinds.iter().find(|k| self.met[*k] == 0) {
            Some(kind) => Err(format!("never met: {kind}")),
            None => Ok(()),
        }
    }
}
