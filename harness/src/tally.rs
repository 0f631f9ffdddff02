//! Counts what was compared, and keeps what differed.

use std::collections::BTreeMap;

/// Differences are printed up to this many; one is enough to fail.
const SHOWN: usize = 5;

#[derive(Default)]
pub struct Tally {
    calls: BTreeMap<&'static str, u64>,
    listed: BTreeMap<&'static str, u64>,
    differences: Vec<String>,
}

impl Tally {
    /// A call of the port of this kind was compared.
    pub fn call(&mut self, kind: &'static str) {
        *self.calls.entry(kind).or_default() += 1;
    }

    /// A listed difference with the Rust was met, as it is listed.
    pub fn listed(&mut self, name: &'static str) {
        *self.listed.entry(name).or_default() += 1;
    }

    /// What must hold of a call.
    pub fn holds(&mut self, kind: &'static str, held: bool, case: impl FnOnce() -> String) {
        if !held {
            if self.differences.len() < SHOWN {
                self.differences.push(format!("{kind}: {}", case()));
            } else {
                self.differences.push(String::new());
            }
        }
    }

    pub fn calls(&self) -> u64 {
        self.calls.values().sum()
    }

    pub fn differences(&self) -> usize {
        self.differences.len()
    }

    /// The counts, the first differences, and a last line that says it all.
    pub fn report(&self) -> String {
        let mut text = String::new();
        for (kind, count) in &self.calls {
            text += &format!("{count:>12}  {kind}\n");
        }
        if !self.listed.is_empty() {
            text += "listed differences with the Rust that were met:\n";
            for (name, count) in &self.listed {
                text += &format!("{count:>12}  {name}\n");
            }
        }
        for difference in self.differences.iter().take(SHOWN) {
            text += &format!("DIFFERENCE {difference}\n");
        }
        text + &format!("compare: {} calls, {} differences\n", self.calls(), self.differences())
    }
}
