//! How often each number was met.

use std::collections::BTreeMap;
use std::fmt::{Display, Formatter, Result};

/// Numbers, and how often each was met.
#[derive(Default)]
pub struct Counts(BTreeMap<usize, usize>);

impl Counts {
    pub fn add(&mut self, number: usize) {
        *self.0.entry(number).or_default() += 1;
    }

    pub fn of(&self, number: usize) -> usize {
        self.0.get(&number).copied().unwrap_or(0)
    }

    /// How often any was met.
    pub fn total(&self) -> usize {
        self.0.values().sum()
    }

    /// Whether each of these was met so often.
    pub fn have_each(&self, numbers: impl IntoIterator<Item = usize>, least: usize) -> bool {
        numbers.into_iter().all(|number| self.of(number) >= least)
    }
}

impl Display for Counts {
    fn fmt(&self, out: &mut Formatter) -> Result {
        let all: Vec<String> = self.0.iter().map(|(number, count)| format!("{number}: {count}")).collect();
        out.write_str(&all.join(", "))
    }
}
