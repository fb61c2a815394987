//! Counts of what was generated.

use std::collections::BTreeMap;

/// The table's largest number.
const LAST: usize = 19;

#[derive(Default)]
pub struct Tally {
    counts: BTreeMap<&'static str, u64>,
    refusals: [u64; LAST + 1],
}

impl Tally {
    pub fn add(&mut self, name: &'static str) {
        *self.counts.entry(name).or_insert(0) += 1;
    }

    pub fn add_many(&mut self, name: &'static str, count: u64) {
        *self.counts.entry(name).or_insert(0) += count;
    }

    pub fn refused(&mut self, number: u8) {
        self.refusals[number as usize] += 1;
    }

    pub fn get(&self, name: &str) -> u64 {
        self.counts.get(name).copied().unwrap_or(0)
    }

    /// The names of all that was counted.
    pub fn names(&self) -> Vec<String> {
        let counted = self.counts.keys().map(|name| name.to_string());
        let refused = (1..=LAST).filter(|&number| self.refusals[number] > 0);
        counted
            .chain(refused.map(|number| format!("refused {number}")))
            .collect()
    }

    /// Adds the counts of another.
    pub fn join(&mut self, other: &Tally) {
        for (name, count) in &other.counts {
            self.add_many(name, *count);
        }
        for (mine, theirs) in self.refusals.iter_mut().zip(other.refusals) {
            *mine += theirs;
        }
    }

    /// All counts, one on a line.
    pub fn lines(&self) -> String {
        let mut text = String::new();
        for (name, count) in &self.counts {
            text.push_str(&format!("{count:>12}  {name}\n"));
        }
        for (number, count) in self.refusals.iter().enumerate().skip(1) {
            text.push_str(&format!("{count:>12}  refused {number}\n"));
        }
        text
    }
}
