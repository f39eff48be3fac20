//! Counts what was seen, and what differs.

use std::collections::BTreeMap;

/// How many differences of a check are shown.
const SHOWN: u64 = 5;

#[derive(Default)]
pub struct Tally {
    counts: BTreeMap<&'static str, BTreeMap<String, u64>>,
    required: Vec<(&'static str, String)>,
    differences: BTreeMap<&'static str, u64>,
}

impl Tally {
    /// The check fails if this outcome is never counted.
    pub fn require(&mut self, check: &'static str, outcome: impl ToString) {
        self.required.push((check, outcome.to_string()));
    }

    pub fn count(&mut self, check: &'static str, outcome: impl ToString) {
        *self.counts.entry(check).or_default().entry(outcome.to_string()).or_default() += 1;
    }

    pub fn differ(&mut self, check: &'static str, difference: impl ToString) {
        let differences = self.differences.entry(check).or_default();
        *differences += 1;
        if *differences <= SHOWN {
            println!("DIFFERS {check}: {}", difference.to_string());
        }
    }

    /// Prints the counts; true if nothing differs and nothing is missing.
    pub fn report(&self) -> bool {
        for (check, outcomes) in &self.counts {
            let differences = self.differences.get(check).unwrap_or(&0);
            println!("{check}: {} comparisons, {differences} differ", outcomes.values().sum::<u64>());
            for (outcome, count) in outcomes {
                println!("  {outcome:<28}{count:>10}");
            }
        }
        let missing =
            |(check, outcome): &&(&'static str, String)| !self.counts.get(check).map_or(false, |seen| seen.contains_key(outcome));
        let missing: Vec<_> = self.required.iter().filter(missing).collect();
        for (check, outcome) in &missing {
            println!("NEVER SEEN {check}: {outcome}");
        }
        let compared: u64 = self.counts.values().flat_map(BTreeMap::values).sum();
        let differences: u64 = self.differences.values().sum();
        let (seen, required) = (self.required.len() - missing.len(), self.required.len());
        println!("{compared} comparisons, {differences} differences; {seen} of {required} outcomes seen");
        differences == 0 && missing.is_empty()
    }
}
