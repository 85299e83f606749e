//! How many cases each entry had, how many of them differed, and how many answered each fault.

use std::collections::BTreeMap;

#[derive(Default)]
pub struct Tally {
    entries: BTreeMap<&'static str, Entry>,
}

#[derive(Default)]
struct Entry {
    differences: usize,
    answers: BTreeMap<u32, usize>,
}

impl Tally {
    /// One case: the fault that the library answered, and from how many other sides it differed.
    pub fn count(&mut self, entry: &'static str, fault: u32, differences: usize) {
        let entry = self.entries.entry(entry).or_default();
        *entry.answers.entry(fault).or_default() += 1;
        entry.differences += differences;
    }

    pub fn cases(&self) -> usize {
        self.entries.values().flat_map(|entry| entry.answers.values()).sum()
    }

    pub fn differences(&self) -> usize {
        self.entries.values().map(|entry| entry.differences).sum()
    }

    pub fn print(&self) {
        println!("{:16} {:>7} {:>11}  answers by fault number, 0 being none", "entry", "cases", "differences");
        for (name, Entry { differences, answers }) in &self.entries {
            let cases: usize = answers.values().sum();
            let list: Vec<String> = answers.iter().map(|(fault, count)| format!("{fault}: {count}")).collect();
            println!("{name:16} {cases:>7} {differences:>11}  {}", list.join(", "));
        }
    }
}
