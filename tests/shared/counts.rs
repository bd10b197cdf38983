// How many things that are compared reached each of those that are counted.

use std::collections::{BTreeMap, BTreeSet};

pub type Reached = BTreeSet<&'static str>;

#[derive(Default)]
pub struct Counts(pub BTreeMap<&'static str, u64>);

impl Counts {
    pub fn add(&mut self, reached: &Reached) {
        for name in reached {
            *self.0.entry(name).or_insert(0) += 1;
        }
    }

    // Prints them; false where one was never reached. Every name is held to the list, so that one that is misspelt is found.
    pub fn report(&self, all: &[&'static str]) -> bool {
        let unknown: Vec<_> = self.0.keys().filter(|name| !all.contains(name)).collect();
        assert!(unknown.is_empty(), "not in the list: {unknown:?}");
        for name in all {
            let count = self.0.get(name).copied().unwrap_or(0);
            println!("{count:8} {name}{}", if count == 0 { ": NOT REACHED" } else { "" });
        }
        self.0.len() == all.len()
    }
}
