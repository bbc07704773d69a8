//! What a run has to have shown before it says something: how often the occasions of a function came, and which of its numbers and occasions
//! came too seldom.

use crate::Bench;
use std::collections::BTreeMap;

/// How often each occasion came.
pub struct Occasions(BTreeMap<&'static str, u64>);

impl Occasions {
    pub fn new() -> Occasions {
        Occasions(BTreeMap::new())
    }

    /// Counts the occasions that are here; one that is not is known from now on.
    pub fn see(&mut self, seen: &[(&'static str, bool)]) {
        for (occasion, here) in seen {
            *self.0.entry(occasion).or_insert(0) += *here as u64;
        }
    }

    pub fn print(&self, function: &str) {
        let told: Vec<String> = self.0.iter().map(|(occasion, count)| format!("{occasion}: {count}")).collect();
        println!("{function}: occasions: {}", told.join(", "));
    }

    /// The occasions that were not one in so many of the inputs.
    pub fn seldom(&self, inputs: u64, one_of: u64) -> Vec<String> {
        let rare = self.0.iter().filter(|(_, count)| *count * one_of < inputs);
        rare.map(|(occasion, count)| format!("{occasion}, {count} times")).collect()
    }
}

/// What is demanded of a function, whose inputs are called so: of so many inputs one gives each number, and one is each occasion. Fewer
/// inputs than those that tell say nothing about how often something comes.
pub struct Demand {
    pub function: &'static str,
    pub inputs: &'static str,
    pub numbers: &'static [u64],
    pub for_a_number: u64,
    pub for_an_occasion: u64,
    pub telling: u64,
}

impl Demand {
    /// Prints which numbers and occasions came too seldom; the answer is how many.
    pub fn print_seldom(&self, bench: &Bench, occasions: &Occasions) -> u64 {
        let inputs = bench.inputs_of(self.function);
        if inputs < self.telling {
            return 0;
        }
        let mut seldom = bench.seldom_numbers(self.function, self.numbers, self.for_a_number);
        seldom.extend(occasions.seldom(inputs, self.for_an_occasion));
        for what in &seldom {
            println!("{}: too seldom in {inputs} {}: {what}", self.function, self.inputs);
        }
        seldom.len() as u64
    }
}
