//! The entries of an accepted instance, and what an assignment pays.

use crate::input::read_instance;
use crate::limits::FORBIDDEN_WEIGHT;
use crate::refusal::{require, Refusal};
use crate::words::{self, kind, payload};

/// The entries one after the other, each as its bindings and its cost.
pub struct Entries<'a> {
    words: &'a [u32],
}

impl<'a> Entries<'a> {
    /// Entries in words that have been read as good.
    pub fn of(words: &'a [u32]) -> Entries<'a> {
        Entries { words }
    }
}

impl<'a> Iterator for Entries<'a> {
    type Item = (&'a [u32], u64);

    fn next(&mut self) -> Option<(&'a [u32], u64)> {
        let at = self.words.iter().position(|&word| words::closes(word))?;
        let (bindings, behind) = self.words.split_at(at);
        self.words = &behind[1..];
        Some((bindings, closing_cost(behind[0])))
    }
}

/// What an entry costs that this word closes.
fn closing_cost(word: u32) -> u64 {
    if kind(word) == words::FORBIDDEN {
        FORBIDDEN_WEIGHT
    } else {
        u64::from(payload(word))
    }
}

/// The sum of the costs of the entries all of whose bindings the assignment has.
pub fn cost_in(entries: Entries, assignment: &[u8]) -> u64 {
    let holds = |&word: &u32| u32::from(assignment[words::binding_variable(word)]) == words::binding_value(word);
    entries.filter(|(bindings, _)| bindings.iter().all(holds)).map(|(_, cost)| cost).sum()
}

/// What an assignment (document 01: plan) of an instance pays.
pub fn cost(instance: &[u32], assignment: &[u8]) -> Result<u64, Refusal> {
    let read = read_instance(instance)?;
    require(read.domains.has(assignment), Refusal::BadClaim)?;
    Ok(cost_in(Entries::of(&instance[read.entries..]), assignment))
}
