//! The calls that make steps: one step, and a run of steps.

use crate::hunt::{next_pair, Pair, Start};
use crate::refusal::Refusal;
use crate::resolution::resolve;
use crate::table::Table;
use crate::words;

#[derive(Clone, Copy, Debug, PartialEq, Eq)]
pub enum Stepped {
    /// No pair is left.
    Done,
    /// The word of the step made.
    Made(u32),
}

#[derive(Clone, Copy, Debug, PartialEq, Eq)]
pub enum Outcome {
    Done,
    Paused,
    Refused(Refusal),
}

#[derive(Clone, Copy, Debug, PartialEq, Eq)]
pub struct Ran {
    pub outcome: Outcome,
    pub steps: usize,
    /// The empty row's weight in the table that the run leaves.
    pub bound: u64,
}

/// Makes the next step in a table.
pub fn step(table: &mut [u32]) -> Result<Stepped, Refusal> {
    let mut table = Table::read(table)?;
    match next_pair(&table.domains, table.rows(), &Start::fresh()) {
        None => Ok(Stepped::Done),
        Some(pair) => resolve(&mut table, pair).map(|_| Stepped::Made(word_of(pair))),
    }
}

/// Makes steps until no pair is left, the limit or the end of the slice is reached, or a step is refused.
pub fn run(table: &mut [u32], limit: usize, derivation: &mut [u32]) -> Ran {
    match Table::read(table) {
        Err(refusal) => Ran { outcome: Outcome::Refused(refusal), steps: 0, bound: 0 },
        Ok(mut table) => {
            let most = limit.min(derivation.len());
            let (outcome, steps) = run_steps(&mut table, &mut derivation[..most]);
            Ran { outcome, steps, bound: table.bound() }
        }
    }
}

fn run_steps(table: &mut Table, derivation: &mut [u32]) -> (Outcome, usize) {
    let mut start = Start::fresh();
    let mut steps = 0;
    while let Some(pair) = next_pair(&table.domains, table.rows(), &start) {
        if steps == derivation.len() {
            return (Outcome::Paused, steps);
        }
        match resolve(table, pair) {
            Err(refusal) => return (Outcome::Refused(refusal), steps),
            Ok(next) => start = next,
        }
        derivation[steps] = word_of(pair);
        steps += 1;
    }
    (Outcome::Done, steps)
}

fn word_of(pair: Pair) -> u32 {
    words::step(pair.variable, pair.first, pair.second)
}
