//! The checker: replays a derivation from an instance and tests a claimed cost and assignment.

use crate::clause::{permitted, Place};
use crate::encoding::encode_read;
use crate::entries::{cost_in, Entries};
use crate::hunt::Pair;
use crate::input::{read_instance, Instance};
use crate::refusal::{require, Refusal};
use crate::resolution::resolve;
use crate::table::Table;
use crate::words;

#[derive(Clone, Copy, Debug, PartialEq, Eq)]
pub struct Checked {
    pub refusal: Option<Refusal>,
    /// The steps replayed.
    pub steps: usize,
}

/// Checks a derivation and a claim, with the lent slice as work table.
pub fn check(instance: &[u32], derivation: &[u32], assignment: &[u8], claimed: u64, table: &mut [u32]) -> Checked {
    let encoded = read_instance(instance).and_then(|read| Ok((encode_read(instance, &read, table)?, read)));
    let (mut table, read) = match encoded {
        Err(refusal) => return Checked { refusal: Some(refusal), steps: 0 },
        Ok(encoded) => encoded,
    };
    let mut steps = 0;
    for &word in derivation {
        if let Err(refusal) = replay(&mut table, word) {
            return Checked { refusal: Some(refusal), steps };
        }
        steps += 1;
    }
    let holds = claim_holds(instance, &read, assignment, claimed, table.bound());
    Checked { refusal: require(holds, Refusal::BadClaim).err(), steps }
}

/// Makes the step that a word names.
fn replay(table: &mut Table, word: u32) -> Result<(), Refusal> {
    let pair = named_pair(table, word).ok_or(Refusal::BadStep)?;
    resolve(table, pair).map(|_| ())
}

/// The permitted pair that a step word names.
fn named_pair(table: &Table, word: u32) -> Option<Pair> {
    let pair = Pair {
        variable: words::step_variable(word),
        first: words::step_first(word),
        second: words::step_second(word),
    };
    let named = words::kind(word) == words::STEP
        && pair.variable < table.domains.count()
        && pair.first < pair.second
        && pair.second < table.rows().len();
    if !named {
        return None;
    }
    let (first, second) = (&table.rows()[pair.first].signs, &table.rows()[pair.second].signs);
    permitted(&table.domains, Place::of(pair.variable), first, second).then(|| pair)
}

/// Whether the claimed cost is the empty row's weight and the assignment's cost.
fn claim_holds(instance: &[u32], read: &Instance, assignment: &[u8], claimed: u64, bound: u64) -> bool {
    read.domains.has(assignment)
        && claimed == bound
        && claimed == cost_in(Entries::of(&instance[read.entries..]), assignment)
}
