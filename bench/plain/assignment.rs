//! The assignment rebuilt from a table in which no pair is left (document 01: plan), whole or with its last values fixed.

use crate::clause::{avoids, below, Place, Signs};
use crate::domains::Domains;
use crate::hunt::{next_pair, Start};
use crate::limits::{FORBIDDEN_WEIGHT, MAX_WEIGHT};
use crate::refusal::{require, Refusal};
use crate::row::{empty_weight, rows_in, Row};
use crate::table::{rows_start, validated};

/// Writes the assignment to the front of the target, one byte for each variable, unless all are forbidden.
pub fn plan(table: &[u32], target: &mut [u8]) -> Result<(), Refusal> {
    let (domains, rows) = read_for(table, target)?;
    require(next_pair(&domains, rows, &Start::fresh()).is_none(), Refusal::PairLeft)?;
    // No assignment costs less than the empty row weighs.
    require(empty_weight(rows) < FORBIDDEN_WEIGHT, Refusal::Forbidden)?;
    rebuild(&domains, rows, &mut target[..domains.count()], domains.count());
    Ok(())
}

/// Writes the assignment with these values of the variables from k on; the answer is its cost.
pub fn complete(table: &[u32], k: usize, fixed: &[u8], target: &mut [u8]) -> Result<u64, Refusal> {
    let (domains, rows) = read_for(table, target)?;
    require(domains.has_from(k, fixed), Refusal::BadFixed)?;
    require(next_pair(&domains, rows, &Start::fresh()).is_none(), Refusal::PairLeft)?;
    let cost = falsified_weight(rows, k, &signs_of(k, fixed));
    require(cost <= MAX_WEIGHT, Refusal::WeightTooHigh)?;
    target[k..domains.count()].copy_from_slice(fixed);
    rebuild(&domains, rows, &mut target[..domains.count()], k);
    Ok(cost)
}

/// The domains and rows of a valid table, for a target with a byte for each variable.
fn read_for<'a>(table: &'a [u32], target: &[u8]) -> Result<(Domains, &'a [Row]), Refusal> {
    let (domains, used) = validated(table)?;
    require(domains.count() <= target.len(), Refusal::TargetTooShort)?;
    Ok((domains, &rows_in(&table[rows_start(domains.count())..])[..used]))
}

/// The values of the variables from the given one on as signs of one value each, 0 for the variables below it.
fn signs_of(variable: usize, values: &[u8]) -> Signs {
    values.iter().zip(variable..).fold([0; 4], |chosen, (&value, at)| Place::of(at).joined(&chosen, 1 << value))
}

/// The weight of the rows without variables below k that the chosen values falsify; one more than the greatest weight stands
/// for all above it, since 4,096 of them pass 64 bits.
fn falsified_weight(rows: &[Row], k: usize, chosen: &Signs) -> u64 {
    let below = below(k);
    let counts = |row: &&Row| avoids(&row.signs, &below) && avoids(&row.signs, chosen);
    rows.iter().filter(counts).fold(0, |sum, row| (sum + row.weight()).min(MAX_WEIGHT + 1))
}

/// The values of the variables below k, from the last one down, where those from k on are given.
fn rebuild(domains: &Domains, rows: &[Row], values: &mut [u8], k: usize) {
    let mut chosen = signs_of(k, &values[k..]);
    for variable in (0..k).rev() {
        let value = common_sign(domains, rows, variable, &chosen).trailing_zeros();
        values[variable] = value as u8;
        chosen = Place::of(variable).joined(&chosen, 1 << value);
    }
}

/// The values in the signs of all rows of the bucket that the chosen values falsify.
fn common_sign(domains: &Domains, rows: &[Row], variable: usize, chosen: &Signs) -> u32 {
    let place = Place::of(variable);
    let below = below(variable);
    let counts = |row: &&Row| {
        place.sign(&row.signs) != 0 && avoids(&row.signs, &below) && avoids(&row.signs, chosen)
    };
    rows.iter().filter(counts).fold(domains.full(variable), |common, row| common & place.sign(&row.signs))
}
