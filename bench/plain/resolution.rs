//! One resolution step in a table, whole or not at all.

use crate::conclusions::{Conclusions, MAX_CONCLUSIONS};
use crate::hunt::{Pair, Start};
use crate::limits::MAX_WEIGHT;
use crate::refusal::{require, Refusal};
use crate::row::{find, Row};
use crate::table::Table;

/// Resolves a permitted pair; the answer is where the hunt goes on.
pub fn resolve(table: &mut Table, pair: Pair) -> Result<Start, Refusal> {
    let (first, second) = (table.rows()[pair.first], table.rows()[pair.second]);
    // The moved weight (document 01: u).
    let moved = first.weight().min(second.weight());
    let made = Conclusions::of(&table.domains, pair.variable, &first.signs, &second.signs);
    let looked = Looked::up(table, &made, moved)?;
    let removed = usize::from(first.weight() == moved) + usize::from(second.weight() == moved);
    require(table.rows().len() - removed + looked.missing <= table.capacity(), Refusal::TableFull)?;
    let used = table.rows().len();
    looked.raise(table, moved);
    // The second row stands behind the first, so it goes first.
    lessen(table, pair.second, moved);
    lessen(table, pair.first, moved);
    looked.append(table, &made, moved);
    table.settle(used);
    Ok(Start::after(pair, first.weight() == moved))
}

/// Takes weight from a row and removes it at 0.
fn lessen(table: &mut Table, at: usize, moved: u64) {
    let weight = table.rows()[at].weight();
    if weight == moved {
        table.remove(at);
    } else {
        table.row_mut(at).set_weight(weight - moved);
    }
}

/// Where the conclusions stand before the step. Premises and conclusions are pairwise different, so no conclusion's
/// place depends on what another changes.
struct Looked {
    places: [Option<usize>; MAX_CONCLUSIONS],
    missing: usize,
}

impl Looked {
    /// Refuses with 11 where a row found would become too heavy.
    fn up(table: &Table, made: &Conclusions, moved: u64) -> Result<Looked, Refusal> {
        let mut looked = Looked { places: [None; MAX_CONCLUSIONS], missing: 0 };
        for (clause, place) in made.clauses().iter().zip(&mut looked.places) {
            *place = find(table.rows(), clause);
            match *place {
                Some(at) => require(table.rows()[at].weight() + moved <= MAX_WEIGHT, Refusal::WeightTooHigh)?,
                None => looked.missing += 1,
            }
        }
        Ok(looked)
    }

    fn raise(&self, table: &mut Table, moved: u64) {
        for &at in self.places.iter().flatten() {
            table.row_mut(at).raise(moved);
        }
    }

    fn append(&self, table: &mut Table, made: &Conclusions, moved: u64) {
        for (clause, place) in made.clauses().iter().zip(&self.places) {
            if place.is_none() {
                table.append(Row::new(*clause, moved));
            }
        }
    }
}
