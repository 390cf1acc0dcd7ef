//! The hunt for the next pair, bucket by bucket, going on where the last step was.

use crate::clause::{avoids, below, clash_beside, crossing, Place, Signs};
use crate::domains::Domains;
use crate::row::Row;

/// Two rows to be resolved on a variable that both have.
#[derive(Clone, Copy)]
pub struct Pair {
    pub variable: usize,
    pub first: usize,
    pub second: usize,
}

/// Where a hunt starts. No bucket below `variable` has a pair; in its own bucket no row below `first` goes with any
/// row, and the row `first` goes with no row below `second`.
pub struct Start {
    variable: usize,
    first: usize,
    second: usize,
}

impl Start {
    /// Of a hunt with nothing tried before.
    pub fn fresh() -> Start {
        Start::of_bucket(0)
    }

    fn of_bucket(variable: usize) -> Start {
        Start { variable, first: 0, second: 1 }
    }

    /// After a step on a pair. Both rows have no variable below this one, so neither have the conclusions: the lower
    /// buckets stay as they were. A row that went with neither of the two goes with none of the conclusions.
    pub fn after(pair: Pair, first_removed: bool) -> Start {
        let second = if first_removed { pair.first + 1 } else { pair.second };
        Start { variable: pair.variable, first: pair.first, second }
    }
}

/// The next pair, or none if no pair is left. Where the field has no variables, no row is in the bucket that a hunt starts with.
pub fn next_pair(domains: &Domains, rows: &[Row], start: &Start) -> Option<Pair> {
    let found = Bucket::of(domains, start.variable).pair(rows, start);
    found.or_else(|| {
        (start.variable + 1..domains.count())
            .find_map(|variable| Bucket::of(domains, variable).pair(rows, &Start::of_bucket(variable)))
    })
}

/// The rows whose lowest present variable is a given one (document 01: the rows that belong to a station).
struct Bucket<'a> {
    domains: &'a Domains,
    variable: usize,
    place: Place,
    below: Signs,
}

impl<'a> Bucket<'a> {
    fn of(domains: &'a Domains, variable: usize) -> Bucket<'a> {
        Bucket { domains, variable, place: Place::of(variable), below: below(variable) }
    }

    fn has(&self, row: &Row) -> bool {
        self.place.sign(&row.signs) != 0 && avoids(&row.signs, &self.below)
    }

    /// The lowest first row with the lowest second row.
    fn pair(&self, rows: &[Row], start: &Start) -> Option<Pair> {
        self.members(rows, start.first).find_map(|first| {
            let from = if first == start.first { start.second } else { first + 1 };
            self.pair_with(rows, first, from)
        })
    }

    /// The numbers of the bucket's rows from a given one on.
    fn members<'b>(&'b self, rows: &'b [Row], from: usize) -> impl Iterator<Item = usize> + 'b {
        let members = rows[from..].iter().enumerate().filter(move |(_, row)| self.has(row));
        members.map(move |(at, _)| from + at)
    }

    /// The pair of this first row with the lowest second row from a given one on.
    fn pair_with(&self, rows: &[Row], first: usize, from: usize) -> Option<Pair> {
        let one = &rows[first].signs;
        let found = rows[from..].iter().position(|other| {
            crossing(self.place, one, &other.signs)
                && avoids(&other.signs, &self.below)
                && !clash_beside(self.domains, self.place, one, &other.signs)
        });
        found.map(|at| Pair { variable: self.variable, first, second: from + at })
    }
}
