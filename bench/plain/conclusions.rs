//! The conclusions of a step: the clauses that take the place of two (document 01: groups 1 to 4).

use crate::clause::{is_tautology, union, Place, Signs, EMPTY};
use crate::domains::Domains;
use crate::limits::MAX_VARIABLES;

/// Meet and join, then one for each other literal of either clause.
pub const MAX_CONCLUSIONS: usize = 2 + 2 * (MAX_VARIABLES - 1);

/// The conclusions that are no tautologies, in order.
pub struct Conclusions {
    clauses: [Signs; MAX_CONCLUSIONS],
    count: usize,
}

impl Conclusions {
    /// Of two clauses that may be resolved on a variable.
    pub fn of(domains: &Domains, variable: usize, one: &Signs, other: &Signs) -> Conclusions {
        let mut made = Conclusions { clauses: [EMPTY; MAX_CONCLUSIONS], count: 0 };
        let place = Place::of(variable);
        let joined = union(one, other);
        made.push(domains, place.replaced(&joined, place.sign(one) & place.sign(other)));
        made.push(domains, joined);
        made.push_excluding(domains, variable, one, other);
        made.push_excluding(domains, variable, other, one);
        made
    }

    pub fn clauses(&self) -> &[Signs] {
        &self.clauses[..self.count]
    }

    fn push(&mut self, domains: &Domains, clause: Signs) {
        if !is_tautology(domains, &clause) {
            self.clauses[self.count] = clause;
            self.count += 1;
        }
    }

    /// For each literal of the other clause but that of the variable, rising: the clause, with the literals before it
    /// and with it complemented.
    fn push_excluding(&mut self, domains: &Domains, variable: usize, clause: &Signs, other: &Signs) {
        let mut clause = *clause;
        for literal in (0..domains.count()).filter(|&literal| literal != variable) {
            let place = Place::of(literal);
            let sign = place.sign(other);
            if sign != 0 {
                self.push(domains, place.joined(&clause, domains.full(literal) ^ sign));
                clause = place.joined(&clause, sign);
            }
        }
    }
}
