//! The encoding of an instance as the clauses of a table.

use crate::clause::{Place, Signs, EMPTY};
use crate::domains::Domains;
use crate::entries::Entries;
use crate::input::{read_instance, Instance};
use crate::refusal::{require, Refusal};
use crate::row::{find, rows_in_mut, Row};
use crate::table::{capacity, rows_start, Table};
use crate::words::{self, binding_value, binding_variable};

/// Encodes an instance in the lent slice, whatever it held before; the answer is the number of rows.
pub fn encode(instance: &[u32], table: &mut [u32]) -> Result<usize, Refusal> {
    let read = read_instance(instance)?;
    let encoded = encode_read(instance, &read, table)?;
    Ok(encoded.rows().len())
}

/// The same for an instance that has been read: 10 and 12 are left.
pub fn encode_read<'a>(instance: &[u32], read: &Instance, table: &'a mut [u32]) -> Result<Table<'a>, Refusal> {
    let variables = read.domains.count();
    require(rows_start(variables) <= table.len(), Refusal::TargetTooShort)?;
    let rows = rows_of(&read.domains, Entries::of(&instance[read.entries..]));
    require(rows.len() <= capacity(variables, table.len()), Refusal::TableFull)?;
    table.fill(0);
    // The instance may be no words at all; a table has a head.
    table[0] = words::word(words::HEAD, variables as u32);
    table[1..=variables].copy_from_slice(&instance[read.entries - variables..read.entries]);
    table[variables + 1] = words::word(words::ROW_COUNT, rows.len() as u32);
    rows_in_mut(&mut table[rows_start(variables)..])[..rows.len()].copy_from_slice(&rows);
    Ok(Table::over(table, read.domains, rows.len()))
}

/// The rows of all entries of cost above 0, in order.
fn rows_of(domains: &Domains, entries: Entries) -> Vec<Row> {
    let mut rows: Vec<Row> = Vec::new();
    for (bindings, cost) in entries.filter(|&(_, cost)| cost > 0) {
        let clause = clause_of(domains, bindings);
        match find(&rows, &clause) {
            Some(at) => rows[at].raise(cost),
            None => rows.push(Row::new(clause, cost)),
        }
    }
    rows
}

/// The clause that exactly the assignments with all these bindings falsify; none of its signs is full.
fn clause_of(domains: &Domains, bindings: &[u32]) -> Signs {
    let mut clause = EMPTY;
    for &word in bindings {
        let variable = binding_variable(word);
        let sign = domains.full(variable) ^ 1 << binding_value(word);
        clause = Place::of(variable).joined(&clause, sign);
    }
    clause
}
