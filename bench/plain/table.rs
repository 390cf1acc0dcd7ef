//! A clause table in lent words: its layout, capacity and validity, in either form of its rows.

use crate::clause::{is_tautology, EMPTY};
use crate::domains::Domains;
use crate::limits::{MAX_ROWS, MAX_SIZE, MAX_VARIABLES};
use crate::refusal::{require, Refusal};
use crate::row::{empty_weight, find, rows_in, rows_in_mut, Row, FIVE_ROW_WORDS, ROW_WORDS};
use crate::words::{self, kind, payload};

/// A valid table. Spare words behind the last whole row are zero and stay so.
pub struct Table<'a> {
    pub domains: Domains,
    count: &'a mut u32,
    rows: &'a mut [Row],
    used: usize,
}

impl<'a> Table<'a> {
    /// A table in words whose head and sizes are written and whose first rows are in use.
    pub fn over(words: &'a mut [u32], domains: Domains, used: usize) -> Table<'a> {
        let most = capacity(domains.count(), words.len());
        let (front, behind) = words.split_at_mut(rows_start(domains.count()));
        let rows = &mut rows_in_mut(behind)[..most];
        Table { count: &mut front[domains.count() + 1], domains, rows, used }
    }

    /// The table in the words, or refusal 9.
    pub fn read(words: &'a mut [u32]) -> Result<Table<'a>, Refusal> {
        let (domains, used) = validated(words)?;
        Ok(Table::over(words, domains, used))
    }

    pub fn capacity(&self) -> usize {
        self.rows.len()
    }

    pub fn rows(&self) -> &[Row] {
        &self.rows[..self.used]
    }

    pub fn row_mut(&mut self, at: usize) -> &mut Row {
        &mut self.rows[at]
    }

    /// Takes out a row; those behind it close up. Its words come free behind the last row, with any content.
    pub fn remove(&mut self, at: usize) {
        self.rows.copy_within(at + 1..self.used, at);
        self.used -= 1;
    }

    /// Writes a row behind the last one.
    pub fn append(&mut self, row: Row) {
        self.rows[self.used] = row;
        self.used += 1;
    }

    /// Writes the row count, and zeros over rows that were in use before.
    pub fn settle(&mut self, used_before: usize) {
        for row in self.used..used_before {
            self.rows[row] = crate::row::NO_ROW;
        }
        *self.count = words::word(words::ROW_COUNT, self.used as u32);
    }

    /// The empty row's weight, 0 if there is none.
    pub fn bound(&self) -> u64 {
        empty_weight(self.rows())
    }
}

/// How many words stand before the first row: head, sizes and row count.
pub fn rows_start(variables: usize) -> usize {
    variables + 2
}

pub fn capacity(variables: usize, length: usize) -> usize {
    capacity_of(ROW_WORDS, variables, length)
}

/// The same for rows of so many words.
pub fn capacity_of(row_words: usize, variables: usize, length: usize) -> usize {
    MAX_ROWS.min((length - rows_start(variables)) / row_words)
}

/// The domains and the number of rows of a valid table.
pub fn validated(words: &[u32]) -> Result<(Domains, usize), Refusal> {
    let (domains, rows) = laid_out(ROW_WORDS, words)?;
    let rows = rows_in(rows);
    require(are_valid(&domains, rows), Refusal::BadTable)?;
    Ok((domains, rows.len()))
}

/// The domains and the rows of a valid table with rows of five words.
pub fn validated_five(words: &[u32]) -> Result<(Domains, Vec<Row>), Refusal> {
    let (domains, rows) = laid_out(FIVE_ROW_WORDS, words)?;
    let rows: Vec<Row> = rows.chunks_exact(FIVE_ROW_WORDS).map(Row::of_five).collect();
    require(are_valid(&domains, &rows), Refusal::BadTable)?;
    Ok((domains, rows))
}

/// The domains of a table whose rows have so many words, and the words of its rows; those behind them are zero.
fn laid_out(row_words: usize, words: &[u32]) -> Result<(Domains, &[u32]), Refusal> {
    let domains = valid_domains(words)?;
    let start = rows_start(domains.count());
    let used = valid_payload(words, start - 1, words::ROW_COUNT)? as usize;
    require(used <= capacity_of(row_words, domains.count(), words.len()), Refusal::BadTable)?;
    let (rows, behind) = words[start..].split_at(used * row_words);
    require(behind.iter().all(|&word| word == 0), Refusal::BadTable)?;
    Ok((domains, rows))
}

/// The domains of a slice that has room for head, sizes and row count.
fn valid_domains(words: &[u32]) -> Result<Domains, Refusal> {
    let count = valid_payload(words, 0, words::HEAD)? as usize;
    require(count <= MAX_VARIABLES, Refusal::BadTable)?;
    require(rows_start(count) <= words.len(), Refusal::BadTable)?;
    let mut domains = Domains::none();
    for variable in 0..count {
        let size = valid_payload(words, 1 + variable, words::SIZE)?;
        require((1..=MAX_SIZE).contains(&size), Refusal::BadTable)?;
        domains.push(size);
    }
    Ok(domains)
}

fn valid_payload(words: &[u32], at: usize, wanted: u32) -> Result<u32, Refusal> {
    match words.get(at) {
        Some(&word) if kind(word) == wanted => Ok(payload(word)),
        _ => Err(Refusal::BadTable),
    }
}

fn are_valid(domains: &Domains, rows: &[Row]) -> bool {
    rows.iter().enumerate().all(|(at, row)| {
        is_valid(domains, row) && find(&rows[..at], &row.signs).is_none()
    })
}

/// Whether a row has its kinds and indices, a weight above 0, and signs within their domains that are not full.
fn is_valid(domains: &Domains, row: &Row) -> bool {
    let full = domains.full_signs();
    let within = (0..4).all(|k| row.signs[k] >> 24 == EMPTY[k] >> 24 && row.signs[k] & 0x00FF_FFFF & !full[k] == 0);
    within
        && names_no_further(domains, row)
        && !is_tautology(domains, &row.signs)
        && row.has_weight()
}

/// Whether a row has no sign for a variable that the field lacks.
fn names_no_further(domains: &Domains, row: &Row) -> bool {
    (domains.count()..MAX_VARIABLES).all(|variable| crate::clause::Place::of(variable).sign(&row.signs) == 0)
}
