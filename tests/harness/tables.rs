//! Random tables: encoded instances in slices around the needed length, and rows of any signs and weights, of six words or five.

use plain::words::{payload, word, HEAD, HIGH_WEIGHT, PAYLOAD_BITS, ROW_COUNT, SIGNS, SIZE, WEIGHT};

use crate::fields::Field;
use crate::random::Random;

pub const ROW_WORDS: usize = 6;
pub const MAX_WEIGHT: u64 = (1 << 56) - 1;
const FORBIDDEN_WEIGHT: u64 = 268_431_361;

/// Weights around the limit, around that of the low word, and around that of a forbidden entry.
const HEAVY: [u64; 12] = [
    1,
    2,
    3,
    FORBIDDEN_WEIGHT - 1,
    FORBIDDEN_WEIGHT,
    (1 << PAYLOAD_BITS) - 1,
    1 << PAYLOAD_BITS,
    (1 << PAYLOAD_BITS) + 1,
    MAX_WEIGHT / 2,
    MAX_WEIGHT - 1,
    MAX_WEIGHT,
    MAX_WEIGHT,
];

/// The form of a table's rows, by the words of each; last year's have five.
#[derive(Clone, Copy, PartialEq)]
pub enum Form {
    Five,
    Six,
}

impl Form {
    pub fn row_words(self) -> usize {
        match self {
            Form::Five => 5,
            Form::Six => ROW_WORDS,
        }
    }

    pub fn other(self) -> Form {
        match self {
            Form::Five => Form::Six,
            Form::Six => Form::Five,
        }
    }

    /// The length of a slice with room for so many rows of this form.
    pub fn length(self, variables: usize, rows: usize) -> usize {
        variables + 2 + self.row_words() * rows
    }
}

/// The length of a slice with room for so many rows of six words.
pub fn length(variables: usize, rows: usize) -> usize {
    Form::Six.length(variables, rows)
}

/// The numbers of variables and of rows that the words of a valid table tell.
pub fn counts(table: &[u32]) -> (usize, usize) {
    let variables = payload(table[0]) as usize;
    (variables, payload(table[variables + 1]) as usize)
}

/// A valid table as if its rows had the other form: the last word of each is left out, or a high word of 0 put behind it. Where
/// no weight has high bits, that is the table in the other form.
pub fn respaced(table: &[u32], form: Form) -> Vec<u32> {
    let (variables, rows) = counts(table);
    let (start, end) = (form.length(variables, 0), form.length(variables, rows));
    let rows = table[start..end].chunks(form.row_words()).flat_map(|row| match form {
        Form::Five => [row, &[word(HIGH_WEIGHT, 0)]].concat(),
        Form::Six => row[..row.len() - 1].to_vec(),
    });
    [&table[..start], &rows.collect::<Vec<u32>>(), &table[end..]].concat()
}

/// The number of rows of a field's encoding.
pub fn encoded_rows(field: &Field) -> usize {
    let mut table = vec![0; length(field.variables(), field.entries())];
    plain::encode(&field.instance(), &mut table).expect("there is a row for every entry")
}

/// The length of a slice for a field's table: too short for its encoding, or with little or much room for more rows.
pub fn any_length(random: &mut Random, field: &Field) -> usize {
    let rows = encoded_rows(field);
    match random.below(16) {
        0 => random.below(field.variables() + 3),
        1 => length(field.variables(), random.below(rows + 1)),
        2..=5 => length(field.variables(), rows + random.below(6)) + random.below(ROW_WORDS),
        _ => length(field.variables(), rows + random.between(20, 200)) + random.below(ROW_WORDS),
    }
}

/// The table of a field with little or much room for more rows.
pub fn encoded(random: &mut Random, field: &Field) -> Vec<u32> {
    let rows = encoded_rows(field) + random.pick(&[0, 0, 1, 2, 3, 6, 60, 60, 200]);
    let mut table = vec![0; length(field.variables(), rows) + random.below(ROW_WORDS)];
    plain::encode(&field.instance(), &mut table).expect("the rows fit");
    table
}

/// A valid table of different random rows, many of them heavy.
pub fn any_rows(random: &mut Random, sizes: &[u32], most: usize) -> Vec<u32> {
    let mut clauses: Vec<[u32; 4]> = Vec::new();
    let share = random.pick(&[30, 60, 90]);
    for _ in 0..random.between(0, most) {
        let clause = clause(random, sizes, share);
        if !clauses.contains(&clause) {
            clauses.push(clause);
        }
    }
    let room = clauses.len() + random.pick(&[0, 0, 1, 2, 5, 60]);
    let light = random.percent(40);
    let weights = clauses.iter().map(|_| if light { random.between(1, 9) as u64 } else { random.pick(&HEAVY) });
    let rows = clauses.iter().copied().zip(weights.collect::<Vec<u64>>()).collect::<Vec<_>>();
    table(sizes, &rows, length(sizes.len(), room) + random.below(ROW_WORDS))
}

/// The slice of this length that holds a table of these rows, zero past them.
pub fn table(sizes: &[u32], rows: &[([u32; 4], u64)], length: usize) -> Vec<u32> {
    let mut table = vec![word(HEAD, sizes.len() as u32)];
    table.extend(sizes.iter().map(|&size| word(SIZE, size)));
    table.push(word(ROW_COUNT, rows.len() as u32));
    for (clause, weight) in rows {
        table.extend(clause);
        table.push(word(WEIGHT, payload(*weight as u32)));
        table.push(word(HIGH_WEIGHT, (*weight >> PAYLOAD_BITS) as u32));
    }
    table.resize(length, 0);
    table
}

/// The clause of these signs.
pub fn clause_of(signs: &[u32]) -> [u32; 4] {
    let mut clause = [0, 1, 2, 3].map(|index: u32| word(SIGNS, index << 24));
    for (variable, sign) in signs.iter().enumerate() {
        clause[variable / 3] |= sign << (variable % 3 * 8);
    }
    clause
}

/// A clause with signs that are not full, each present in a share of the cases.
fn clause(random: &mut Random, sizes: &[u32], share: usize) -> [u32; 4] {
    let signs = sizes.iter().map(|&size| {
        if random.percent(share) {
            random.below((1 << size) - 1) as u32
        } else {
            0
        }
    });
    clause_of(&signs.collect::<Vec<u32>>())
}
