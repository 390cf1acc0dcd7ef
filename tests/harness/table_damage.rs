//! Faults that a table can have although each of its words is good by itself, and single faulty words.

use plain::words::{payload, word, HIGH_WEIGHT, ROW_COUNT, WEIGHT};

use crate::damage;
use crate::random::Random;
use crate::tables::{counts, respaced, Form};

/// A row's words before those of its weight.
const SIGN_WORDS: usize = 4;

/// A valid table of this form with a fault.
pub fn damaged(random: &mut Random, mut table: Vec<u32>, form: Form) -> Vec<u32> {
    let ((variables, rows), row_words) = (counts(&table), form.row_words());
    if rows == 0 || random.percent(40) {
        return damage::maybe(random, table, 100);
    }
    let start = |row: usize| form.length(variables, row);
    let row = random.below(rows);
    match random.below(11) {
        // Signs twice, with the same weight or with the other row's.
        0 | 1 => {
            let copied = random.pick(&[SIGN_WORDS, SIGN_WORDS + 1, row_words]);
            table.copy_within(start(row)..start(row) + copied, start(random.below(rows)));
        }
        2 => table[variables + 1] = word(ROW_COUNT, rows as u32 + 1),
        3 => table[variables + 1] = word(ROW_COUNT, rows as u32 - 1),
        4..=6 => damage_weight(random, &mut table[start(row) + SIGN_WORDS..start(row) + row_words]),
        7 => fill_sign(random, &mut table[..], start(row), variables),
        8 => table.swap(start(row), start(row) + random.between(1, row_words - 1)),
        9 => table = respaced(&table, form),
        _ => *table.last_mut().expect("a table has words") = 1,
    }
    table
}

/// Puts other words in place of a weight's: mostly of their kinds, with payloads that are often 0.
fn damage_weight(random: &mut Random, weight: &mut [u32]) {
    for (place, kind) in weight.iter_mut().zip([WEIGHT, HIGH_WEIGHT]) {
        let kind = if random.percent(75) { kind } else { random.below(16) as u32 };
        *place = word(kind, random.pick(&[0, 0, 1, payload(*place)]));
    }
}

/// Makes a sign full, or gives one to a variable that the field lacks, or takes one beyond its values.
fn fill_sign(random: &mut Random, table: &mut [u32], row: usize, variables: usize) {
    let variable = random.below(12);
    let size = if variable < variables { payload(table[1 + variable]) } else { 1 };
    let sign = random.pick(&[(1 << size) - 1, 1 << size & 0xFF, 0x80]);
    table[row + variable / 3] |= sign << (variable % 3 * 8);
}
