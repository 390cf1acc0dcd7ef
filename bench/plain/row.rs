//! Rows of a table, as they stand in its words.

use crate::clause::{Signs, EMPTY};
use crate::words;

#[derive(Clone, Copy)]
#[repr(C)]
pub struct Row {
    pub signs: Signs,
    /// The weight word with the low bits, and the word with the high ones.
    low: u32,
    high: u32,
}

pub const ROW_WORDS: usize = 6;

/// The words of a row in last year's tables: its weight has one.
pub const FIVE_ROW_WORDS: usize = 5;

pub const NO_ROW: Row = Row { signs: [0; 4], low: 0, high: 0 };

impl Row {
    pub fn new(signs: Signs, weight: u64) -> Row {
        let mut row = Row { signs, ..NO_ROW };
        row.set_weight(weight);
        row
    }

    pub fn weight(&self) -> u64 {
        words::weight_in(self.low, self.high)
    }

    pub fn set_weight(&mut self, weight: u64) {
        [self.low, self.high] = words::weight(weight);
    }

    pub fn raise(&mut self, more: u64) {
        self.set_weight(self.weight() + more);
    }

    /// The row of five words, which need not be good ones.
    pub fn of_five(words: &[u32]) -> Row {
        Row { signs: [words[0], words[1], words[2], words[3]], low: words[4], high: words::word(words::HIGH_WEIGHT, 0) }
    }

    /// Its five words; the weight has no high bits.
    pub fn five_words(&self) -> [u32; FIVE_ROW_WORDS] {
        let [first, second, third, fourth] = self.signs;
        [first, second, third, fourth, self.low]
    }

    /// Whether both words have their kinds and the weight is above 0.
    pub fn has_weight(&self) -> bool {
        words::are_weight(self.low, self.high) && self.weight() > 0
    }
}

/// The whole rows in the words; up to five words behind them are left out.
pub fn rows_in(words: &[u32]) -> &[Row] {
    // A row is six words and nothing else, at a word's alignment.
    unsafe { std::slice::from_raw_parts(words.as_ptr() as *const Row, words.len() / ROW_WORDS) }
}

/// The same, to be changed.
pub fn rows_in_mut(words: &mut [u32]) -> &mut [Row] {
    unsafe { std::slice::from_raw_parts_mut(words.as_mut_ptr() as *mut Row, words.len() / ROW_WORDS) }
}

/// The place of the row with these signs. The first word with a sign is compared before all: most rows differ in it.
pub fn find(rows: &[Row], signs: &Signs) -> Option<usize> {
    let telling = (0..3).find(|&k| signs[k] != EMPTY[k]).unwrap_or(3);
    let word = signs[telling];
    rows.iter().position(|row| row.signs[telling] == word && row.signs == *signs)
}

/// The empty row's weight, 0 if there is none.
pub fn empty_weight(rows: &[Row]) -> u64 {
    find(rows, &EMPTY).map_or(0, |at| rows[at].weight())
}
