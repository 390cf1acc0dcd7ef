//! Damage to words: flipped bits, wrong kinds, cuts and additions.

use plain::words::{payload, word};

use crate::random::Random;

const PAYLOADS: [u32; 17] = [
    0, 1, 2, 8, 9, 12, 13, 0xFF, 0x800, 0xF00, 0x1000, 65_535, 65_536, 1_000_001, 268_431_361, 0x0FF0_BDBF, 0x0FFF_FFFF,
];

/// The words with one or two faults in a share of the cases, otherwise as they are.
pub fn maybe(random: &mut Random, words: Vec<u32>, share: usize) -> Vec<u32> {
    if !random.percent(share) {
        return words;
    }
    let mut words = damaged(random, words);
    if random.percent(10) {
        words = damaged(random, words);
    }
    words
}

fn damaged(random: &mut Random, mut words: Vec<u32>) -> Vec<u32> {
    if words.is_empty() {
        return vec![any_word(random)];
    }
    let at = place(random, words.len());
    match random.below(10) {
        0 | 1 => words[at] ^= 1 << random.below(32),
        2 => words[at] = word(random.below(16) as u32, payload(words[at])),
        3 => words[at] = word(words[at] >> 28, random.pick(&PAYLOADS)),
        4 => words.truncate(at),
        5 => words.insert(at, words[at]),
        6 => words.insert(at, any_word(random)),
        7 => drop(words.remove(at)),
        8 => words.swap(at, random.below(at + 1)),
        _ => words.push(any_word(random)),
    }
    words
}

/// A word of any kind, with a payload near some limit.
fn any_word(random: &mut Random) -> u32 {
    word(random.below(16) as u32, random.pick(&PAYLOADS))
}

/// Any place, those near the front and the end more often.
fn place(random: &mut Random, length: usize) -> usize {
    match random.below(4) {
        0 => random.below(length.min(15)),
        1 => length - 1 - random.below(length.min(6)),
        _ => random.below(length),
    }
}
