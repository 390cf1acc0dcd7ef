//! Random fields, and their sheets and instances as words.

use plain::words::{binding, word, COST, EASTING, FORBIDDEN, HEAD, NORTHING, SIZE};

use crate::random::Random;

const COSTS: [u32; 12] = [0, 0, 1, 1, 2, 3, 5, 9, 40, 1_000, 65_534, 65_535];
const EDGES: [i32; 12] = [0, 1, 49, 50, 51, 100, 300, 400, 5_000, 70_711, 999_999, 1_000_000];

pub struct Field {
    pub sizes: Vec<u32>,
    /// Each entry's bindings and the word that closes it.
    entries: Vec<(Vec<(usize, usize)>, u32)>,
    /// Whether its words have a head, without which there are none at all.
    headed: bool,
}

impl Field {
    /// Any field, mostly a small one.
    pub fn any(random: &mut Random) -> Field {
        if random.percent(25) {
            let sizes = sizes(random, 2, 5, &[1, 2, 2, 3]);
            return Field::linked(random, sizes);
        }
        if random.percent(6) {
            return Field::empty(random);
        }
        let sizes = match random.below(20) {
            0 => sizes(random, 12, 12, &[1, 1, 2, 2, 3]),
            1 => sizes(random, 1, 2, &[7, 8]),
            2 => sizes(random, 5, 9, &[1, 2, 2, 3]),
            3..=6 => sizes(random, 3, 5, &[2, 3, 4]),
            _ => sizes(random, 1, 3, &[1, 2, 2, 3, 3, 4, 5]),
        };
        let most = random.pick(&[2, 4, 8, 12]) + 3 * sizes.len();
        Field::with_entries(random, sizes, most)
    }

    /// A field without variables: constant costs behind a head of 0, or no words.
    fn empty(random: &mut Random) -> Field {
        let headed = random.percent(75);
        let most = if headed { 5 } else { 0 };
        Field { headed, ..Field::with_entries(random, Vec::new(), most) }
    }

    /// A field of the given domains with at most so many entries.
    fn with_entries(random: &mut Random, sizes: Vec<u32>, most: usize) -> Field {
        let entries = random.between(0, most);
        Field::long(random, sizes, entries)
    }

    /// A field that takes many steps: each value has a cost, and so has each pair of values of neighbouring variables.
    pub fn linked(random: &mut Random, sizes: Vec<u32>) -> Field {
        let mut entries = Vec::new();
        for (variable, &size) in sizes.iter().enumerate() {
            for value in 0..size as usize {
                entries.push((vec![(variable, value)], closing(random)));
                for next in 0..sizes.get(variable + 1).map_or(0, |&size| size as usize) {
                    let cost = word(COST, random.below(40) as u32);
                    entries.push((vec![(variable, value), (variable + 1, next)], cost));
                }
            }
        }
        Field { sizes, entries, headed: true }
    }

    /// A field with exactly so many entries, each of few bindings.
    pub fn long(random: &mut Random, sizes: Vec<u32>, entries: usize) -> Field {
        let entries = (0..entries).map(|_| entry(random, &sizes)).collect();
        Field { sizes, entries, headed: true }
    }

    pub fn variables(&self) -> usize {
        self.sizes.len()
    }

    pub fn entries(&self) -> usize {
        self.entries.len()
    }

    /// The number of entries for travel between neighbouring variables.
    pub fn legs(&self) -> usize {
        self.sizes.windows(2).map(|sizes| (sizes[0] * sizes[1]) as usize).sum()
    }

    fn head(&self) -> Vec<u32> {
        vec![word(HEAD, self.variables() as u32); usize::from(self.headed)]
    }

    pub fn instance(&self) -> Vec<u32> {
        let mut words = self.head();
        words.extend(self.sizes.iter().map(|&size| word(SIZE, size)));
        self.push_entries(&mut words);
        words
    }

    /// A sheet with these entries and random places.
    pub fn sheet(&self, random: &mut Random) -> Vec<u32> {
        let mut words = self.head();
        for &size in &self.sizes {
            words.push(word(SIZE, size));
            for _ in 0..size {
                words.push(coordinate(EASTING, centimetres(random)));
                words.push(coordinate(NORTHING, centimetres(random)));
            }
        }
        self.push_entries(&mut words);
        words
    }

    fn push_entries(&self, words: &mut Vec<u32>) {
        for (bindings, closing) in &self.entries {
            words.extend(bindings.iter().map(|&(variable, value)| binding(variable, value)));
            words.push(*closing);
        }
    }

    /// One value in range for each variable.
    pub fn assignment(&self, random: &mut Random) -> Vec<u8> {
        self.sizes.iter().map(|&size| random.below(size as usize) as u8).collect()
    }
}

pub fn sizes(random: &mut Random, fewest: usize, most: usize, from: &[u32]) -> Vec<u32> {
    (0..random.between(fewest, most)).map(|_| random.pick(from)).collect()
}

fn entry(random: &mut Random, sizes: &[u32]) -> (Vec<(usize, usize)>, u32) {
    let share = random.pick(&[0, 20, 20, 40, 60, 100]);
    let bound: Vec<usize> = (0..sizes.len()).filter(|_| random.percent(share)).collect();
    let bindings = bound.iter().map(|&variable| (variable, random.below(sizes[variable] as usize))).collect();
    (bindings, closing(random))
}

/// A cost, or in some of the cases the word that forbids.
fn closing(random: &mut Random) -> u32 {
    if random.percent(8) {
        word(FORBIDDEN, 0)
    } else {
        word(COST, random.pick(&COSTS))
    }
}

/// A coordinate in range, often near a limit or near half a metre.
pub fn centimetres(random: &mut Random) -> i32 {
    let size = if random.percent(60) { random.pick(&EDGES) } else { random.below(1_000_001) as i32 };
    if random.percent(50) {
        -size
    } else {
        size
    }
}

/// A coordinate word; the number need not be in range.
pub fn coordinate(kind: u32, centimetres: i32) -> u32 {
    word(kind, centimetres as u32 & 0x0FFF_FFFF)
}
