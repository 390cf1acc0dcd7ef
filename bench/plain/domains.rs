//! The domain sizes of a field's variables, and their full signs packed as in sign words.

use crate::clause::{Place, Signs};
use crate::limits::MAX_VARIABLES;

#[derive(Clone, Copy)]
pub struct Domains {
    count: usize,
    sizes: [u32; MAX_VARIABLES],
    /// Three full signs to a word; 255, which no sign reaches, for variables that the field lacks; the top byte is 0,
    /// which that of a sign word never is.
    full: Signs,
}

impl Domains {
    pub fn none() -> Domains {
        Domains { count: 0, sizes: [0; MAX_VARIABLES], full: [0x00FF_FFFF; 4] }
    }

    /// Adds the next variable.
    pub fn push(&mut self, size: u32) {
        let place = Place::of(self.count);
        self.full[place.word] ^= (full(size) ^ 0xFF) << place.shift;
        self.sizes[self.count] = size;
        self.count += 1;
    }

    pub fn count(&self) -> usize {
        self.count
    }

    pub fn sizes(&self) -> &[u32] {
        &self.sizes[..self.count]
    }

    /// The set of all values of a variable.
    pub fn full(&self, variable: usize) -> u32 {
        full(self.sizes[variable])
    }

    pub fn full_signs(&self) -> &Signs {
        &self.full
    }

    /// Whether these bytes are an assignment of the field: one value in range for each variable.
    pub fn has(&self, assignment: &[u8]) -> bool {
        self.has_from(0, assignment)
    }

    /// Whether these bytes are one value in range for each variable from the given one on, which may be one past the last.
    pub fn has_from(&self, variable: usize, values: &[u8]) -> bool {
        self.sizes().get(variable..).map_or(false, |sizes| {
            values.len() == sizes.len() && values.iter().zip(sizes).all(|(&value, &size)| u32::from(value) < size)
        })
    }
}

fn full(size: u32) -> u32 {
    (1 << size) - 1
}
