//! Clauses as the four sign words of a row, kind and index included: three signs of a byte each to a word, bit b of a
//! sign for value b, sign 0 for an absent variable.

use crate::domains::Domains;

pub type Signs = [u32; 4];

pub const EMPTY: Signs = [0x5000_0000, 0x5100_0000, 0x5200_0000, 0x5300_0000];

const LOW_BITS: u32 = 0x0101_0101;
const HIGH_BITS: u32 = 0x8080_8080;

/// Where a variable's sign stands.
#[derive(Clone, Copy)]
pub struct Place {
    pub word: usize,
    pub shift: usize,
}

impl Place {
    pub fn of(variable: usize) -> Place {
        Place { word: variable / 3, shift: variable % 3 * 8 }
    }

    pub fn sign(self, clause: &Signs) -> u32 {
        clause[self.word] >> self.shift & 0xFF
    }

    /// The clause with this variable's sign replaced.
    pub fn replaced(self, clause: &Signs, sign: u32) -> Signs {
        let mut made = *clause;
        made[self.word] = made[self.word] & !(0xFF << self.shift) | sign << self.shift;
        made
    }

    /// The clause united with a literal on this variable.
    pub fn joined(self, clause: &Signs, sign: u32) -> Signs {
        let mut made = *clause;
        made[self.word] |= sign << self.shift;
        made
    }
}

/// The clause with the literals of both.
pub fn union(one: &Signs, other: &Signs) -> Signs {
    [one[0] | other[0], one[1] | other[1], one[2] | other[2], one[3] | other[3]]
}

/// Whether some sign of the clause is full.
pub fn is_tautology(domains: &Domains, clause: &Signs) -> bool {
    let full = domains.full_signs();
    has_zero_byte(clause[0] ^ full[0])
        || has_zero_byte(clause[1] ^ full[1])
        || has_zero_byte(clause[2] ^ full[2])
        || has_zero_byte(clause[3] ^ full[3])
}

fn has_zero_byte(word: u32) -> bool {
    word.wrapping_sub(LOW_BITS) & !word & HIGH_BITS != 0
}

/// Whether neither of the two clauses' signs here contains the other; so both are present.
pub fn crossing(place: Place, one: &Signs, other: &Signs) -> bool {
    let (sign, sign2) = (place.sign(one), place.sign(other));
    sign & !sign2 != 0 && sign2 & !sign != 0
}

/// Whether the union of two clauses is full at a variable besides the one at this place. No sign of a row is full, so
/// the variable is then present in both.
pub fn clash_beside(domains: &Domains, place: Place, one: &Signs, other: &Signs) -> bool {
    let mut joined = union(one, other);
    // Sign 0 is full nowhere.
    joined[place.word] &= !(0xFF << place.shift);
    is_tautology(domains, &joined)
}

/// Whether two clauses may be resolved on the variable at this place.
pub fn permitted(domains: &Domains, place: Place, one: &Signs, other: &Signs) -> bool {
    crossing(place, one, other) && !clash_beside(domains, place, one, other)
}

/// Whether the clause has no variable in the mask.
pub fn avoids(clause: &Signs, mask: &Signs) -> bool {
    clause[0] & mask[0] | clause[1] & mask[1] | clause[2] & mask[2] | clause[3] & mask[3] == 0
}

/// The mask of the signs of all variables below this one.
pub fn below(variable: usize) -> Signs {
    let mut mask = [0; 4];
    for lower in 0..variable {
        let place = Place::of(lower);
        mask[place.word] |= 0xFF << place.shift;
    }
    mask
}
