//! The 32-bit words: kinds, payloads and packed fields.

pub const HEAD: u32 = 1;
pub const SIZE: u32 = 2; // document 01: station word
pub const BINDING: u32 = 3; // document 01: pair (station, spot)
pub const COST: u32 = 4;
pub const SIGNS: u32 = 5;
pub const WEIGHT: u32 = 6; // its low bits; in rows of five words all
pub const STEP: u32 = 7;
pub const EASTING: u32 = 8;
pub const NORTHING: u32 = 9;
pub const ROW_COUNT: u32 = 10;
pub const FORBIDDEN: u32 = 11; // in place of a cost
pub const HIGH_WEIGHT: u32 = 12;

pub const PAYLOAD_BITS: u32 = 28;

/// The bits of a binding's payload that no field has.
const BINDING_UNNAMED: u32 = 0x0FFF_F0F8;

pub fn word(kind: u32, payload: u32) -> u32 {
    kind << PAYLOAD_BITS | payload
}

pub fn kind(word: u32) -> u32 {
    word >> PAYLOAD_BITS
}

pub fn payload(word: u32) -> u32 {
    word & 0x0FFF_FFFF
}

/// The words in the bytes, little-endian; up to three bytes behind them are left out.
pub fn in_bytes(bytes: &[u8]) -> Vec<u32> {
    bytes.chunks_exact(4).map(|four| u32::from_le_bytes([four[0], four[1], four[2], four[3]])).collect()
}

/// The two words of a weight: its low bits and its high bits.
pub fn weight(weight: u64) -> [u32; 2] {
    [word(WEIGHT, payload(weight as u32)), word(HIGH_WEIGHT, (weight >> PAYLOAD_BITS) as u32)]
}

pub fn weight_in(low: u32, high: u32) -> u64 {
    u64::from(payload(high)) << PAYLOAD_BITS | u64::from(payload(low))
}

/// Whether the two words have the kinds of a weight's.
pub fn are_weight(low: u32, high: u32) -> bool {
    kind(low) == WEIGHT && kind(high) == HIGH_WEIGHT
}

/// A variable with one of its values.
pub fn binding(variable: usize, value: usize) -> u32 {
    word(BINDING, (variable as u32) << 8 | value as u32)
}

pub fn binding_variable(word: u32) -> usize {
    (word >> 8 & 15) as usize
}

pub fn binding_value(word: u32) -> u32 {
    word & 7
}

pub fn binding_has_unnamed_bits(word: u32) -> bool {
    word & BINDING_UNNAMED != 0
}

/// Whether the word is of a kind that closes an entry.
pub fn closes(word: u32) -> bool {
    kind(word) == COST || kind(word) == FORBIDDEN
}

/// The payload as a signed number of centimetres.
pub fn coordinate(word: u32) -> i32 {
    (word << 4) as i32 >> 4
}

pub fn step(variable: usize, first: usize, second: usize) -> u32 {
    word(STEP, (variable as u32) << 24 | (first as u32) << 12 | second as u32)
}

pub fn step_variable(word: u32) -> usize {
    (word >> 24 & 15) as usize
}

pub fn step_first(word: u32) -> usize {
    (word >> 12 & 0xFFF) as usize
}

pub fn step_second(word: u32) -> usize {
    (word & 0xFFF) as usize
}
