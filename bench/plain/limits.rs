//! The limits of every format, in one place.

pub const MAX_VARIABLES: usize = 12; // document 01: stations of a field
pub const MAX_SIZE: u32 = 8; // document 01: spots of a station
pub const MAX_COST: u32 = 65_535;
pub const MAX_ENTRIES: usize = 4_096;
pub const MAX_WEIGHT: u64 = (1 << 56) - 1;
pub const FIVE_MAX_WEIGHT: u64 = (1 << 28) - 1; // in rows of five words
pub const FORBIDDEN_WEIGHT: u64 = 268_431_361; // of a forbidden entry
pub const MAX_COORDINATE: i32 = 1_000_000;
pub const MAX_ROWS: usize = 4_096;
