//! The numbers that refused calls answer with.

#[derive(Clone, Copy, Debug, PartialEq, Eq)]
#[repr(u32)]
pub enum Refusal {
    // From the input.
    BadHead = 1,
    BadVariable = 2,
    BadEntry = 3,
    CostTooHigh = 4,
    TooManyEntries = 5,
    BadStep = 6,
    BadClaim = 7,
    BadReadout = 8,
    // From the state.
    BadTable = 9,
    TargetTooShort = 10,
    WeightTooHigh = 11,
    TableFull = 12,
    PairLeft = 13,
    // Of document 02's requests.
    BadFixed = 14,
    Forbidden = 15,
    WeightTooWide = 16,
}

impl Refusal {
    pub fn number(self) -> u32 {
        self as u32
    }
}

/// Passes where the condition holds.
pub fn require(condition: bool, refusal: Refusal) -> Result<(), Refusal> {
    if condition {
        Ok(())
    } else {
        Err(refusal)
    }
}
