//! The library's calls with all that they are lent.

#[derive(Clone, Debug, PartialEq)]
pub enum Call {
    Make { sheet: Vec<u32>, target: Vec<u32> },
    Encode { instance: Vec<u32>, table: Vec<u32> },
    Step { table: Vec<u32> },
    Run { table: Vec<u32>, limit: usize, derivation: Vec<u32> },
    Plan { table: Vec<u32>, target: Vec<u8> },
    Check { instance: Vec<u32>, derivation: Vec<u32>, assignment: Vec<u8>, claimed: u64, table: Vec<u32> },
    Readout { sheet: Vec<u32>, assignment: Vec<u8>, variable: u32, easting: u32, northing: u32 },
    Cost { instance: Vec<u32>, assignment: Vec<u8> },
    Drive { instance: Vec<u32>, table: Vec<u32>, calls: Vec<u32>, derivation: Vec<u32>, target: Vec<u8> },
    Complete { table: Vec<u32>, k: usize, fixed: Vec<u8>, target: Vec<u8> },
    ToSix { source: Vec<u32>, target: Vec<u32> },
    ToFive { source: Vec<u32>, target: Vec<u32> },
}

pub const CALLS: usize = 12;

pub const NAMES: [&str; CALLS] =
    ["make", "encode", "step", "run", "plan", "check", "readout", "cost", "drive", "complete", "to_six", "to_five"];

/// The numbers that random inputs of each call have to reach.
pub const NUMBERS: [&[u32]; CALLS] = [
    &[0, 1, 2, 3, 4, 5, 10],
    &[0, 1, 2, 3, 4, 5, 10, 12],
    &[0, 9, 11, 12],
    &[0, 9, 11, 12],
    &[0, 9, 10, 13, 15],
    &[0, 1, 2, 3, 4, 5, 6, 7, 10, 12],
    &[0, 1, 2, 3, 4, 5, 8],
    &[0, 1, 2, 3, 4, 5, 7],
    &[0, 1, 2, 3, 4, 5, 10, 12],
    &[0, 9, 10, 11, 13, 14],
    &[0, 9, 10, 12],
    &[0, 9, 10, 12, 16],
];

/// How many fields each call returns besides its number.
const FIELDS: [usize; CALLS] = [1, 1, 2, 3, 0, 1, 1, 1, 1, 1, 1, 1];

impl Call {
    /// The call's place in the lists above.
    pub fn index(&self) -> usize {
        match self {
            Call::Make { .. } => 0,
            Call::Encode { .. } => 1,
            Call::Step { .. } => 2,
            Call::Run { .. } => 3,
            Call::Plan { .. } => 4,
            Call::Check { .. } => 5,
            Call::Readout { .. } => 6,
            Call::Cost { .. } => 7,
            Call::Drive { .. } => 8,
            Call::Complete { .. } => 9,
            Call::ToSix { .. } => 10,
            Call::ToFive { .. } => 11,
        }
    }

    pub fn fields(&self) -> usize {
        FIELDS[self.index()]
    }

    /// The table of a step, a run, a plan or a completion, and the target of a conversion.
    pub fn into_table(self) -> Vec<u32> {
        match self {
            Call::Step { table }
            | Call::Run { table, .. }
            | Call::Plan { table, .. }
            | Call::Complete { table, .. } => table,
            Call::ToSix { target, .. } | Call::ToFive { target, .. } => target,
            _ => Vec::new(),
        }
    }
}
