//! What the program does with a sheet, over the calls of either implementation, in buffers of the program's lengths.

pub const SHEET_WORDS: usize = 16_000;
pub const TABLE_WORDS: usize = 15_998;
pub const STEP_LIMIT: usize = 16_000;

/// The four calls that lead from a sheet to its plan. Each answers with its number, and with a field where it has one.
pub trait Calls {
    fn make(sheet: &[u32], target: &mut [u32]) -> (u32, u64);
    fn encode(instance: &[u32], table: &mut [u32]) -> u32;
    /// The answer is number, outcome (0 done, 1 paused, 2 stopped), steps and bound.
    fn run(table: &mut [u32], limit: usize, derivation: &mut [u32]) -> (u32, [u64; 3]);
    fn plan(table: &[u32], target: &mut [u8]) -> u32;
}

/// The program's buffers, zero and touched before they are used.
pub struct Buffers {
    pub instance: Vec<u32>,
    pub table: Vec<u32>,
    pub derivation: Vec<u32>,
    pub assignment: [u8; 12],
}

impl Buffers {
    pub fn new() -> Buffers {
        Buffers {
            instance: touched(SHEET_WORDS),
            table: touched(TABLE_WORDS),
            derivation: touched(STEP_LIMIT),
            assignment: [0; 12],
        }
    }

    /// Makes the buffers of the next sheet of these, zero again.
    #[allow(dead_code)]
    pub fn clear(&mut self) {
        self.instance.fill(0);
        self.table.fill(0);
        self.derivation.fill(0);
        self.assignment.fill(0);
    }
}

pub fn touched(length: usize) -> Vec<u32> {
    let mut words = vec![1; length];
    words.fill(0);
    words
}

/// What planning a sheet came to.
#[derive(Clone, Copy, Debug, PartialEq, Eq)]
pub struct Planned {
    pub number: u32,
    pub outcome: u64,
    pub steps: u64,
    pub bound: u64,
    pub assignment: [u8; 12],
}

/// Makes the instance, encodes it, runs to the limit and, if no pair is left, rebuilds the assignment.
pub fn planned<C: Calls>(sheet: &[u32], buffers: &mut Buffers) -> Planned {
    let mut planned = Planned { number: 0, outcome: 2, steps: 0, bound: 0, assignment: [0; 12] };
    let (number, written) = C::make(sheet, &mut buffers.instance);
    planned.number = number;
    if planned.number == 0 {
        planned.number = C::encode(&buffers.instance[..written as usize], &mut buffers.table);
    }
    if planned.number == 0 {
        let (number, [outcome, steps, bound]) = C::run(&mut buffers.table, STEP_LIMIT, &mut buffers.derivation);
        planned = Planned { number, outcome, steps, bound, ..planned };
    }
    if planned.number == 0 && planned.outcome == 0 {
        planned.number = C::plan(&buffers.table, &mut buffers.assignment);
        planned.assignment = buffers.assignment;
    }
    planned
}
