//! Calls of the driver: lists of steps, runs and plans as words, on fields whose table has little or much room.

use plain::words::word;

use crate::call::Call;
use crate::comparison::Comparison;
use crate::damage;
use crate::fields::Field;
use crate::random::Random;
use crate::table_calls::target;
use crate::tables::any_length;

const STEP: u32 = 0;
const RUN: u32 = 1;
const PLAN: u32 = 2;

const LIMITS: [u32; 8] = [0, 1, 2, 5, 30, 200, 8_192, 16_383];
const SLICES: [u32; 8] = [0, 1, 3, 20, 60, 200, 8_192, 16_383];

pub fn round(random: &mut Random, comparison: &mut Comparison) {
    let field = Field::any(random);
    let (table, variables) = (any_length(random, &field), field.variables());
    let steps = random.pick(&[0, 1, 3, 20, 60, 200]);
    let target = target(random, variables);
    let call = Call::Drive {
        instance: damage::maybe(random, field.instance(), 12),
        table: random.words(table),
        calls: (0..random.between(0, 12)).map(|_| call_word(random, variables as u32)).collect(),
        derivation: random.words(steps),
        target,
    };
    comparison.make(random, call);
}

/// A call, mostly of a known kind.
fn call_word(random: &mut Random, variables: u32) -> u32 {
    match random.below(12) {
        0..=3 => word(STEP, 0),
        4..=6 => word(RUN, random.pick(&LIMITS) << 14 | random.pick(&SLICES)),
        7..=9 => word(PLAN, random.pick(&[0, variables.saturating_sub(1), variables, variables, variables + 1, 0x0FFF_FFFF])),
        // A step has no use for its payload.
        10 => word(STEP, random.next() as u32 & 0x0FFF_FFFF),
        _ => random.next() as u32,
    }
}
