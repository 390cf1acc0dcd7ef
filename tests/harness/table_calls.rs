//! Lists of calls on one table: steps, runs, plans and completions in any order, refused ones included.

use crate::call::Call;
use crate::comparison::Comparison;
use crate::completions::completion;
use crate::fields::Field;
use crate::random::Random;
use crate::table_damage;
use crate::tables::{any_rows, encoded, Form};

const LIMITS: [usize; 8] = [0, 1, 2, 5, 30, 30, 200, usize::MAX];
const SLICES: [usize; 8] = [0, 1, 3, 20, 20, 60, 200, 200];

pub fn round(random: &mut Random, comparison: &mut Comparison) {
    let field = Field::any(random);
    let mut table = if random.percent(60) { encoded(random, &field) } else { any_rows(random, &field.sizes, 14) };
    if random.percent(25) {
        table = table_damage::damaged(random, table, Form::Six);
    }
    for _ in 0..random.between(1, 7) {
        let call = any_call(random, table, &field);
        table = comparison.make(random, call).into_table();
    }
}

/// A step, a run, a plan or a completion.
pub fn any_call(random: &mut Random, table: Vec<u32>, field: &Field) -> Call {
    match random.below(4) {
        0 => Call::Step { table },
        1 => {
            let length = random.pick(&SLICES);
            Call::Run { table, limit: random.pick(&LIMITS), derivation: random.words(length) }
        }
        2 => Call::Plan { table, target: target(random, field.variables()) },
        _ => completion(random, table, field),
    }
}

/// The target of a plan, in some of the cases too short or longer than needed.
pub fn target(random: &mut Random, variables: usize) -> Vec<u8> {
    let length = random.pick(&[0, variables.saturating_sub(1), variables, variables, variables, variables + 3, 12]);
    random.bytes(length)
}
