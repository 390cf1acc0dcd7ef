//! Completions of the tables that runs leave, from fixed values with and without a fault.

use crate::call::Call;
use crate::comparison::Comparison;
use crate::fields::Field;
use crate::input_calls;
use crate::random::Random;
use crate::table_calls::target;
use crate::tables::{any_rows, encoded};

/// The most steps of a run; most of the tables come to their end with fewer.
const STEPS: usize = 300;

/// A run, and completions of the table that it leaves.
pub fn round(random: &mut Random, comparison: &mut Comparison) {
    let field = Field::any(random);
    let table = if random.percent(50) { encoded(random, &field) } else { any_rows(random, &field.sizes, 8) };
    let run = Call::Run { table, limit: usize::MAX, derivation: vec![1; STEPS] };
    let mut table = comparison.make(random, run).into_table();
    for _ in 0..4 {
        let call = completion(random, table, &field);
        table = comparison.make(random, call).into_table();
    }
}

/// A completion from any variable on, in some of the cases with a faulty k, fixed values or target.
pub fn completion(random: &mut Random, table: Vec<u32>, field: &Field) -> Call {
    let fixed_from = random.below(field.variables() + 1);
    let fixed = input_calls::assignment(random, field).into_iter().skip(fixed_from).collect();
    let k = match random.below(20) {
        0 => field.variables() + 1,
        1 => random.pick(&[fixed_from + 1, fixed_from + (1 << 32), usize::MAX]),
        _ => fixed_from,
    };
    Call::Complete { table, k, fixed, target: target(random, field.variables()) }
}
