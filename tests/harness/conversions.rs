//! Lists of calls on a table that is converted there and back on the way: half-resolved and heavy tables, damaged ones of either
//! form, targets around their bounds, and the other calls on either form.

use crate::call::Call;
use crate::comparison::Comparison;
use crate::fields::Field;
use crate::random::Random;
use crate::table_calls::any_call;
use crate::table_damage;
use crate::tables::{any_rows, counts, encoded, respaced, Form};

/// How many of a hundred conversions are tried on a damaged copy of the table first.
const DAMAGED: usize = 30;

pub fn round(random: &mut Random, comparison: &mut Comparison) {
    let field = Field::any(random);
    let start = if random.percent(60) { encoded(random, &field) } else { any_rows(random, &field.sizes, 10) };
    let run = Call::Run { table: start, limit: random.pick(&[0, 1, 3, 20]), derivation: vec![1; 20] };
    let mut table = comparison.make(random, run).into_table();
    let mut form = Form::Six;
    for _ in 0..random.between(3, 7) {
        match random.below(10) {
            0 | 1 => {
                let call = any_call(random, table, &field);
                table = comparison.make(random, call).into_table();
            }
            2 => mistaken(random, comparison, &table, form),
            _ => {
                if let Some(target) = converted(random, comparison, &table, form) {
                    (table, form) = (target, form.other());
                }
            }
        }
    }
}

/// The conversion that a table is not for, and its own with the table as if it had the other form; where a weight has high bits,
/// leaving them out may leave a weight of 0.
fn mistaken(random: &mut Random, comparison: &mut Comparison, table: &[u32], form: Form) {
    for source in [table.to_vec(), respaced(table, form)] {
        let call = conversion(random, source, counts(table), form.other());
        comparison.make(random, call);
    }
}

/// The table that the conversion of a table of this form writes; none, where it is refused.
fn converted(random: &mut Random, comparison: &mut Comparison, table: &[u32], form: Form) -> Option<Vec<u32>> {
    if random.percent(DAMAGED) {
        let damaged = table_damage::damaged(random, table.to_vec(), form);
        let call = conversion(random, damaged, counts(table), form);
        comparison.make(random, call);
    }
    let call = conversion(random, table.to_vec(), counts(table), form);
    let before = call.clone().into_table();
    let after = comparison.make(random, call).into_table();
    // A good one writes the whole target, whose words were any.
    (after != before).then(|| after)
}

/// The conversion from a form, of a source of about so many variables and rows.
fn conversion(random: &mut Random, source: Vec<u32>, (variables, rows): (usize, usize), from: Form) -> Call {
    let other = from.other();
    let needed = other.length(variables, rows);
    let length = match random.below(12) {
        0 => random.below(variables + 3),
        1 => other.length(variables, random.below(rows + 1)) + random.below(other.row_words()),
        2 => needed - 1,
        3..=5 => needed + random.below(other.row_words()),
        _ => needed + random.below(60),
    };
    let target = random.words(length);
    match from {
        Form::Five => Call::ToSix { source, target },
        Form::Six => Call::ToFive { source, target },
    }
}
