//! Long derivations: by one run, whose table is completed, by the driver in parts, and replayed by the checker.

use crate::call::Call;
use crate::comparison::Comparison;
use crate::completions::completion;
use crate::damage;
use crate::fields::{sizes, Field};
use crate::random::Random;
use crate::tables::{encoded_rows, length};

/// The most steps, and the room for rows besides those of the encoding: too little or enough.
const STEPS: usize = 3_000;
const SPARE: [usize; 5] = [3, 12, 30, 400, 400];

/// What the derivation slice holds behind the step words; no step word is like it.
const UNUSED: u32 = 1;

const RUN_TO_THE_END: u32 = 1 << 28 | 0x0FFF_FFFF;
const STEP: u32 = 0;
const PLAN: u32 = 2 << 28 | 12;

pub fn round(random: &mut Random, comparison: &mut Comparison) {
    let domains = sizes(random, 6, 12, &[2, 3, 4, 5]);
    let field = Field::linked(random, domains);
    let table_length = length(field.variables(), encoded_rows(&field) + random.pick(&SPARE));
    let mut table = vec![0; table_length];
    plain::encode(&field.instance(), &mut table).expect("the rows fit");
    let run = Call::Run { table, limit: usize::MAX, derivation: vec![UNUSED; STEPS] };
    let left = comparison.make(random, run).into_table();
    let call = completion(random, left, &field);
    comparison.make(random, call);
    let call = driven(random, &field, table_length);
    if let Call::Drive { instance, table, derivation, target, .. } = comparison.make(random, call) {
        let steps: Vec<u32> = derivation.into_iter().take_while(|&step| step != UNUSED).collect();
        let claimed = plain::run(&mut table.clone(), 0, &mut []).bound;
        let assignment = target[..field.variables()].to_vec();
        for derivation in [steps.clone(), damage::maybe(random, steps, 100)] {
            let (instance, assignment, table) = (instance.clone(), assignment.clone(), table.clone());
            comparison.make(random, Call::Check { instance, derivation, assignment, claimed, table });
        }
    }
}

/// Runs of a part, with a step and a plan between them, and one to the end.
fn driven(random: &mut Random, field: &Field, table_length: usize) -> Call {
    let part = 1 << 28 | (random.between(1, 100) as u32) << 14 | 0x3FFF;
    Call::Drive {
        instance: field.instance(),
        table: random.words(table_length),
        calls: vec![part, STEP, part, PLAN, part, RUN_TO_THE_END, PLAN],
        derivation: vec![UNUSED; STEPS],
        target: vec![0; 12],
    }
}
