//! Calls of the checker: derivations of the planner and of random permitted pairs, damaged ones, and wrong claims.

use plain::words::step;
use plain::Refusal;

use crate::call::Call;
use crate::comparison::Comparison;
use crate::damage;
use crate::fields::Field;
use crate::input_calls;
use crate::random::Random;
use crate::tables::{any_length, encoded_rows, length};

/// The longest derivation that is tried.
const STEPS: usize = 120;

/// How many random step words are tried for the next step of a derivation.
const TRIALS: usize = 12;

/// Room in rows that no small field uses up within so many steps.
const MUCH_ROOM: usize = 600;

struct Derived {
    words: Vec<u32>,
    bound: u64,
    assignment: Vec<u8>,
}

pub fn round(random: &mut Random, comparison: &mut Comparison) {
    let field = Field::any(random);
    let derived = if random.percent(75) { planned(random, &field) } else { permitted(random, &field) };
    for _ in 0..2 {
        let call = check(random, &field, &derived);
        comparison.make(random, call);
    }
}

/// The derivation of the planner, to its end or to a pause, and the claim that goes with it.
fn planned(random: &mut Random, field: &Field) -> Derived {
    let mut table = vec![0; length(field.variables(), MUCH_ROOM)];
    plain::encode(&field.instance(), &mut table).expect("the rows fit");
    let mut words = vec![0; random.pick(&[3, STEPS, STEPS, STEPS])];
    let ran = plain::run(&mut table, STEPS, &mut words);
    words.truncate(ran.steps);
    let mut assignment = field.assignment(random);
    // Where all are forbidden, this one is claimed as well; where a pair is left, the random assignment stays.
    let _ = plain::complete(&table, field.variables(), &[], &mut assignment);
    Derived { words, bound: ran.bound, assignment }
}

/// A derivation of permitted pairs on any variables, in any order.
fn permitted(random: &mut Random, field: &Field) -> Derived {
    let (instance, assignment) = (field.instance(), field.assignment(random));
    let mut table = vec![0; length(field.variables(), MUCH_ROOM)];
    let mut words = Vec::new();
    let rows = encoded_rows(field);
    // Where there are no variables, no word is permitted.
    let variables = field.variables().max(1);
    for _ in 0..random.between(0, TRIALS) {
        let second = random.below(rows + words.len() + 2);
        words.push(step(random.below(variables), random.below(second + 1), second));
        let checked = plain::check(&instance, &words, &assignment, 0, &mut table);
        if checked.refusal == Some(Refusal::BadStep) {
            words.pop();
        }
    }
    let bound = plain::run(&mut table, 0, &mut []).bound;
    Derived { words, bound, assignment }
}

fn check(random: &mut Random, field: &Field, derived: &Derived) -> Call {
    let (words, assignment) = (derived.words.clone(), derived.assignment.clone());
    let length = any_length(random, field);
    Call::Check {
        instance: damage::maybe(random, field.instance(), 12),
        derivation: if random.percent(30) { damaged_steps(random, words) } else { words },
        assignment: if random.percent(15) { input_calls::assignment(random, field) } else { assignment },
        claimed: claimed(random, derived.bound),
        table: random.words(length),
    }
}

/// The bound itself in most cases.
fn claimed(random: &mut Random, bound: u64) -> u64 {
    match random.below(16) {
        0 => bound + 1,
        1 => bound.saturating_sub(1),
        2 => bound + (1 << random.pick(&[28, 32, 56, 63])),
        3 => random.next(),
        _ => bound,
    }
}

fn damaged_steps(random: &mut Random, mut words: Vec<u32>) -> Vec<u32> {
    if words.is_empty() || random.percent(50) {
        return damage::maybe(random, words, 100);
    }
    let at = random.below(words.len());
    let (variable, first, second) = (words[at] >> 24 & 15, words[at] >> 12 & 0xFFF, words[at] & 0xFFF);
    words[at] = match random.below(4) {
        0 => step(variable as usize, second as usize, first as usize),
        1 => step(variable as usize + 1, first as usize, second as usize),
        2 => step(variable as usize, first as usize, second as usize + 1),
        _ => step(variable as usize, first as usize, first as usize),
    };
    words
}
