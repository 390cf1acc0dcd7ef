//! Compares every call of the proved library with the plain implementation on random inputs.
//!
//! `--cases N` asks for N inputs of each call, `--seed S` for other inputs, `--round R` for one round alone.

mod abi;
mod call;
mod check_calls;
mod comparison;
mod completions;
mod conversions;
mod damage;
mod drive_calls;
mod driver;
mod fields;
mod guarded;
mod input_calls;
mod long_calls;
mod long_derivations;
mod proved;
mod random;
mod table_calls;
mod table_damage;
mod tables;
mod unproved;

use std::env;
use std::process;

use comparison::Comparison;
use random::Random;

/// How many rounds lie between two with many entries, between two with many steps, and between two with many rows.
const ENTRIES_STRIDE: u64 = 400;
const STEPS_STRIDE: u64 = 100;
const ROWS_STRIDE: u64 = 4_000;

/// A call of each group, by its index: of inputs, of tables (three), of the checker, of the driver, of completions, of
/// conversions (two).
const INPUT_CALL: usize = 0;
const TABLE_CALLS: [usize; 3] = [2, 3, 4];
const CHECK_CALL: usize = 5;
const DRIVE_CALL: usize = 8;
const COMPLETE_CALL: usize = 9;
const CONVERSIONS: [usize; 2] = [10, 11];

struct Options {
    cases: usize,
    seed: u64,
    round: Option<u64>,
}

fn options() -> Options {
    let mut options = Options { cases: 100_000, seed: 1, round: None };
    let mut arguments = env::args().skip(1);
    while let Some(name) = arguments.next() {
        let value: u64 = arguments.next().and_then(|text| text.parse().ok()).expect("a number behind each option");
        match name.as_str() {
            "--cases" => options.cases = value as usize,
            "--seed" => options.seed = value,
            "--round" => options.round = Some(value),
            _ => panic!("no such option: {}", name),
        }
    }
    options
}

/// One round; groups of calls that have been made often enough are passed over.
fn make_round(comparison: &mut Comparison, seed: u64, round: u64, cases: usize) {
    comparison.start(round);
    let random = |group: u64| Random::of(seed.wrapping_add(group << 32), round);
    if comparison.made(INPUT_CALL) < cases {
        input_calls::round(&mut random(0), comparison);
    }
    if TABLE_CALLS.iter().any(|&index| comparison.made(index) < cases) {
        table_calls::round(&mut random(1), comparison);
    }
    if comparison.made(CHECK_CALL) < cases {
        check_calls::round(&mut random(2), comparison);
    }
    if comparison.made(DRIVE_CALL) < cases {
        drive_calls::round(&mut random(5), comparison);
    }
    if comparison.made(COMPLETE_CALL) < cases {
        completions::round(&mut random(7), comparison);
    }
    if CONVERSIONS.iter().any(|&index| comparison.made(index) < cases) {
        conversions::round(&mut random(8), comparison);
    }
    if round % ENTRIES_STRIDE == 0 {
        long_calls::entries_round(&mut random(3), comparison);
    }
    if round % STEPS_STRIDE == 0 {
        long_derivations::round(&mut random(6), comparison);
    }
    if round % ROWS_STRIDE == 0 {
        long_calls::rows_round(&mut random(4), comparison);
    }
}

fn main() {
    let options = options();
    let mut comparison = Comparison::new();
    if let Some(round) = options.round {
        make_round(&mut comparison, options.seed, round, 1);
    } else {
        let mut round = 0;
        while (0..call::CALLS).any(|index| comparison.made(index) < options.cases) {
            make_round(&mut comparison, options.seed, round, options.cases);
            round += 1;
        }
    }
    // Few inputs need not reach every number.
    let all_reached = options.round.is_none() && options.cases >= 20_000;
    process::exit(if comparison.report(all_reached) { 0 } else { 1 });
}
