//! The calls made by the proved library.

use crate::abi;
use crate::call::Call;
use crate::guarded::Guarded;

const WORD: u32 = 0xA5A5_5A5A;
const BYTE: u8 = 0xA5;
const NUMBER: u64 = 0xA5A5_5A5A_A5A5_5A5A;

/// What a call answered, and whether it left all memory alone that it was not lent.
pub struct Made {
    pub number: u32,
    pub kept_within: bool,
}

/// Makes a call on the memory that it holds.
pub fn made(call: &mut Call, answer: &mut [u64]) -> Made {
    let mut lent = Guarded::new(answer, NUMBER);
    let made = made_with(call, lent.lent());
    let kept_within = lent.returned(answer) && made.kept_within;
    Made { kept_within, ..made }
}

fn made_with(call: &mut Call, answer: &mut [u64]) -> Made {
    match call {
        Call::Make { sheet, target } => on_words(target, |target| abi::make(sheet, target, answer)),
        Call::Encode { instance, table } => on_words(table, |table| abi::encode(instance, table, answer)),
        Call::Step { table } => on_words(table, |table| abi::step(table, answer)),
        Call::Run { table, limit, derivation } => run(table, *limit, derivation, answer),
        Call::Plan { table, target } => on_bytes(target, |target| abi::plan(table, target)),
        Call::Check { instance, derivation, assignment, claimed, table } => {
            on_words(table, |table| abi::check(instance, derivation, assignment, *claimed, table, answer))
        }
        Call::Readout { sheet, assignment, variable, easting, northing } => {
            let number = abi::readout(sheet, assignment, *variable, *easting, *northing, answer);
            Made { number, kept_within: true }
        }
        Call::Cost { instance, assignment } => {
            Made { number: abi::cost(instance, assignment, answer), kept_within: true }
        }
        Call::Complete { table, k, fixed, target } => {
            on_bytes(target, |target| abi::complete(table, *k, fixed, target, answer))
        }
        Call::ToSix { source, target } => on_words(target, |target| abi::to_six(source, target, answer)),
        Call::ToFive { source, target } => on_words(target, |target| abi::to_five(source, target, answer)),
        Call::Drive { instance, table, calls, derivation, target } => {
            drive(instance, table, calls, derivation, target, answer)
        }
    }
}

fn on_words(words: &mut [u32], made: impl FnOnce(&mut [u32]) -> u32) -> Made {
    let mut lent = Guarded::new(words, WORD);
    let number = made(lent.lent());
    Made { number, kept_within: lent.returned(words) }
}

fn on_bytes(bytes: &mut [u8], made: impl FnOnce(&mut [u8]) -> u32) -> Made {
    let mut lent = Guarded::new(bytes, BYTE);
    let number = made(lent.lent());
    Made { number, kept_within: lent.returned(bytes) }
}

fn run(table: &mut [u32], limit: usize, derivation: &mut [u32], answer: &mut [u64]) -> Made {
    let mut steps = Guarded::new(derivation, WORD);
    let made = on_words(table, |table| abi::run(table, limit, steps.lent(), answer));
    let kept_within = steps.returned(derivation) && made.kept_within;
    Made { kept_within, ..made }
}

fn drive(
    instance: &[u32],
    table: &mut [u32],
    calls: &[u32],
    derivation: &mut [u32],
    target: &mut [u8],
    answer: &mut [u64],
) -> Made {
    let (mut steps, mut plan) = (Guarded::new(derivation, WORD), Guarded::new(target, BYTE));
    let made = on_words(table, |table| abi::drive(instance, table, calls, steps.lent(), plan.lent(), answer));
    let lent_kept = [steps.returned(derivation), plan.returned(target), made.kept_within];
    Made { kept_within: lent_kept.iter().all(|&kept| kept), ..made }
}
