//! The calls made by the plain implementation, with answers in the form of the C interface.

use plain::{Outcome, Refusal, Stepped};

use crate::call::Call;
use crate::driver;

/// Makes a call on the memory that it holds, and writes its fields to the front of the answer slice: those that it has
/// room for. The result is the call's number.
pub fn made(call: &mut Call, answer: &mut [u64]) -> u32 {
    let (number, fields) = match call {
        Call::Make { sheet, target } => one(plain::make_instance(sheet, target).map(|written| written as u64)),
        Call::Encode { instance, table } => one(plain::encode(instance, table).map(|rows| rows as u64)),
        Call::ToSix { source, target } => one(plain::to_six(source, target).map(|rows| rows as u64)),
        Call::ToFive { source, target } => one(plain::to_five(source, target).map(|rows| rows as u64)),
        Call::Step { table } => stepped(plain::step(table)),
        Call::Run { table, limit, derivation } => ran(plain::run(table, *limit, derivation)),
        Call::Plan { table, target } => (plain::plan(table, target).map_or_else(Refusal::number, |()| 0), vec![]),
        Call::Complete { table, k, fixed, target } => one(plain::complete(table, *k, fixed, target)),
        Call::Check { instance, derivation, assignment, claimed, table } => {
            checked(plain::check(instance, derivation, assignment, *claimed, table))
        }
        Call::Readout { sheet, assignment, variable, easting, northing } => {
            one(plain::readout(sheet, assignment, *variable, *easting, *northing).map(u64::from))
        }
        Call::Cost { instance, assignment } => one(plain::cost(instance, assignment)),
        Call::Drive { instance, table, calls, derivation, target } => {
            one(driver::drive(instance, table, calls, derivation, target).map(|steps| steps as u64))
        }
    };
    for (place, field) in answer.iter_mut().zip(fields) {
        *place = field;
    }
    number
}

fn one(result: Result<u64, Refusal>) -> (u32, Vec<u64>) {
    match result {
        Ok(field) => (0, vec![field]),
        Err(refusal) => (refusal.number(), vec![0]),
    }
}

fn stepped(result: Result<Stepped, Refusal>) -> (u32, Vec<u64>) {
    match result {
        Ok(Stepped::Done) => (0, vec![1, 0]),
        Ok(Stepped::Made(word)) => (0, vec![0, u64::from(word)]),
        Err(refusal) => (refusal.number(), vec![0, 0]),
    }
}

fn ran(ran: plain::Ran) -> (u32, Vec<u64>) {
    let (number, outcome) = match ran.outcome {
        Outcome::Done => (0, 0),
        Outcome::Paused => (0, 1),
        Outcome::Refused(Refusal::BadTable) => (Refusal::BadTable.number(), 0),
        Outcome::Refused(refusal) => (refusal.number(), 2),
    };
    (number, vec![outcome, ran.steps as u64, ran.bound])
}

fn checked(checked: plain::Checked) -> (u32, Vec<u64>) {
    (checked.refusal.map_or(0, Refusal::number), vec![checked.steps as u64])
}
