//! The benchmark's calls by the plain implementation.

use plain::{Outcome, Refusal};

use crate::planning::Calls;

pub struct Plain;

impl Calls for Plain {
    fn make(sheet: &[u32], target: &mut [u32]) -> (u32, u64) {
        match plain::make_instance(sheet, target) {
            Ok(written) => (0, written as u64),
            Err(refusal) => (refusal.number(), 0),
        }
    }

    fn encode(instance: &[u32], table: &mut [u32]) -> u32 {
        plain::encode(instance, table).map_or_else(Refusal::number, |_| 0)
    }

    fn run(table: &mut [u32], limit: usize, derivation: &mut [u32]) -> (u32, [u64; 3]) {
        let ran = plain::run(table, limit, derivation);
        let (number, outcome) = match ran.outcome {
            Outcome::Done => (0, 0),
            Outcome::Paused => (0, 1),
            Outcome::Refused(Refusal::BadTable) => (Refusal::BadTable.number(), 0),
            Outcome::Refused(refusal) => (refusal.number(), 2),
        };
        (number, [outcome, ran.steps as u64, ran.bound])
    }

    fn plan(table: &[u32], target: &mut [u8]) -> u32 {
        plain::plan(table, target).map_or_else(Refusal::number, |()| 0)
    }
}
