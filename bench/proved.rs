//! The benchmark's calls by the proved library, over its C interface.

#[allow(dead_code)]
#[path = "../tests/harness/abi.rs"]
mod abi;

use crate::planning::Calls;

pub struct Proved;

impl Calls for Proved {
    fn make(sheet: &[u32], target: &mut [u32]) -> (u32, u64) {
        let mut answer = [0];
        let number = abi::make(sheet, target, &mut answer);
        (number, answer[0])
    }

    fn encode(instance: &[u32], table: &mut [u32]) -> u32 {
        abi::encode(instance, table, &mut [0])
    }

    fn run(table: &mut [u32], limit: usize, derivation: &mut [u32]) -> (u32, [u64; 3]) {
        let mut answer = [0; 3];
        let number = abi::run(table, limit, derivation, &mut answer);
        (number, answer)
    }

    fn plan(table: &[u32], target: &mut [u8]) -> u32 {
        abi::plan(table, target)
    }
}
