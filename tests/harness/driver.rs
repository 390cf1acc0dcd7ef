//! The list of calls by the plain implementation.

use plain::words::payload;
use plain::{Refusal, Stepped};

/// Encodes the instance and makes the calls; the result is the number of steps made.
pub fn drive(
    instance: &[u32],
    table: &mut [u32],
    calls: &[u32],
    derivation: &mut [u32],
    target: &mut [u8],
) -> Result<usize, Refusal> {
    plain::encode(instance, table)?;
    let mut made = 0;
    for &call in calls {
        let (free, asked) = (&mut derivation[made..], payload(call) as usize);
        match call >> 28 {
            0 => made += step(table, free),
            1 => {
                let length = free.len().min(asked & 0x3FFF);
                made += plain::run(table, asked >> 14, &mut free[..length]).steps;
            }
            2 => {
                let length = target.len().min(asked);
                // A refusal leaves the target alone, and nobody asks for its number.
                let _ = plain::plan(table, &mut target[..length]);
            }
            _ => {}
        }
    }
    Ok(made)
}

/// Makes a step if there is a place for its word; the result is the number of steps made.
fn step(table: &mut [u32], free: &mut [u32]) -> usize {
    if let Some(place) = free.first_mut() {
        if let Ok(Stepped::Made(word)) = plain::step(table) {
            *place = word;
            return 1;
        }
    }
    0
}
