//! The instance made from a sheet: travel entries first, then the sheet's own.

use crate::distance::metres;
use crate::input::{read_sheet, Sheet};
use crate::refusal::{require, Refusal};
use crate::words;

/// A travel entry has two bindings and a cost.
const TRAVEL_WORDS: usize = 3;

/// Writes the instance to the front of the target; the answer is the number of words written.
pub fn make_instance(sheet: &[u32], target: &mut [u32]) -> Result<usize, Refusal> {
    let read = read_sheet(sheet)?;
    // No words at all have no head, and neither has their instance.
    let (head, own) = (&sheet[..sheet.len().min(1)], &sheet[read.entries..]);
    let front = head.len() + read.domains.count();
    let length = front + TRAVEL_WORDS * read.travels + own.len();
    require(length <= target.len(), Refusal::TargetTooShort)?;
    target[..head.len()].copy_from_slice(head);
    for (place, &size) in target[head.len()..front].iter_mut().zip(read.domains.sizes()) {
        *place = words::word(words::SIZE, size);
    }
    write_travels(sheet, &read, &mut target[front..length - own.len()]);
    target[length - own.len()..length].copy_from_slice(own);
    Ok(length)
}

fn write_travels(sheet: &[u32], read: &Sheet, target: &mut [u32]) {
    let mut entries = target.chunks_exact_mut(TRAVEL_WORDS);
    for (variable, sizes) in read.domains.sizes().windows(2).enumerate() {
        for value in 0..sizes[0] as usize {
            let here = read.place(sheet, variable, value);
            for next in 0..sizes[1] as usize {
                let entry = entries.next().expect("there is room for every travel entry");
                entry[0] = words::binding(variable, value);
                entry[1] = words::binding(variable + 1, next);
                entry[2] = words::word(words::COST, metres(here, read.place(sheet, variable + 1, next)));
            }
        }
    }
}
