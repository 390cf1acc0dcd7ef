//! Tables turned from rows of five words, as last year's have, into rows of six, and back.

use crate::limits::FIVE_MAX_WEIGHT;
use crate::refusal::{require, Refusal};
use crate::row::{rows_in, rows_in_mut, FIVE_ROW_WORDS, ROW_WORDS};
use crate::table::{capacity_of, rows_start, validated, validated_five};

/// Writes the six-word table of a five-word one; the answer is the number of rows.
pub fn to_six(source: &[u32], target: &mut [u32]) -> Result<usize, Refusal> {
    let (domains, rows) = validated_five(source)?;
    let start = rows_start(domains.count());
    require(start <= target.len(), Refusal::TargetTooShort)?;
    require(rows.len() <= capacity_of(ROW_WORDS, domains.count(), target.len()), Refusal::TableFull)?;
    rows_in_mut(opened(source, start, target))[..rows.len()].copy_from_slice(&rows);
    Ok(rows.len())
}

/// Writes the five-word table of a six-word one; the answer is the number of rows.
pub fn to_five(source: &[u32], target: &mut [u32]) -> Result<usize, Refusal> {
    let (domains, used) = validated(source)?;
    let start = rows_start(domains.count());
    let rows = &rows_in(&source[start..])[..used];
    require(start <= target.len(), Refusal::TargetTooShort)?;
    require(rows.iter().all(|row| row.weight() <= FIVE_MAX_WEIGHT), Refusal::WeightTooWide)?;
    require(used <= capacity_of(FIVE_ROW_WORDS, domains.count(), target.len()), Refusal::TableFull)?;
    for (place, row) in opened(source, start, target).chunks_exact_mut(FIVE_ROW_WORDS).zip(rows) {
        place.copy_from_slice(&row.five_words());
    }
    Ok(used)
}

/// Writes what stands before the rows, which both forms have alike, and zeros behind it; the latter words are handed out.
fn opened<'a>(source: &[u32], start: usize, target: &'a mut [u32]) -> &'a mut [u32] {
    let (front, behind) = target.split_at_mut(start);
    front.copy_from_slice(&source[..start]);
    behind.fill(0);
    behind
}
