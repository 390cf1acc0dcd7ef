//! The readout: whole metres from a position to the place of an assignment's value (document 01: panel number).

use crate::distance::{metres, Place};
use crate::input::{is_coordinate, read_sheet};
use crate::refusal::{require, Refusal};
use crate::words;

/// The position is an easting word and a northing word.
pub fn readout(sheet: &[u32], assignment: &[u8], variable: u32, easting: u32, northing: u32) -> Result<u32, Refusal> {
    let read = read_sheet(sheet)?;
    let variable = variable as usize;
    let good = variable < read.domains.count()
        && is_coordinate(easting, words::EASTING)
        && is_coordinate(northing, words::NORTHING)
        && read.domains.has(assignment);
    require(good, Refusal::BadReadout)?;
    let here = Place { easting: words::coordinate(easting), northing: words::coordinate(northing) };
    Ok(metres(here, read.place(sheet, variable, usize::from(assignment[variable]))))
}
