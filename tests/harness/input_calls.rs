//! Calls that read a sheet or an instance: make, readout, cost and encode.

use plain::words::{EASTING, NORTHING};

use crate::call::Call;
use crate::comparison::Comparison;
use crate::damage;
use crate::fields::{centimetres, coordinate, Field};
use crate::random::Random;
use crate::tables::{encoded_rows, length, ROW_WORDS};

/// How many of a hundred inputs are damaged.
const DAMAGED: usize = 40;

/// One call of each kind.
pub fn round(random: &mut Random, comparison: &mut Comparison) {
    let field = Field::any(random);
    for call in [make(random, &field), readout(random, &field), cost(random, &field), encode(random, &field)] {
        comparison.make(random, call);
    }
}

fn make(random: &mut Random, field: &Field) -> Call {
    let sheet = field.sheet(random);
    let coordinates: u32 = field.sizes.iter().map(|size| 2 * size).sum();
    let needed = sheet.len() - coordinates as usize + 3 * field.legs();
    let length = around(random, needed);
    Call::Make { sheet: damage::maybe(random, sheet, DAMAGED), target: random.words(length) }
}

/// Mostly enough, and often just enough or one too few.
fn around(random: &mut Random, needed: usize) -> usize {
    match random.below(8) {
        0 => random.below(needed + 1),
        1 => needed.saturating_sub(1),
        2 | 3 => needed,
        _ => needed + random.below(20),
    }
}

fn readout(random: &mut Random, field: &Field) -> Call {
    let sheet = field.sheet(random);
    let variable = match random.below(10) {
        0 => field.variables() as u32,
        1 => random.pick(&[12, 16, 256, 0x8000_0000, u32::MAX]),
        // Where there are no variables, every number is a fault.
        _ => random.below(field.variables().max(1)) as u32,
    };
    Call::Readout {
        sheet: damage::maybe(random, sheet, DAMAGED / 2),
        assignment: assignment(random, field),
        variable,
        easting: position(random, EASTING, NORTHING),
        northing: position(random, NORTHING, EASTING),
    }
}

/// A coordinate word, with a fault in some of the cases.
fn position(random: &mut Random, kind: u32, other: u32) -> u32 {
    match random.below(16) {
        0 => coordinate(kind, random.pick(&[1_000_001, -1_000_001, 0x07FF_FFFF, -0x0800_0000])),
        1 => coordinate(other, centimetres(random)),
        2 => random.next() as u32,
        _ => coordinate(kind, centimetres(random)),
    }
}

/// An assignment, with a fault in some of the cases.
pub fn assignment(random: &mut Random, field: &Field) -> Vec<u8> {
    let mut assignment = field.assignment(random);
    match random.below(12) {
        0 if !assignment.is_empty() => {
            let variable = random.below(field.variables());
            assignment[variable] = random.pick(&[field.sizes[variable] as u8, 8, 16, 255]);
        }
        1 => drop(assignment.pop()),
        2 => assignment.push(random.pick(&[0, 255])),
        _ => {}
    }
    assignment
}

fn cost(random: &mut Random, field: &Field) -> Call {
    let instance = damage::maybe(random, field.instance(), DAMAGED / 2);
    Call::Cost { instance, assignment: assignment(random, field) }
}

fn encode(random: &mut Random, field: &Field) -> Call {
    let needed = length(field.variables(), encoded_rows(field));
    let length = match random.below(12) {
        0 => random.below(field.variables() + 3),
        1 => field.variables() + 1,
        2 => field.variables() + random.between(2, ROW_WORDS + 1),
        3 => needed - 1,
        4..=6 => needed + random.below(ROW_WORDS),
        _ => needed + random.below(40),
    };
    Call::Encode { instance: damage::maybe(random, field.instance(), DAMAGED), table: random.words(length) }
}
