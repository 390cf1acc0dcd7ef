//! Calls near the limits of entries and rows.

use plain::words::{payload, word, BINDING, COST, FORBIDDEN};

use crate::call::Call;
use crate::comparison::Comparison;
use crate::fields::Field;
use crate::random::Random;
use crate::tables::{clause_of, length, respaced, table, Form, MAX_WEIGHT, ROW_WORDS};

const ENTRIES: usize = 4_096;
const ROWS: usize = 4_096;

/// About as many entries as are allowed, on few combinations.
pub fn entries_round(random: &mut Random, comparison: &mut Comparison) {
    let sizes = random.pick(&[&[2, 1][..], &[1, 3], &[2, 2], &[]]).to_vec();
    let entries = ENTRIES + random.below(4) - 1;
    let field = Field::long(random, sizes.clone(), entries);
    let (mut instance, assignment) = (field.instance(), field.assignment(random));
    let mut sheet = Field::long(random, sizes, entries - field.legs()).sheet(random);
    if random.percent(50) {
        let last = random.pick(&[word(COST, 65_536), word(BINDING, 0), word(FORBIDDEN, 0), word(FORBIDDEN, 1)]);
        *instance.last_mut().expect("an instance has words") = last;
        *sheet.last_mut().expect("a sheet has words") = last;
    }
    let calls = [
        Call::Make { sheet: sheet.clone(), target: random.words(13_000) },
        Call::Readout { sheet, assignment: assignment.clone(), variable: 0, easting: 8 << 28, northing: 9 << 28 },
        Call::Cost { instance: instance.clone(), assignment: assignment.clone() },
        Call::Encode { instance: instance.clone(), table: random.words(60) },
        Call::Drive {
            instance: instance.clone(),
            table: random.words(60),
            calls: vec![0, 2 << 28 | 2],
            derivation: vec![1; 2],
            target: vec![1; 2],
        },
        Call::Check { instance, derivation: vec![], assignment, claimed: 0, table: random.words(60) },
    ];
    for call in calls {
        comparison.make(random, call);
    }
}

/// An encoding of many rows, in a slice that has room for them or a few fewer, or for more than a table has.
pub fn rows_round(random: &mut Random, comparison: &mut Comparison) {
    let entries = random.pick(&[1_500, ENTRIES]);
    let field = Field::long(random, vec![8, 8, 8, 8, 8], entries);
    let mut lent = vec![0; length(5, ROWS)];
    let rows = plain::encode(&field.instance(), &mut lent).expect("there is a row for every entry");
    let room = random.pick(&[rows - 1, rows, rows + 1, ROWS + 3]);
    let spare = random.below(ROW_WORDS);
    let table = random.words(length(5, room) + spare);
    comparison.make(random, Call::Encode { instance: field.instance(), table });
    full_table(random, comparison);
    all_falsified(random, comparison);
    full_conversions(random, comparison);
}

/// Calls on a table that one step fills to the last row or beyond, or that has one row too many.
fn full_table(random: &mut Random, comparison: &mut Comparison) {
    let mut rows = vec![([1, 0, 0], 1), ([2, 1, 0], random.between(1, 2) as u64), ([4, 2, 3], 1)];
    rows.truncate(random.between(2, 3));
    let over = random.below(2);
    let fill = if random.percent(25) { ROWS + 1 - rows.len() } else { ROWS + over - rows_after_a_step(&rows) };
    rows.extend((0..fill as u32).map(|at| ([0, 1 + at / 254, 1 + at % 254], 1)));
    let words = table_of(&rows, ROWS + random.pick(&[1, 1, 4]) - usize::from(rows.len() <= ROWS));
    comparison.make(random, Call::Step { table: words.clone() });
    comparison.make(random, Call::Run { table: words.clone(), limit: 3, derivation: vec![1; 4] });
    comparison.make(random, Call::Plan { table: words.clone(), target: vec![1; 4] });
    comparison.make(random, Call::Complete { table: words, k: 1, fixed: vec![0, 0], target: vec![1; 4] });
}

/// Completions of as many rows as there may be, whose lowest signs are equal, so that no pair is left: the cost of all of them is
/// the greatest one, one more, 2 to the 64th and a little, or far beyond.
fn all_falsified(random: &mut Random, comparison: &mut Comparison) {
    let share = MAX_WEIGHT / ROWS as u64;
    let (weight, more) = random.pick(&[(share, 4_095), (share, 4_096), (1 << 52, 5), (MAX_WEIGHT, 0)]);
    let mut rows = vec![([2, 0, 0], weight + more)];
    rows.extend((1..ROWS as u32).map(|at| ([2, 2 * (at / 120), 2 * (at % 120)], weight)));
    rows.swap(0, random.below(ROWS));
    let table = table_of(&rows, ROWS);
    for fixed in [vec![0, 0, 0], vec![0, 0]] {
        let (table, k) = (table.clone(), 3 - fixed.len());
        comparison.make(random, Call::Complete { table, k, fixed, target: vec![1; 3] });
    }
}

/// Conversions of as many rows as there may be, one less or one more, into targets a word short, just long enough or longer.
fn full_conversions(random: &mut Random, comparison: &mut Comparison) {
    let count = random.pick(&[ROWS - 1, ROWS, ROWS + 1]);
    let rows: Vec<([u32; 3], u64)> = (0..count as u32).map(|at| ([0, 1 + at / 254, 1 + at % 254], 1)).collect();
    let six = table_of(&rows, count + random.below(2));
    let (wide, narrow) = (Form::Six.length(3, count) - 1 + random.below(3), Form::Five.length(3, count) - 1 + random.below(3));
    let call = Call::ToSix { source: respaced(&six, Form::Six), target: random.words(wide) };
    comparison.make(random, call);
    let call = Call::ToFive { source: six, target: random.words(narrow) };
    comparison.make(random, call);
}

fn rows_after_a_step(rows: &[([u32; 3], u64)]) -> usize {
    let mut table = table_of(rows, 50);
    plain::step(&mut table).expect("a step in a table with room");
    payload(table[4]) as usize
}

/// A table of three variables with room for so many rows.
fn table_of(rows: &[([u32; 3], u64)], room: usize) -> Vec<u32> {
    let rows: Vec<([u32; 4], u64)> = rows.iter().map(|(signs, weight)| (clause_of(signs), *weight)).collect();
    table(&[4, 8, 8], &rows, length(3, room))
}
