//! Plans the sheets of a season one by one for the benchmark: reads the season from standard input, plans each sheet with
//! the proved library, and prints how many were planned and the sum of their least costs. With the argument `cleared` all
//! buffers are zero before each sheet, as the program's are; else nothing is cleared but the table, by the encoding itself.

mod planning;
mod proved;

use std::env;
use std::io::{stdin, Read};

use planning::{planned, touched, Buffers, SHEET_WORDS};
use proved::Proved;

fn word(four: &[u8]) -> u32 {
    u32::from_le_bytes([four[0], four[1], four[2], four[3]])
}

/// The least cost of a sheet, where it is planned.
fn least_cost(bytes: &[u8], sheet: &mut [u32], buffers: &mut Buffers) -> Option<u64> {
    for (word_read, four) in sheet.iter_mut().zip(bytes.chunks_exact(4)) {
        *word_read = word(four);
    }
    let planned = planned::<Proved>(&sheet[..bytes.len() / 4], buffers);
    (planned.number == 0 && planned.outcome == 0).then_some(planned.bound)
}

fn main() {
    let cleared = env::args().nth(1).as_deref() == Some("cleared");
    let mut season = Vec::new();
    stdin().read_to_end(&mut season).expect("the season can be read");
    let (mut sheet, mut buffers) = (touched(SHEET_WORDS), Buffers::new());
    let (mut count, mut sum) = (0, 0);
    let mut rest = &season[..];
    while !rest.is_empty() {
        let (bytes, behind) = rest[4..].split_at(4 * word(rest) as usize);
        if cleared {
            sheet.fill(0);
            buffers.clear();
        }
        if let Some(cost) = least_cost(bytes, &mut sheet, &mut buffers) {
            count += 1;
            sum += cost;
        }
        rest = behind;
    }
    println!("{} {}", count, sum);
}
