//! Plans one sheet for the benchmark. `driver WHAT SHEET` prints one line; WHAT is `shape`, the form of the run,
//! `plain` or `proved`, one run whose instructions are counted, or `times`, the least time of either in nanoseconds.
//! `driver run_plain SHEET LIMIT` and `driver run_proved SHEET LIMIT` count a run of so many steps alone.

#![allow(unknown_lints, unexpected_cfgs)]

mod planning;
#[cfg(proved)]
mod proved;
mod unproved;

use std::env;
use std::fs;
use std::time::Instant;

use planning::{planned, Buffers, Calls, Planned, STEP_LIMIT};
use unproved::Plain;

// Bytes in front of both implementations, which move their code: see `PLACES` in figures.py.
core::arch::global_asm!(concat!(".section .text.place,\"axR\",@progbits\n.skip ", env!("PLACE"), ",0x90\n.text"));

/// How often a run is repeated to find its least time.
const REPEATS: usize = 9;

/// How many steps lie between two looks at the number of rows.
const STRIDE: usize = 50;

/// The function whose instructions are counted for the plain implementation.
#[no_mangle]
#[inline(never)]
pub extern "C" fn bench_plain(sheet: &Vec<u32>, buffers: &mut Buffers) -> bool {
    planned::<Plain>(sheet, buffers).number == 0
}

/// The function whose instructions are counted for the proved library.
#[cfg(proved)]
#[no_mangle]
#[inline(never)]
pub extern "C" fn bench_proved(sheet: &Vec<u32>, buffers: &mut Buffers) -> bool {
    planned::<proved::Proved>(sheet, buffers).number == 0
}

/// A run on the encoded table, counted by itself.
#[no_mangle]
#[inline(never)]
pub extern "C" fn bench_run_plain(limit: usize, buffers: &mut Buffers) -> u64 {
    Plain::run(&mut buffers.table, limit, &mut buffers.derivation).1[1]
}

#[cfg(proved)]
#[no_mangle]
#[inline(never)]
pub extern "C" fn bench_run_proved(limit: usize, buffers: &mut Buffers) -> u64 {
    proved::Proved::run(&mut buffers.table, limit, &mut buffers.derivation).1[1]
}

/// Buffers with the sheet's instance and its encoded table.
fn encoded(sheet: &[u32]) -> Buffers {
    let mut buffers = Buffers::new();
    let (_, written) = Plain::make(sheet, &mut buffers.instance);
    Plain::encode(&buffers.instance[..written as usize], &mut buffers.table);
    buffers
}

fn read_sheet(path: &str) -> Vec<u32> {
    plain::words::in_bytes(&fs::read(path).expect("the sheet can be read"))
}

fn variables_in(table: &[u32]) -> usize {
    plain::words::payload(table[0]) as usize
}

fn rows_in(table: &[u32]) -> u32 {
    plain::words::payload(table[variables_in(table) + 1])
}

/// The rows of the encoding, the most rows seen and the rows at the end.
fn rows_on_the_way(sheet: &[u32]) -> (u32, u32, u32) {
    let mut buffers = encoded(sheet);
    let first = rows_in(&buffers.table);
    let mut most = first;
    for _ in 0..STEP_LIMIT / STRIDE {
        Plain::run(&mut buffers.table, STRIDE, &mut buffers.derivation);
        most = most.max(rows_in(&buffers.table));
    }
    (first, most, rows_in(&buffers.table))
}

/// Outcome, steps, bound, and the cost of the assignment found.
fn print_shape(sheet: &[u32]) {
    let mut buffers = Buffers::new();
    let Planned { number, outcome, steps, bound, assignment } = planned::<Plain>(sheet, &mut buffers);
    let (_, written) = Plain::make(sheet, &mut buffers.instance);
    let assignment = &assignment[..variables_in(&buffers.table)];
    let cost = plain::cost(&buffers.instance[..written as usize], assignment).expect("an assignment");
    let (first, most, last) = rows_on_the_way(sheet);
    println!("{} {} {} {} {} {} {} {}", number, outcome, steps, bound, cost, first, most, last);
}

fn least_time<C: Calls>(sheet: &[u32]) -> u128 {
    let mut buffers = Buffers::new();
    let times = (0..REPEATS).map(|_| {
        let start = Instant::now();
        planned::<C>(sheet, &mut buffers);
        start.elapsed().as_nanos()
    });
    times.min().expect("at least one run")
}

fn print_times(sheet: &[u32]) {
    print!("{}", least_time::<Plain>(sheet));
    #[cfg(proved)]
    print!(" {}", least_time::<proved::Proved>(sheet));
    println!();
}

fn main() {
    let arguments: Vec<String> = env::args().skip(1).collect();
    let sheet = read_sheet(&arguments[1]);
    let limit = arguments.get(2).map_or(0, |limit| limit.parse().expect("a step limit"));
    match arguments[0].as_str() {
        "shape" => print_shape(&sheet),
        "times" => print_times(&sheet),
        "plain" => println!("{}", bench_plain(&sheet, &mut Buffers::new())),
        #[cfg(proved)]
        "proved" => println!("{}", bench_proved(&sheet, &mut Buffers::new())),
        "run_plain" => println!("{}", bench_run_plain(limit, &mut encoded(&sheet))),
        #[cfg(proved)]
        "run_proved" => println!("{}", bench_run_proved(limit, &mut encoded(&sheet))),
        what => panic!("no such figure: {}", what),
    }
}
