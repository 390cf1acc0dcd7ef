//! Certificates by the plain implementation, for the benchmark. `certificates make SHEET` writes that of a sheet to the standard
//! output; `certificates verify SHEET CERTIFICATE` prints number, cost and steps.

use std::env;
use std::fs;
use std::io::{self, Write};

fn bytes_of(path: &str) -> Vec<u8> {
    fs::read(path).expect("the file can be read")
}

/// No bytes where there is no plan.
fn made(sheet: &[u8]) -> Vec<u8> {
    let words = plain::certify(sheet).map_or(Vec::new(), |certified| certified.certificate);
    words.iter().flat_map(|word| word.to_le_bytes()).collect()
}

fn main() -> io::Result<()> {
    let arguments: Vec<String> = env::args().skip(1).collect();
    let sheet = bytes_of(&arguments[1]);
    match arguments[0].as_str() {
        "make" => io::stdout().write_all(&made(&sheet)),
        "verify" => {
            let (number, cost, steps) = match plain::verify(&sheet, &bytes_of(&arguments[2])) {
                Ok(verified) => (0, verified.cost, verified.steps),
                Err(refusal) => (refusal.number(), 0, 0),
            };
            println!("{} {} {}", number, cost, steps);
            Ok(())
        }
        what => panic!("neither make nor verify: {}", what),
    }
}
