//! Makes the calls that stand in lines of numbers on standard input, and answers each with a line: the number, the
//! returned fields and the content of every lent slice. A slice is its length and then its elements.

use std::io::{self, BufRead, Write};

use plain::{Outcome, Ran, Refusal, Stepped};

/// The numbers of one line, taken from the front.
struct Line {
    numbers: Vec<u64>,
    at: usize,
}

impl Line {
    fn read(text: &str) -> Line {
        let numbers = text.split_ascii_whitespace().map(|part| part.parse().expect("a number"));
        Line { numbers: numbers.collect(), at: 0 }
    }

    fn number(&mut self) -> u64 {
        self.at += 1;
        self.numbers[self.at - 1]
    }

    fn slice(&mut self) -> Vec<u64> {
        let length = self.number() as usize;
        self.at += length;
        self.numbers[self.at - length..self.at].to_vec()
    }

    fn words(&mut self) -> Vec<u32> {
        self.slice().iter().map(|&number| number as u32).collect()
    }

    fn bytes(&mut self) -> Vec<u8> {
        self.slice().iter().map(|&number| number as u8).collect()
    }
}

/// An answer under construction.
struct Answer {
    numbers: Vec<u64>,
}

impl Answer {
    /// Of a call that returns one field besides its number.
    fn of(result: Result<u64, Refusal>) -> Answer {
        let numbers = match result {
            Ok(field) => vec![0, field],
            Err(refusal) => vec![u64::from(refusal.number()), 0],
        };
        Answer { numbers }
    }

    fn of_run(ran: &Ran) -> Answer {
        let (number, outcome) = match ran.outcome {
            Outcome::Done => (0, 0),
            Outcome::Paused => (0, 1),
            Outcome::Refused(Refusal::BadTable) => (Refusal::BadTable.number(), 0),
            Outcome::Refused(refusal) => (refusal.number(), 2),
        };
        Answer { numbers: vec![u64::from(number), outcome, ran.steps as u64, ran.bound] }
    }

    /// Of a refused call: its number, and zeros in place of so many other fields.
    fn refused(refusal: Refusal, others: usize) -> Answer {
        let mut numbers = vec![0; 1 + others];
        numbers[0] = u64::from(refusal.number());
        Answer { numbers }
    }

    fn with_words(mut self, words: &[u32]) -> Answer {
        self.numbers.push(words.len() as u64);
        self.numbers.extend(words.iter().map(|&word| u64::from(word)));
        self
    }

    fn with_bytes(mut self, bytes: &[u8]) -> Answer {
        self.numbers.push(bytes.len() as u64);
        self.numbers.extend(bytes.iter().map(|&byte| u64::from(byte)));
        self
    }
}

fn make(line: &mut Line) -> Answer {
    let (sheet, mut target) = (line.words(), line.words());
    let made = plain::make_instance(&sheet, &mut target);
    Answer::of(made.map(|written| written as u64)).with_words(&target)
}

fn encode(line: &mut Line) -> Answer {
    let (instance, mut table) = (line.words(), line.words());
    let encoded = plain::encode(&instance, &mut table);
    Answer::of(encoded.map(|rows| rows as u64)).with_words(&table)
}

fn step(line: &mut Line) -> Answer {
    let mut table = line.words();
    let numbers = match plain::step(&mut table) {
        Ok(Stepped::Done) => vec![0, 1, 0],
        Ok(Stepped::Made(word)) => vec![0, 0, u64::from(word)],
        Err(refusal) => vec![u64::from(refusal.number()), 0, 0],
    };
    Answer { numbers }.with_words(&table)
}

fn run(line: &mut Line) -> Answer {
    let (mut table, limit, mut derivation) = (line.words(), line.number() as usize, line.words());
    let ran = plain::run(&mut table, limit, &mut derivation);
    Answer::of_run(&ran).with_words(&table).with_words(&derivation)
}

fn plan(line: &mut Line) -> Answer {
    let (table, mut target) = (line.words(), line.bytes());
    let planned = plain::plan(&table, &mut target);
    Answer::of(planned.map(|()| 0)).with_bytes(&target)
}

fn complete(line: &mut Line) -> Answer {
    let (table, k) = (line.words(), line.number() as usize);
    let (fixed, mut target) = (line.bytes(), line.bytes());
    let completed = plain::complete(&table, k, &fixed, &mut target);
    Answer::of(completed).with_bytes(&target)
}

fn check(line: &mut Line) -> Answer {
    let (instance, derivation, assignment) = (line.words(), line.words(), line.bytes());
    let (claimed, mut table) = (line.number(), line.words());
    let checked = plain::check(&instance, &derivation, &assignment, claimed, &mut table);
    let number = checked.refusal.map_or(0, Refusal::number);
    Answer { numbers: vec![u64::from(number), checked.steps as u64] }.with_words(&table)
}

fn readout(line: &mut Line) -> Answer {
    let (sheet, assignment) = (line.words(), line.bytes());
    let (variable, easting, northing) = (line.number() as u32, line.number() as u32, line.number() as u32);
    Answer::of(plain::readout(&sheet, &assignment, variable, easting, northing).map(u64::from))
}

fn cost(line: &mut Line) -> Answer {
    let (instance, assignment) = (line.words(), line.bytes());
    Answer::of(plain::cost(&instance, &assignment))
}

fn certify(line: &mut Line) -> Answer {
    match plain::certify(&line.bytes()) {
        Ok(certified) => Answer::of_run(&certified.ran).with_words(&certified.certificate),
        Err(refusal) => Answer::refused(refusal, 3).with_words(&[]),
    }
}

fn verify(line: &mut Line) -> Answer {
    let (sheet, certificate) = (line.bytes(), line.bytes());
    match plain::verify(&sheet, &certificate) {
        Ok(verified) => {
            let numbers = vec![0, verified.cost, verified.steps as u64];
            Answer { numbers }.with_bytes(&verified.assignment)
        }
        Err(refusal) => Answer::refused(refusal, 2).with_bytes(&[]),
    }
}

/// Either conversion.
fn convert(line: &mut Line, made: fn(&[u32], &mut [u32]) -> Result<usize, Refusal>) -> Answer {
    let (source, mut target) = (line.words(), line.words());
    let converted = made(&source, &mut target);
    Answer::of(converted.map(|rows| rows as u64)).with_words(&target)
}

fn answer(text: &str) -> Answer {
    let (name, numbers) = text.split_once(' ').expect("a call with its numbers");
    let line = &mut Line::read(numbers);
    match name {
        "make" => make(line),
        "encode" => encode(line),
        "step" => step(line),
        "run" => run(line),
        "plan" => plan(line),
        "complete" => complete(line),
        "check" => check(line),
        "readout" => readout(line),
        "cost" => cost(line),
        "certify" => certify(line),
        "verify" => verify(line),
        "to_six" => convert(line, plain::to_six),
        "to_five" => convert(line, plain::to_five),
        _ => panic!("no such call: {}", name),
    }
}

fn main() -> io::Result<()> {
    let mut output = io::BufWriter::new(io::stdout());
    for text in io::stdin().lock().lines() {
        let numbers = answer(&text?).numbers;
        let parts: Vec<String> = numbers.iter().map(u64::to_string).collect();
        writeln!(output, "{}", parts.join(" "))?;
    }
    output.flush()
}
