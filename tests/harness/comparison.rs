//! Makes each call by both implementations and compares number, fields and every word of memory.

use crate::call::{Call, CALLS, NAMES, NUMBERS};
use crate::random::Random;
use crate::{proved, unproved};

/// What an answer slice holds before the call.
const BEFORE: u64 = 0x0123_4567_89AB_CDEF;

/// How many numbers there are, with 0.
const ALL_NUMBERS: usize = 17;

/// How many failures are printed in full.
const PRINTED: usize = 5;

/// How many letters of a call are printed.
const SHOWN: usize = 3_000;

pub struct Comparison {
    /// How often each call answered with each number.
    counts: [[usize; ALL_NUMBERS]; CALLS],
    failures: usize,
    round: u64,
}

impl Comparison {
    pub fn new() -> Comparison {
        Comparison { counts: [[0; ALL_NUMBERS]; CALLS], failures: 0, round: 0 }
    }

    /// Starts a round; its number is printed with its failures.
    pub fn start(&mut self, round: u64) {
        self.round = round;
    }

    /// Makes a call by both; the result is the call with the memory that it leaves, for the next one.
    pub fn make(&mut self, random: &mut Random, call: Call) -> Call {
        let before = vec![BEFORE; answer_length(random, call.fields())];
        let (mut plain, mut plain_answer) = (call.clone(), before.clone());
        let (mut other, mut other_answer) = (call.clone(), before);
        let number = unproved::made(&mut plain, &mut plain_answer);
        let made = proved::made(&mut other, &mut other_answer);
        self.counts[call.index()][number as usize] += 1;
        if made.number != number || plain_answer != other_answer || plain != other || !made.kept_within {
            self.failures += 1;
            if self.failures <= PRINTED {
                println!("FAILED in round {}: {}", self.round, shown(&call));
                println!("  plain  {} {:?} {}", number, plain_answer, shown(&plain));
                println!("  proved {} {:?} {}", made.number, other_answer, shown(&other));
                println!("  proved wrote outside of its memory: {}", !made.kept_within);
            }
        }
        plain
    }

    /// How often the call with this index was made.
    pub fn made(&self, index: usize) -> usize {
        self.counts[index].iter().sum()
    }

    /// Prints how often each call answered with each number; the result tells whether all is as it should be.
    pub fn report(&self, all_reached: bool) -> bool {
        let mut unreached = 0;
        for index in 0..CALLS {
            let counts = &self.counts[index];
            let numbers = (0..ALL_NUMBERS).filter(|&number| counts[number] > 0);
            let parts: Vec<String> = numbers.map(|number| format!("{}: {}", number, counts[number])).collect();
            println!("{:8} {:8} calls; answers {}", NAMES[index], self.made(index), parts.join(", "));
            for &number in NUMBERS[index].iter().filter(|&&number| counts[number as usize] == 0) {
                println!("{:8} never answers {}", NAMES[index], number);
                unreached += 1;
            }
        }
        let calls: usize = (0..CALLS).map(|index| self.made(index)).sum();
        println!("harness: {} of {} calls as in the plain implementation", calls - self.failures, calls);
        self.failures == 0 && calls > 0 && (unreached == 0 || !all_reached)
    }
}

/// A call with its memory, cut where it is long.
fn shown(call: &Call) -> String {
    format!("{:?}", call).chars().take(SHOWN).collect()
}

/// Mostly as long as the fields need; a longer slice keeps the rest, a shorter one takes what it has room for.
fn answer_length(random: &mut Random, fields: usize) -> usize {
    match random.below(16) {
        0 => fields + random.between(1, 3),
        1 => random.between(0, fields),
        _ => fields,
    }
}
