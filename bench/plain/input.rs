//! Reading instances and sheets, with faults 1 to 5. Reading goes forward and ends at the first faulty word.

use std::ops::RangeInclusive;

use crate::distance::Place;
use crate::domains::Domains;
use crate::limits::{MAX_COORDINATE, MAX_COST, MAX_ENTRIES, MAX_SIZE, MAX_VARIABLES};
use crate::refusal::{require, Refusal};
use crate::words::{self, kind, payload};

/// What is known of the words of an accepted instance.
pub struct Instance {
    pub domains: Domains,
    /// Where the entries start.
    pub entries: usize,
}

/// What is known of the words of an accepted sheet.
pub struct Sheet {
    pub domains: Domains,
    /// Where the coordinates of each variable's values start.
    places: [usize; MAX_VARIABLES],
    pub entries: usize,
    /// The number of entries for travel between neighbouring variables (document 01: legs).
    pub travels: usize,
}

impl Sheet {
    pub fn place(&self, sheet: &[u32], variable: usize, value: usize) -> Place {
        let at = self.places[variable] + 2 * value;
        Place { easting: words::coordinate(sheet[at]), northing: words::coordinate(sheet[at + 1]) }
    }
}

struct Reader<'a> {
    words: &'a [u32],
    at: usize,
}

impl<'a> Reader<'a> {
    fn next(&mut self) -> Option<u32> {
        let word = self.words.get(self.at).copied();
        self.at += 1;
        word
    }

    fn number(&mut self, wanted: u32, range: RangeInclusive<u32>, refusal: Refusal) -> Result<u32, Refusal> {
        match self.next() {
            Some(word) if kind(word) == wanted && range.contains(&payload(word)) => Ok(payload(word)),
            _ => Err(refusal),
        }
    }

    /// The number of variables; no words at all are a field without any.
    fn head(&mut self) -> Result<usize, Refusal> {
        if self.words.is_empty() {
            return Ok(0);
        }
        Ok(self.number(words::HEAD, 0..=MAX_VARIABLES as u32, Refusal::BadHead)? as usize)
    }

    fn size(&mut self) -> Result<u32, Refusal> {
        self.number(words::SIZE, 1..=MAX_SIZE, Refusal::BadVariable)
    }

    fn coordinate(&mut self, wanted: u32) -> Result<(), Refusal> {
        let good = self.next().map_or(false, |word| is_coordinate(word, wanted));
        require(good, Refusal::BadVariable)
    }

    /// The entries up to the last word; `counted` entries count before them.
    fn entries(&mut self, domains: &Domains, counted: usize) -> Result<(), Refusal> {
        let mut counted = counted;
        let mut lowest = 0;
        while let Some(word) = self.next() {
            if words::closes(word) {
                check_closing(word)?;
                require(counted < MAX_ENTRIES, Refusal::TooManyEntries)?;
                counted += 1;
                lowest = 0;
            } else {
                require(is_binding(word, domains, lowest), Refusal::BadEntry)?;
                lowest = words::binding_variable(word) + 1;
            }
        }
        require(lowest == 0, Refusal::BadEntry)
    }
}

/// Refuses a cost that is too high, and set bits beside the kind of forbidden.
fn check_closing(word: u32) -> Result<(), Refusal> {
    if kind(word) == words::FORBIDDEN {
        require(payload(word) == 0, Refusal::BadEntry)
    } else {
        require(payload(word) <= MAX_COST, Refusal::CostTooHigh)
    }
}

/// Whether the word is a coordinate of this kind, in range.
pub fn is_coordinate(word: u32, wanted: u32) -> bool {
    let range = -MAX_COORDINATE..=MAX_COORDINATE;
    kind(word) == wanted && range.contains(&words::coordinate(word))
}

/// Whether the word binds a variable from `lowest` on to one of its values.
fn is_binding(word: u32, domains: &Domains, lowest: usize) -> bool {
    let variable = words::binding_variable(word);
    kind(word) == words::BINDING
        && !words::binding_has_unnamed_bits(word)
        && lowest <= variable
        && variable < domains.count()
        && words::binding_value(word) < domains.sizes()[variable]
}

pub fn read_instance(words: &[u32]) -> Result<Instance, Refusal> {
    let mut reader = Reader { words, at: 0 };
    let count = reader.head()?;
    let mut domains = Domains::none();
    for _ in 0..count {
        domains.push(reader.size()?);
    }
    let entries = reader.at;
    reader.entries(&domains, 0)?;
    Ok(Instance { domains, entries })
}

pub fn read_sheet(words: &[u32]) -> Result<Sheet, Refusal> {
    let mut reader = Reader { words, at: 0 };
    let count = reader.head()?;
    let mut sheet = Sheet { domains: Domains::none(), places: [0; MAX_VARIABLES], entries: 0, travels: 0 };
    for variable in 0..count {
        let size = reader.size()?;
        sheet.domains.push(size);
        sheet.places[variable] = reader.at;
        for _ in 0..size {
            reader.coordinate(words::EASTING)?;
            reader.coordinate(words::NORTHING)?;
        }
    }
    sheet.entries = reader.at;
    sheet.travels = sheet.domains.sizes().windows(2).map(|sizes| (sizes[0] * sizes[1]) as usize).sum();
    reader.entries(&sheet.domains, sheet.travels)?;
    Ok(sheet)
}
