//! Certificates, which are plan, claimed cost and derivation one behind the other as words: made from the bytes of a sheet, and
//! verified with the bytes of one.

use crate::assignment::plan;
use crate::checker::check;
use crate::encoding::encode;
use crate::limits::MAX_VARIABLES;
use crate::making::make_instance;
use crate::refusal::{require, Refusal};
use crate::stepping::{run, Outcome, Ran};
use crate::words::{self, kind, payload};

// The programs' buffers: a table has room for as many rows as there may be, whatever the field.
const SHEET_WORDS: usize = 16_000;
const TABLE_WORDS: usize = 24_590;
const STEP_LIMIT: usize = 200_000;
const CERTIFICATE_WORDS: usize = MAX_VARIABLES + 3 + STEP_LIMIT;

/// What planning a sheet came to that is not refused.
pub struct Certified {
    pub ran: Ran,
    /// No words where there is no plan.
    pub certificate: Vec<u32>,
}

/// What an accepted certificate claims.
pub struct Verified {
    pub cost: u64,
    pub steps: usize,
    pub assignment: Vec<u8>,
}

/// Plans a sheet; the certificate has every step since the encoding.
pub fn certify(sheet: &[u8]) -> Result<Certified, Refusal> {
    let (mut table, mut derivation) = (vec![0; TABLE_WORDS], vec![0; STEP_LIMIT]);
    encode(&instance_of(sheet)?, &mut table)?;
    let ran = run(&mut table, STEP_LIMIT, &mut derivation);
    if ran.outcome != Outcome::Done {
        return Ok(Certified { ran, certificate: Vec::new() });
    }
    let mut assignment = [0; MAX_VARIABLES];
    plan(&table, &mut assignment)?;
    let assignment = &assignment[..payload(table[0]) as usize];
    Ok(Certified { ran, certificate: written(assignment, ran.bound, &derivation[..ran.steps]) })
}

/// Checks a certificate with a sheet: faults of the sheet first.
pub fn verify(sheet: &[u8], certificate: &[u8]) -> Result<Verified, Refusal> {
    let instance = instance_of(sheet)?;
    let certificate = words_of(certificate, CERTIFICATE_WORDS, Refusal::BadClaim)?;
    let (assignment, cost, derivation) = read(&certificate).ok_or(Refusal::BadClaim)?;
    let checked = check(&instance, derivation, &assignment, cost, &mut vec![0; TABLE_WORDS]);
    match checked.refusal {
        Some(refusal) => Err(refusal),
        None => Ok(Verified { cost, steps: checked.steps, assignment }),
    }
}

/// The instance made from the bytes of a sheet.
fn instance_of(sheet: &[u8]) -> Result<Vec<u32>, Refusal> {
    let sheet = words_of(sheet, SHEET_WORDS, Refusal::BadHead)?;
    let mut instance = vec![0; SHEET_WORDS];
    let written = make_instance(&sheet, &mut instance)?;
    instance.truncate(written);
    Ok(instance)
}

/// The little-endian words in the bytes, at most so many; the refusal is of bytes that are not whole words.
fn words_of(bytes: &[u8], most: usize, cut: Refusal) -> Result<Vec<u32>, Refusal> {
    require(bytes.len() <= 4 * most, Refusal::TargetTooShort)?;
    require(bytes.len() % 4 == 0, cut)?;
    Ok(words::in_bytes(bytes))
}

fn written(assignment: &[u8], cost: u64, derivation: &[u32]) -> Vec<u32> {
    let mut certificate = vec![words::word(words::HEAD, assignment.len() as u32)];
    certificate.extend(assignment.iter().enumerate().map(|(variable, &value)| words::binding(variable, usize::from(value))));
    certificate.extend(words::weight(cost));
    certificate.extend(derivation);
    certificate
}

/// Plan, cost and derivation, where the words before the derivation are as they should be.
fn read(certificate: &[u32]) -> Option<(Vec<u8>, u64, &[u32])> {
    let (&head, behind) = certificate.split_first()?;
    let count = payload(head) as usize;
    if kind(head) != words::HEAD || count > MAX_VARIABLES || behind.len() < count + 2 {
        return None;
    }
    let (bindings, behind) = behind.split_at(count);
    let (claim, derivation) = behind.split_at(2);
    let assignment = assignment_in(bindings)?;
    words::are_weight(claim[0], claim[1]).then(|| (assignment, words::weight_in(claim[0], claim[1]), derivation))
}

/// The values in bindings of the variables in their order.
fn assignment_in(bindings: &[u32]) -> Option<Vec<u8>> {
    let value = |(variable, &word)| {
        let value = words::binding_value(word);
        (word == words::binding(variable, value as usize)).then_some(value as u8)
    };
    bindings.iter().enumerate().map(value).collect()
}
