//! Claims: version 1, a count, the first position, then distances.

use super::reader::Reader;
use super::{refusal, rules, verdict, Refusal, Table};
use crate::answer::Verdict;

/// The claim of the facts that hold.
pub fn write(facts: &[u8]) -> Vec<u8> {
    let mut claim = Vec::new();
    put(&mut claim, 1);
    put(&mut claim, rules::positions(facts).count());
    let mut before = 0;
    for position in rules::positions(facts) {
        put(&mut claim, position - before);
        before = position;
    }
    claim
}

/// Appends a number in its shortest form.
fn put(bytes: &mut Vec<u8>, mut value: usize) {
    while value >= 0x80 {
        bytes.push(0x80 | (value & 0x7F) as u8);
        value >>= 7;
    }
    bytes.push(value as u8);
}

/// The claimed positions, ascending, or the first of the claim's refusals 1 to 6.
pub fn read(claim: &[u8], total: usize) -> Result<Vec<usize>, Refusal> {
    let mut reader = Reader::new(claim);
    reader.version()?;
    let count = reader.within(0..total + 1)?;
    let mut claimed: Vec<usize> = Vec::new();
    for _ in 0..count {
        let position = match claimed.last() {
            None => reader.within(0..total)?,
            Some(before) => before + reader.within(1..total - before)?,
        };
        claimed.push(position);
    }
    reader.end()?;
    Ok(claimed)
}

/// Refusals 9 to 11 of the claimed facts.
pub fn fault(table: &Table, facts: &[u8]) -> Option<Refusal> {
    if let Some(t) = (0..table.threads).find(|&t| facts[table.start(t)] == 0) {
        return Some(refusal(9, t));
    }
    let mut smallest = facts.len();
    let mut new = Vec::new();
    for position in rules::positions(facts) {
        rules::missing(table, facts, position, &mut new);
        smallest = new.drain(..).fold(smallest, usize::min);
    }
    if smallest < facts.len() {
        return Some(refusal(10, smallest));
    }
    match verdict::verdict(table, facts) {
        Verdict::Safe => None,
        Verdict::Possible(witness) => Some(refusal(11, witness.row)),
    }
}
