//! Damaged tables and claims, and claims grown to larger closed ones.

use super::{bytes_of, claim_numbers, padded, Model, Random};
use crate::reference::{close, Table};

/// The table's file with something wrong in it (by chance it may still be sound).
pub fn damaged_table(random: &mut Random, model: &Model) -> Vec<u8> {
    let mut model = model.clone();
    let list = random.below(4);
    let rows = model.lists[list].len();
    let mut numbers = model.numbers();
    match random.below(7) {
        // Rows swapped.
        0 if rows > 1 => model.lists[list].swap(random.below(rows), random.below(rows)),
        // A row doubled, and counted twice.
        1 if rows > 0 => {
            let at = random.below(rows);
            let row = model.lists[list][at].clone();
            model.lists[list].insert(at, row);
        }
        // A cell of a row anything up to a little past every range.
        2 if rows > 0 => {
            let row = &mut model.lists[list][random.below(rows)];
            let at = random.below(row.len());
            row[at] = random.below(19);
        }
        // A count off.
        3 => {
            let before: usize = model.lists[..list]
                .iter()
                .map(|list| 1 + list.iter().flatten().count())
                .sum();
            off(random, &mut numbers[model.header.len() + before]);
            return bytes_of(&numbers);
        }
        // A number of the header off.
        4 => {
            let at = random.below(model.header.len());
            off(random, &mut model.header[at]);
        }
        _ => return damaged_file(random, &numbers),
    }
    model.bytes()
}

/// The claim's file with something wrong in it (by chance it may still be accepted).
pub fn damaged_claim(random: &mut Random, positions: &[usize], total: usize) -> Vec<u8> {
    let mut positions = positions.to_vec();
    let at = random.below(positions.len().max(1));
    match random.below(7) {
        // A fact less.
        0 | 1 if !positions.is_empty() => {
            positions.remove(at);
        }
        // A fact more.
        2 => {
            positions.push(random.below(total));
            positions.sort();
            positions.dedup();
        }
        // A position at or past the end.
        3 => positions.push(total + random.below(2)),
        // A distance 0, or a first position twice.
        4 if !positions.is_empty() => positions.insert(at, positions[at]),
        // The count off.
        5 => {
            let mut numbers = claim_numbers(&positions);
            off(random, &mut numbers[1]);
            return bytes_of(&numbers);
        }
        _ => return damaged_file(random, &claim_numbers(&positions)),
    }
    bytes_of(&claim_numbers(&positions))
}

/// The facts that hold and a few more, closed under the rules: their positions.
pub fn grown_claim(random: &mut Random, table: &Table, facts: &[u8]) -> Vec<usize> {
    let mut facts = facts.to_vec();
    for _ in 0..1 + random.below(4) {
        let more = random.below(facts.len());
        facts[more] = 1;
    }
    let held = |facts: &[u8]| (0..facts.len()).filter(|&i| facts[i] == 1).collect();
    let work = held(&facts);
    close(table, &mut facts, work, usize::MAX);
    held(&facts)
}

/// The file of these numbers, damaged in one place.
fn damaged_file(random: &mut Random, numbers: &[usize]) -> Vec<u8> {
    let mut bytes = bytes_of(numbers);
    let at = random.below(bytes.len());
    let which = random.below(numbers.len());
    match random.below(9) {
        0 => bytes.truncate(at),
        1 => bytes[at] = random.word() as u8,
        2 => bytes[at] ^= 1 << random.below(8),
        3 => bytes.insert(at, random.word() as u8),
        4 => bytes.insert(at, random.below(3) as u8),
        5 => {
            bytes.remove(at);
        }
        6 => {
            bytes = bytes_of(&numbers[..which]);
            bytes.extend(padded(numbers[which], 1 + random.below(4)));
            bytes.extend(bytes_of(&numbers[which + 1..]));
        }
        7 => {
            let mut numbers = numbers.to_vec();
            off(random, &mut numbers[which]);
            bytes = bytes_of(&numbers);
        }
        _ => bytes.extend((0..1 + random.below(5)).map(|_| random.word() as u8)),
    }
    bytes
}

/// Another number: one off, or any, up to the largest of four bytes and a little past it.
fn off(random: &mut Random, number: &mut usize) {
    *number = match random.below(4) {
        0 => *number + 1,
        1 => number.saturating_sub(1),
        2 => random.below(300),
        _ => random.below((1 << 28) + (1 << 20)),
    };
}
