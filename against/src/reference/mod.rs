//! The reference: document 01, plainly. This file has the calls in the document's order of
//! refusals; the reader, the rules, the verdict and the claims stand in files of their own.

mod claims;
mod reader;
mod rules;
mod verdict;

use crate::answer::{Answer, Calls, Verdict};
pub use reader::{read_table, Row, Table};
pub use rules::close;

pub const CALLS: Calls = Calls {
    name: "reference",
    check,
    write_claim,
    check_claim,
};

/// A refusal: the document's number, origin and value.
#[derive(Clone, Copy, Debug, PartialEq, Eq)]
pub struct Refusal {
    pub number: u8,
    pub origin: u8,
    pub value: usize,
}

fn refusal(number: u8, value: usize) -> Refusal {
    Refusal {
        number,
        origin: 0,
        value,
    }
}

/// Runs the rules on a table: fact count and verdict, with the relations in the memory.
pub fn check(table: &[u8], memory: &mut [u8], budget: usize) -> Answer {
    answer(run(table, memory, budget).map(|(count, verdict, _)| done(count, Some(verdict), None)))
}

/// As `check`, and writes the claim of exactly the facts found into the space.
pub fn write_claim(table: &[u8], memory: &mut [u8], budget: usize, space: &mut [u8]) -> Answer {
    answer(
        run(table, memory, budget).and_then(|(count, verdict, facts)| {
            let claim = claims::write(facts);
            if space.len() < claim.len() {
                facts.fill(0);
                return Err(refusal(12, claim.len()));
            }
            space[..claim.len()].copy_from_slice(&claim);
            Ok(done(count, Some(verdict), Some(claim.len())))
        }),
    )
}

/// Judges a claim for a table; on 0 the memory holds the claimed facts.
pub fn check_claim(table: &[u8], claim: &[u8], memory: &mut [u8]) -> Answer {
    answer(read_table(table).and_then(|table| {
        let facts = lent(&table, memory)?;
        let claimed = claims::read(claim, table.total()).map_err(|refusal| Refusal {
            origin: 1,
            ..refusal
        })?;
        facts.fill(0);
        for &position in &claimed {
            facts[position] = 1;
        }
        match claims::fault(&table, facts) {
            Some(refusal) => {
                facts.fill(0);
                Err(refusal)
            }
            None => Ok(done(claimed.len(), None, None)),
        }
    }))
}

/// What the listing program prints for a table, with working memory and budget 65,536.
pub fn listing(table: &[u8]) -> String {
    let mut memory = vec![0; 65_536];
    match run(table, &mut memory, 65_536) {
        Err(refusal) => format!("refused {} {}\n", refusal.number, refusal.value),
        Ok((count, verdict, facts)) => {
            let mut text = format!("facts {count}\nverdict ");
            match verdict {
                Verdict::Safe => text.push_str("safe"),
                Verdict::Possible(witness) => {
                    text.push_str(&format!("possible {} {}", witness.row, witness.shared));
                    for local in witness.locals {
                        text.push_str(&format!(" {local}"));
                    }
                }
            }
            text.push('\n');
            let table = read_table(table).expect("it was read above");
            for position in rules::positions(facts) {
                text.push_str(&rules::fact_line(&table, position));
            }
            text
        }
    }
}

/// The first W bytes of the working memory, or refusal 7.
fn lent<'a>(table: &Table, memory: &'a mut [u8]) -> Result<&'a mut [u8], Refusal> {
    let total = table.total();
    memory.get_mut(..total).ok_or(refusal(7, total))
}

/// Refusals 1 to 8, or the fact count, the verdict and the first W bytes with the relations.
fn run<'a>(
    table: &[u8],
    memory: &'a mut [u8],
    budget: usize,
) -> Result<(usize, Verdict, &'a mut [u8]), Refusal> {
    let table = read_table(table)?;
    let facts = lent(&table, memory)?;
    facts.fill(0);
    match rules::least(&table, facts, budget) {
        Some(count) => Ok((count, verdict::verdict(&table, facts), facts)),
        None => {
            facts.fill(0);
            Err(refusal(8, budget))
        }
    }
}

fn done(value: usize, verdict: Option<Verdict>, written: Option<usize>) -> Answer {
    Answer {
        number: 0,
        origin: 0,
        value,
        verdict,
        written,
    }
}

fn answer(result: Result<Answer, Refusal>) -> Answer {
    result.unwrap_or_else(|refusal| Answer {
        number: refusal.number,
        origin: refusal.origin,
        value: refusal.value,
        verdict: None,
        written: None,
    })
}
