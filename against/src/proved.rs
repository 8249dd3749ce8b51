//! The proved library, called as C calls it: `include/truppidane.h` has the declarations.

use crate::answer::{Answer, Calls, Verdict, Witness};

pub const CALLS: Calls = Calls {
    name: "proved library",
    check,
    write_claim,
    check_claim,
};

/// How many numbers tell an answer.
const NUMBERS: usize = 11;

/// The numbers as they are lent: dirty, with a guard on each side.
type Told = [usize; 1 + NUMBERS + 1];
const DIRTY: Told = [0xA5A5_A5A5; 1 + NUMBERS + 1];

extern "C" {
    fn truppidane_check(
        table: *const u8,
        table_length: usize,
        memory: *mut u8,
        memory_length: usize,
        budget: usize,
        told: *mut usize,
    ) -> usize;
    fn truppidane_write_claim(
        table: *const u8,
        table_length: usize,
        memory: *mut u8,
        memory_length: usize,
        budget: usize,
        space: *mut u8,
        space_length: usize,
        told: *mut usize,
    ) -> usize;
    fn truppidane_check_claim(
        table: *const u8,
        table_length: usize,
        claim: *const u8,
        claim_length: usize,
        memory: *mut u8,
        memory_length: usize,
        told: *mut usize,
    ) -> usize;
}

pub fn check(table: &[u8], memory: &mut [u8], budget: usize) -> Answer {
    let mut told = DIRTY;
    // SAFETY: each pointer comes with its slice's length, and the numbers have their room.
    let number = unsafe {
        truppidane_check(
            table.as_ptr(),
            table.len(),
            memory.as_mut_ptr(),
            memory.len(),
            budget,
            told[1..].as_mut_ptr(),
        )
    };
    answer(table, number, told, false)
}

pub fn write_claim(table: &[u8], memory: &mut [u8], budget: usize, space: &mut [u8]) -> Answer {
    let mut told = DIRTY;
    // SAFETY: as in `check`.
    let number = unsafe {
        truppidane_write_claim(
            table.as_ptr(),
            table.len(),
            memory.as_mut_ptr(),
            memory.len(),
            budget,
            space.as_mut_ptr(),
            space.len(),
            told[1..].as_mut_ptr(),
        )
    };
    answer(table, number, told, true)
}

pub fn check_claim(table: &[u8], claim: &[u8], memory: &mut [u8]) -> Answer {
    let mut told = DIRTY;
    // SAFETY: as in `check`.
    let number = unsafe {
        truppidane_check_claim(
            table.as_ptr(),
            table.len(),
            claim.as_ptr(),
            claim.len(),
            memory.as_mut_ptr(),
            memory.len(),
            told[1..].as_mut_ptr(),
        )
    };
    answer(table, number, told, false)
}

/// The answer that the numbers tell. It tells them again, so none of them is left out.
fn answer(table: &[u8], number: usize, told: Told, writes: bool) -> Answer {
    let [_, _, origin, value, verdict, row, shared, ..] = told;
    let answer = Answer {
        number: number as u8,
        origin: origin as u8,
        value,
        verdict: match verdict {
            0 => None,
            1 => Some(Verdict::Safe),
            // Byte 1 of a table that was read is the number of its threads.
            _ => Some(Verdict::Possible(Witness {
                row,
                shared,
                locals: told[7..][..usize::from(table[1])].to_vec(),
            })),
        },
        written: (writes && number == 0).then_some(told[11]),
    };
    assert_eq!(told, tell(&answer), "numbers that tell no answer");
    answer
}

fn tell(answer: &Answer) -> Told {
    let mut told = DIRTY;
    told[1..=NUMBERS].fill(0);
    told[1] = answer.number.into();
    told[2] = answer.origin.into();
    told[3] = answer.value;
    if let Some(verdict) = &answer.verdict {
        told[4] = 1;
        if let Verdict::Possible(witness) = verdict {
            told[4..7].copy_from_slice(&[2, witness.row, witness.shared]);
            told[7..][..witness.locals.len()].copy_from_slice(&witness.locals);
        }
    }
    told[11] = answer.written.unwrap_or(0);
    told
}
