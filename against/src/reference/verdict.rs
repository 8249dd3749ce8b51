//! The verdict and its first witness.

use super::Table;
use crate::answer::{Verdict, Witness};

/// The verdict on the facts that hold, with the first witness in the order of row number, shared
/// store and list of local stores.
pub fn verdict(table: &Table, facts: &[u8]) -> Verdict {
    let reached = reached(table, facts);
    for row in 0..=table.errors.len() {
        for shared in 0..table.shared {
            let mut locals = Vec::new();
            if row_may_match(table, row, shared)
                && extend(table, &reached, row, shared, &mut locals)
            {
                return Verdict::Possible(Witness {
                    row,
                    shared,
                    locals,
                });
            }
        }
    }
    Verdict::Safe
}

/// For each thread and place whether some P fact of the thread ends there.
fn reached(table: &Table, facts: &[u8]) -> Vec<Vec<bool>> {
    let places = table.shared * table.locals;
    let mut reached = vec![vec![false; places]; table.threads];
    for (t, reached) in reached.iter_mut().enumerate() {
        for a in 0..places {
            for (b, reached) in reached.iter_mut().enumerate() {
                *reached |= facts[table.p(t, a, b)] == 1;
            }
        }
    }
    reached
}

/// Extends `locals` to the smallest full list of reached local stores that is erroneous by `row`,
/// or leaves it as it is.
fn extend(
    table: &Table,
    reached: &[Vec<bool>],
    row: usize,
    shared: usize,
    locals: &mut Vec<usize>,
) -> bool {
    let t = locals.len();
    if t == table.threads {
        return row > 0 || locals.iter().any(|&local| Some(local) == table.failed);
    }
    for local in 0..table.locals {
        if reached[t][shared * table.locals + local] && cell_matches(table, row, 1 + t, local) {
            locals.push(local);
            if extend(table, reached, row, shared, locals) {
                return true;
            }
            locals.pop();
        }
    }
    false
}

/// Whether the row can match at this shared store: row 0 wherever there is a failed store.
fn row_may_match(table: &Table, row: usize, shared: usize) -> bool {
    if row == 0 {
        table.failed.is_some()
    } else {
        cell_matches(table, row, 0, shared)
    }
}

/// Whether a cell of an error row matches a store. Row 0 has no cells.
fn cell_matches(table: &Table, row: usize, cell: usize, store: usize) -> bool {
    if row == 0 {
        return true;
    }
    let cell = usize::from(table.errors[row - 1][cell]);
    cell == 0 || cell == store + 1
}
