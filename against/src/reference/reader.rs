//! Numbers and the table, read from left to right; the first fault wins.

use super::{refusal, Refusal};
use std::ops::Range;

/// A file and the place up to which whole numbers were read.
pub struct Reader<'a> {
    bytes: &'a [u8],
    at: usize,
}

impl<'a> Reader<'a> {
    pub fn new(bytes: &'a [u8]) -> Self {
        Reader { bytes, at: 0 }
    }

    /// The next number: one to four bytes in the shortest form (refusals 1 and 2).
    fn number(&mut self) -> Result<usize, Refusal> {
        let first = self.at;
        let mut value = 0;
        for i in 0..4 {
            let Some(&byte) = self.bytes.get(first + i) else {
                return Err(refusal(1, self.bytes.len()));
            };
            value += usize::from(byte & 0x7F) << (7 * i);
            if byte < 0x80 {
                if i > 0 && byte == 0 {
                    return Err(refusal(2, first));
                }
                self.at = first + i + 1;
                return Ok(value);
            }
        }
        Err(refusal(2, first))
    }

    /// The next number, which its column holds to a range (refusals 1, 2 and 4).
    pub fn within(&mut self, range: Range<usize>) -> Result<usize, Refusal> {
        let first = self.at;
        let value = self.number()?;
        if range.contains(&value) {
            Ok(value)
        } else {
            Err(refusal(4, first))
        }
    }

    /// The version, which is 1 (refusals 1, 2 and 3).
    pub fn version(&mut self) -> Result<(), Refusal> {
        match self.number()? {
            1 => Ok(()),
            _ => Err(refusal(3, 0)),
        }
    }

    /// The end of the file (refusal 6).
    pub fn end(&self) -> Result<(), Refusal> {
        if self.at == self.bytes.len() {
            Ok(())
        } else {
            Err(refusal(6, self.at))
        }
    }

    /// A count up to `most`, then as many rows of numbers below `bounds`, strictly ascending.
    fn rows(&mut self, most: usize, bounds: &[usize]) -> Result<Vec<Row>, Refusal> {
        let count = self.within(0..most + 1)?;
        let mut rows: Vec<Row> = Vec::new();
        for _ in 0..count {
            let first = self.at;
            let mut row = [0; 5];
            for (cell, &bound) in row.iter_mut().zip(bounds) {
                *cell = self.within(0..bound)? as u8;
            }
            if rows.last().is_some_and(|before| row <= *before) {
                return Err(refusal(5, first));
            }
            rows.push(row);
        }
        Ok(rows)
    }
}

/// A row in file order; an error row of fewer than four threads has zeros behind.
pub type Row = [u8; 5];

/// A sound table.
#[derive(Clone, Debug)]
pub struct Table {
    pub threads: usize,
    pub shared: usize,
    pub locals: usize,
    pub frames: usize,
    pub failed: Option<usize>,
    pub first_shared: usize,
    pub first_locals: Vec<usize>,
    pub steps: Vec<Row>,
    pub pushes: Vec<Row>,
    pub pops: Vec<Row>,
    pub errors: Vec<Row>,
}

/// Reads a table, or gives the first of refusals 1 to 6.
pub fn read_table(bytes: &[u8]) -> Result<Table, Refusal> {
    let mut reader = Reader::new(bytes);
    reader.version()?;
    let n = reader.within(1..5)?;
    let g = reader.within(1..17)?;
    let l = reader.within(1..17)?;
    let f = reader.within(0..9)?;
    let failed = reader.within(0..l + 1)?;
    let first_shared = reader.within(0..g)?;
    let mut first_locals = Vec::new();
    for _ in 0..n {
        first_locals.push(reader.within(0..l)?);
    }
    let steps = reader.rows(1024, &[n, g, l, g, l])?;
    let pushes = reader.rows(256, &[n, g, l, l, f])?;
    let pops = reader.rows(256, &[n, g, l, f, l])?;
    let mut cells = vec![g + 1];
    cells.resize(1 + n, l + 1);
    let errors = reader.rows(64, &cells)?;
    reader.end()?;
    Ok(Table {
        threads: n,
        shared: g,
        locals: l,
        frames: f,
        failed: failed.checked_sub(1),
        first_shared,
        first_locals,
        steps,
        pushes,
        pops,
        errors,
    })
}
