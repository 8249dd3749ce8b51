//! Tables to compare and to measure with: named ones, random sound ones, damaged ones, claims.

mod damage;
mod named;
mod near;
mod random;

pub use damage::{damaged_claim, damaged_table, grown_claim};
pub use named::{by_name, mutex, recursion, smallest, training};
pub use near::{near, NEAR};
pub use random::{sound, Random};

/// A table as numbers: the header, then the rows of the four lists without their counts.
#[derive(Clone, Debug)]
pub struct Model {
    pub header: Vec<usize>,
    pub lists: [Vec<Vec<usize>>; 4],
}

/// The four lists.
pub const STEP: usize = 0;
pub const PUSH: usize = 1;
pub const POP: usize = 2;
pub const ERROR: usize = 3;

/// How many rows each list may hold.
pub const MOST: [usize; 4] = [1024, 256, 256, 64];

impl Model {
    /// A table without rows whose failed store is `failed` (as in the file, 0 for none).
    pub fn new(sizes: [usize; 3], failed: usize, shared: usize, locals: &[usize]) -> Self {
        let mut header = vec![1, locals.len()];
        header.extend(sizes);
        header.extend([failed, shared]);
        header.extend(locals);
        Model {
            header,
            lists: Default::default(),
        }
    }

    pub fn add<const N: usize>(&mut self, list: usize, row: [usize; N]) {
        self.lists[list].push(row.to_vec());
    }

    /// Puts each list in order, each row once.
    pub fn sorted(mut self) -> Self {
        for list in &mut self.lists {
            list.sort();
            list.dedup();
        }
        self
    }

    /// W, the bytes of working memory.
    pub fn total(&self) -> usize {
        let [n, g, l, f] = [1, 2, 3, 4].map(|i| self.header[i]);
        n * g * g * (1 + l * l * (1 + f))
    }

    /// All numbers in file order.
    pub fn numbers(&self) -> Vec<usize> {
        let mut numbers = self.header.clone();
        for list in &self.lists {
            numbers.push(list.len());
            numbers.extend(list.iter().flatten());
        }
        numbers
    }

    pub fn bytes(&self) -> Vec<u8> {
        bytes_of(&self.numbers())
    }
}

/// Numbers in their shortest form, one after the other.
pub fn bytes_of(numbers: &[usize]) -> Vec<u8> {
    let mut bytes = Vec::new();
    for &number in numbers {
        bytes.extend(padded(number, 0));
    }
    bytes
}

/// A number with `extra` bytes more than its shortest form has.
fn padded(mut number: usize, extra: usize) -> Vec<u8> {
    let mut bytes = Vec::new();
    while number >= 0x80 {
        bytes.push(0x80 + (number % 0x80) as u8);
        number /= 0x80;
    }
    bytes.push(number as u8);
    for _ in 0..extra {
        *bytes.last_mut().expect("a number has a byte") |= 0x80;
        bytes.push(0);
    }
    bytes
}

/// The claim of a list of ascending positions.
pub fn claim_numbers(positions: &[usize]) -> Vec<usize> {
    let mut numbers = vec![1, positions.len()];
    numbers.extend(positions.first());
    numbers.extend(positions.windows(2).map(|pair| pair[1] - pair[0]));
    numbers
}
