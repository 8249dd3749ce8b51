//! A small random generator, and sound tables drawn with it.

use super::{Model, ERROR, MOST, POP, PUSH, STEP};

/// Splitmix64: the same seed gives the same numbers everywhere.
pub struct Random(u64);

impl Random {
    pub fn new(seed: u64) -> Self {
        Random(seed)
    }

    pub fn word(&mut self) -> u64 {
        self.0 = self.0.wrapping_add(0x9E37_79B9_7F4A_7C15);
        let mut z = self.0;
        z = (z ^ (z >> 30)).wrapping_mul(0xBF58_476D_1CE4_E5B9);
        z = (z ^ (z >> 27)).wrapping_mul(0x94D0_49BB_1331_11EB);
        z ^ (z >> 31)
    }

    /// A number below `bound`, which is above 0.
    pub fn below(&mut self, bound: usize) -> usize {
        (self.word() % bound as u64) as usize
    }

    /// True once in `often` times.
    pub fn once_in(&mut self, often: usize) -> bool {
        self.below(often) == 0
    }

    pub fn pick<T: Copy>(&mut self, list: &[T]) -> T {
        list[self.below(list.len())]
    }
}

/// A sound table. `size` 0 gives tiny ones, 3 all that the limits allow. Most rows leave a place
/// that an earlier row entered, so that the rules have something to do.
pub fn sound(random: &mut Random, size: usize) -> Model {
    let most = [2, 4, 8, 16][size];
    let n = 1 + random.below(4);
    let g = 1 + random.below(most);
    let l = 1 + random.below(most);
    let f = random.below(1 + most.min(8));
    let failed = if random.once_in(3) {
        1 + random.below(l)
    } else {
        0
    };
    let locals: Vec<usize> = (0..n).map(|_| random.below(l)).collect();
    let mut model = Model::new([g, l, f], failed, random.below(g), &locals);

    let mut known: Vec<(usize, usize, usize)> = Vec::new();
    for (t, &local) in locals.iter().enumerate() {
        known.push((t, model.header[6], local));
    }
    let rows = |random: &mut Random, list: usize| random.below(1 + MOST[list].min(6 << (2 * size)));
    let counts = [STEP, PUSH, POP].map(|list| {
        if list > STEP && f == 0 {
            0
        } else {
            rows(random, list)
        }
    });
    for round in 0..counts.into_iter().max().unwrap_or(0) {
        for list in [STEP, PUSH, POP] {
            if round >= counts[list] {
                continue;
            }
            let (t, mut here, mut local) = random.pick(&known);
            if random.once_in(4) {
                here = random.below(g);
            }
            if random.once_in(8) {
                local = random.below(l);
            }
            let to = random.below(l);
            let mut there = here;
            match list {
                STEP => {
                    if !random.once_in(3) {
                        there = random.below(g);
                    }
                    model.add(STEP, [t, here, local, there, to]);
                }
                PUSH => model.add(PUSH, [t, here, local, to, random.below(f)]),
                _ => model.add(POP, [t, here, local, random.below(f), to]),
            }
            known.push((t, there, to));
        }
    }
    if !random.once_in(3) {
        for _ in 0..rows(random, ERROR) {
            let mut row = vec![cell(random, g)];
            row.extend((0..n).map(|_| cell(random, l)));
            model.lists[ERROR].push(row);
        }
    }
    model.sorted()
}

/// A cell of an error row: any, or one of the stores.
fn cell(random: &mut Random, stores: usize) -> usize {
    if random.once_in(3) {
        0
    } else {
        1 + random.below(stores)
    }
}
