//! Ten tables near the limits: 4 threads, 16 x 16 stores, 8 frames, every list full.

use super::{Model, Random, ERROR, MOST, POP, PUSH, STEP};

/// Their names and what each is for.
pub const NEAR: [&str; 10] = [
    "every place from every entry: the most facts there can be",
    "random rows, distinct entries",
    "dense, and safe",
    "a long chain, against the order of positions",
    "sparse: hardly a row is ever taken",
    "random rows",
    "calls nested fifteen deep, every way on by a return",
    "one busy thread",
    "four threads with a mutex, taken and released in calls; safe",
    "dense, the one witness in the last row at the last shared store",
];

/// The table near`which`, 1 to 10.
pub fn near(which: usize) -> Option<Model> {
    let model = match which {
        1 => full(),
        2 => dense(),
        3 => dense_safe(),
        4 => chain(),
        5 => sparse(),
        6 => random(),
        7 => nested(),
        8 => busy(),
        9 => calls(),
        10 => late(),
        _ => return None,
    };
    Some(model.sorted())
}

fn empty(failed: usize, shared: usize, locals: [usize; 4]) -> Model {
    Model::new([16, 16, 8], failed, shared, &locals)
}

/// Adds rows drawn by `row` until the list has `count` different rows.
fn fill<const N: usize>(
    model: &mut Model,
    list: usize,
    count: usize,
    mut row: impl FnMut() -> [usize; N],
) {
    while model.lists[list].len() < count {
        let row = row().to_vec();
        if !model.lists[list].contains(&row) {
            model.lists[list].push(row);
        }
    }
}

/// Step rows that lead from each place to each other place below a thread's bound on its local
/// stores, and move the shared store from anywhere to anywhere; 64 pushes per thread, each to an
/// entry of its own, and 64 pops.
fn mixing(model: &mut Model, bounds: [usize; 4]) {
    for (t, locals) in bounds.into_iter().enumerate() {
        for g in 0..16 {
            for l in 0..16 {
                model.add(STEP, [t, g, l, (g + l) % 16, (l + 1) % locals]);
            }
            for i in 0..4 {
                let (l, f) = ((5 * g + i) % locals, (2 * g + i) % 8);
                model.add(PUSH, [t, g, l, 1 + 4 * i - i / 3, f]);
                model.add(POP, [t, g, 4 * i, f, (3 * g + i + t) % locals]);
            }
        }
    }
}

fn full() -> Model {
    let mut model = empty(0, 0, [0; 4]);
    mixing(&mut model, [16; 4]);
    let mut random = Random::new(1);
    fill(&mut model, ERROR, MOST[ERROR], || {
        [(); 5].map(|_| random.below(17))
    });
    model
}

fn dense() -> Model {
    let mut random = Random::new(2);
    let mut model = empty(0, 3, [0, 1, 2, 3]);
    for t in 0..4 {
        fill(&mut model, STEP, 256 * (t + 1), || {
            let [g, l, to, local] = [(); 4].map(|_| random.below(16));
            [t, g, l, to, local]
        });
        for g in 0..16 {
            for l in (0..4).map(|i| 4 * i + t) {
                model.add(PUSH, [t, g, random.below(16), l, random.below(8)]);
                model.add(POP, [t, g, l, random.below(8), random.below(16)]);
            }
        }
    }
    fill(&mut model, ERROR, MOST[ERROR], || {
        [(); 5].map(|_| 1 + random.below(16))
    });
    model
}

/// Local store 15 is never entered, and every error needs it.
fn dense_safe() -> Model {
    let mut model = empty(15 + 1, 0, [0; 4]);
    mixing(&mut model, [15; 4]);
    let mut random = Random::new(3);
    fill(&mut model, ERROR, MOST[ERROR], || {
        let mut row = [(); 5].map(|_| random.below(16));
        row[1 + random.below(4)] = 15 + 1;
        row
    });
    model
}

/// Thread 0 goes down through all 256 places, one after the other. The others wait until the
/// shared store is down at 0, then go down through their local stores. Calls go one place down.
fn chain() -> Model {
    let mut random = Random::new(4);
    let mut model = empty(0, 15, [15; 4]);
    for place in 1..256 {
        let next = place - 1;
        model.add(STEP, [0, place / 16, place % 16, next / 16, next % 16]);
    }
    for t in 0..4 {
        if t > 0 {
            for l in 1..16 {
                model.add(STEP, [t, 0, l, 0, l - 1]);
            }
        }
        // The rest stays where it is.
        let mut place = 0;
        fill(&mut model, STEP, 256 * (t + 1), || {
            place += 1;
            [t, place / 16, place % 16, place / 16, place % 16]
        });
        let mut row = 0;
        fill(&mut model, PUSH, 64 * (t + 1), || {
            row += 1;
            let (g, l) = (row % 16, 15 - row / 16);
            [t, g, l, l - 1, l % 8]
        });
        fill(&mut model, POP, 64 * (t + 1), || {
            [t, random.below(16), random.below(8), random.below(8), 0]
        });
    }
    fill(&mut model, ERROR, MOST[ERROR], || {
        [(); 5].map(|_| 1 + random.below(16))
    });
    model
}

/// Nearly all rows stand at local stores from 8 up, which nobody enters.
fn sparse() -> Model {
    let mut random = Random::new(5);
    let mut model = empty(15 + 1, 0, [0, 1, 2, 3]);
    for t in 0..4 {
        model.add(STEP, [t, t, t, t + 1, t + 1]);
        model.add(PUSH, [t, t + 1, t + 1, t + 2, t]);
        model.add(POP, [t, t + 1, t + 2, t, t + 3]);
    }
    fill(&mut model, STEP, MOST[STEP], || {
        let [g, l, to, local] = [16, 8, 16, 16].map(|bound| random.below(bound));
        [random.below(4), g, 8 + l, to, local]
    });
    fill(&mut model, PUSH, MOST[PUSH], || {
        let [t, g, l, local, f] = [4, 16, 8, 16, 8].map(|bound| random.below(bound));
        [t, g, 8 + l, local, f]
    });
    fill(&mut model, POP, MOST[POP], || {
        let [t, g, l, f, local] = [4, 16, 8, 8, 16].map(|bound| random.below(bound));
        [t, g, 8 + l, f, local]
    });
    fill(&mut model, ERROR, MOST[ERROR], || {
        let mut row = [17, 8, 8, 8, 8].map(|bound| random.below(bound));
        row[1 + random.below(4)] = 9 + random.below(8);
        row
    });
    model
}

fn random() -> Model {
    let mut random = Random::new(6);
    let mut model = empty(1 + random.below(16), random.below(16), [1, 3, 5, 7]);
    fill(&mut model, STEP, MOST[STEP], || {
        [4, 16, 16, 16, 16].map(|bound| random.below(bound))
    });
    fill(&mut model, PUSH, MOST[PUSH], || {
        [4, 16, 16, 16, 8].map(|bound| random.below(bound))
    });
    fill(&mut model, POP, MOST[POP], || {
        [4, 16, 16, 8, 16].map(|bound| random.below(bound))
    });
    fill(&mut model, ERROR, MOST[ERROR], || {
        [(); 5].map(|_| random.below(17))
    });
    model
}

/// At every fourth shared store a thread calls from each local store to the next one, at the
/// others it steps. Local store 15 returns to 15 in the caller, so that the outermost call is back
/// only after all inner ones, and goes on to the next shared store.
fn nested() -> Model {
    let mut random = Random::new(7);
    let mut model = empty(0, 0, [0; 4]);
    for t in 0..4 {
        for g in 0..16 {
            for l in 0..15 {
                if g % 4 == t {
                    model.add(PUSH, [t, g, l, l + 1, l % 8]);
                } else {
                    model.add(STEP, [t, g, l, g, l + 1]);
                }
            }
            model.add(STEP, [t, g, 15, (g + 1) % 16, 0]);
            if g % 4 == t {
                for f in 0..8 {
                    model.add(POP, [t, g, 15, f, 15]);
                }
            }
        }
        let mut place = 0;
        fill(&mut model, STEP, 256 * (t + 1), || {
            place += 1;
            [t, place / 16, place % 16, place / 16, place % 16]
        });
        fill(&mut model, PUSH, 64 * (t + 1), || {
            [t, 4 * random.below(4) + t, 15, 0, 7]
        });
        fill(&mut model, POP, 64 * (t + 1), || {
            [t, 4 * random.below(4) + t, 14, random.below(8), 15]
        });
    }
    fill(&mut model, ERROR, MOST[ERROR], || {
        [(); 5].map(|_| random.below(17))
    });
    model
}

/// All rows belong to thread 0; it enters a call at each of its places.
fn busy() -> Model {
    let mut random = Random::new(8);
    let mut model = empty(0, 0, [0, 5, 10, 15]);
    for g in 0..16 {
        for l in 0..16 {
            for i in 0..4 {
                let to = (g + l + 4 * i) % 16;
                model.add(STEP, [0, g, l, to, (l + i + 1) % 16]);
            }
            model.add(PUSH, [0, g, (l + 3) % 16, l, (g + l) % 8]);
            model.add(POP, [0, g, l, (g + 2 * l) % 8, (l + 5) % 16]);
        }
    }
    fill(&mut model, ERROR, MOST[ERROR], || {
        [(); 5].map(|_| random.below(17))
    });
    model
}

/// As the training table, with g = 3*m + x for x in 0..3, and with acquire and release in calls.
/// Rows at local stores 12 to 14, which nobody enters, fill the lists.
fn calls() -> Model {
    let mut random = Random::new(9);
    let mut model = empty(15 + 1, 1, [0; 4]);
    for t in 0..4 {
        for g in 0..16 {
            let (m, x) = (g / 3, g % 3);
            model.add(PUSH, [t, g, 0, 8, 0]);
            if m == 0 {
                model.add(STEP, [t, g, 8, 3 * (t + 1) + x, 9]);
            }
            model.add(POP, [t, g, 9, 0, 1]);
            model.add(STEP, [t, g, 1, 3 * m, 2]);
            if x < 2 && g < 15 {
                model.add(STEP, [t, g, 2, g + 1, 3]);
            }
            model.add(STEP, [t, g, 3, g, if x > 0 { 4 } else { 15 }]);
            model.add(PUSH, [t, g, 4, 10, 1]);
            model.add(STEP, [t, g, 10, x, 11]);
            model.add(POP, [t, g, 11, 1, 5]);
            model.add(STEP, [t, g, 5, g, 0]);
        }
        fill(&mut model, STEP, 256 * (t + 1), || {
            let [g, l, to, local] = [16, 3, 16, 16].map(|bound| random.below(bound));
            [t, g, 12 + l, to, local]
        });
        fill(&mut model, PUSH, 64 * (t + 1), || {
            let [g, l, local, f] = [16, 3, 16, 8].map(|bound| random.below(bound));
            [t, g, 12 + l, local, f]
        });
        fill(&mut model, POP, 64 * (t + 1), || {
            let [g, l, f, local] = [16, 3, 8, 16].map(|bound| random.below(bound));
            [t, g, 12 + l, f, local]
        });
    }
    for (a, b) in [(0, 1), (0, 2), (0, 3), (1, 2), (1, 3), (2, 3)] {
        for (here, there) in (1..4).flat_map(|k| (1..4).map(move |m| (k, m))) {
            let mut row = [0; 5];
            row[1 + a] = here + 1;
            row[1 + b] = there + 1;
            model.add(ERROR, row);
        }
    }
    model.add(ERROR, [1, 0, 0, 0, 0]);
    fill(&mut model, ERROR, MOST[ERROR], || {
        [1 + random.below(16), 0, 0, 13 + random.below(3), 0]
    });
    model
}

/// Only thread 3 never enters local store 15. All error rows but the last need it there.
fn late() -> Model {
    let mut model = empty(0, 0, [0; 4]);
    mixing(&mut model, [16, 16, 16, 15]);
    for i in 0..MOST[ERROR] - 1 {
        model.add(ERROR, [i / 4, 0, 0, i % 4, 15 + 1]);
    }
    model.add(ERROR, [16, 16, 16, 16, 15]);
    model
}
