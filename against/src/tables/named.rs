//! The tables of document 01 and the lookup by name.

use super::{near, Model, ERROR, POP, PUSH, STEP};

/// A table by the name the command line takes.
pub fn by_name(name: &str) -> Option<Model> {
    match name {
        "recursion" => Some(recursion()),
        "smallest" => Some(smallest()),
        "training" => Some(training()),
        "mutex" => Some(mutex()),
        _ => near(name.strip_prefix("near")?.parse().ok()?),
    }
}

/// One thread that calls itself.
pub fn recursion() -> Model {
    let mut model = Model::new([2, 2, 1], 0, 0, &[0]);
    model.add(STEP, [0, 0, 0, 1, 1]);
    model.add(PUSH, [0, 0, 0, 0, 0]);
    model.add(POP, [0, 1, 1, 0, 1]);
    model.add(ERROR, [2, 1]);
    model
}

/// One thread, one store of each kind, no rows.
pub fn smallest() -> Model {
    Model::new([1, 1, 0], 0, 0, &[0])
}

/// 004's Simple for three threads, the mutex holding the number of its owner.
pub fn training() -> Model {
    let mut model = simple(3, 3, |t| t + 1);
    for (a, b) in [(0, 1), (0, 2), (1, 2)] {
        for (here, there) in (1..4).flat_map(|k| (1..4).map(move |m| (k, m))) {
            let mut row = [0; 4];
            row[1 + a] = here + 1;
            row[1 + b] = there + 1;
            model.add(ERROR, row);
        }
    }
    model.add(ERROR, [1, 0, 0, 0]);
    model.sorted()
}

/// The same for two threads with a mutex that is only taken or free.
pub fn mutex() -> Model {
    simple(2, 1, |_| 1)
}

/// 004's Simple with g = 2*m + x, the mutex m up to `marks`, and `mark` for the one a thread sets.
fn simple(threads: usize, marks: usize, mark: fn(usize) -> usize) -> Model {
    let shared = 2 * (marks + 1);
    let mut model = Model::new([shared, 7, 0], 6 + 1, 1, &vec![0; threads]);
    for t in 0..threads {
        for g in 0..shared {
            let (m, x) = (g / 2, g % 2);
            if m == 0 {
                model.add(STEP, [t, g, 0, 2 * mark(t) + x, 1]);
            }
            model.add(STEP, [t, g, 1, 2 * m, 2]);
            if x == 0 {
                model.add(STEP, [t, g, 2, g + 1, 3]);
            }
            model.add(STEP, [t, g, 3, g, if x == 1 { 4 } else { 6 }]);
            model.add(STEP, [t, g, 4, x, 5]);
        }
    }
    model.sorted()
}
