//! Facts, their positions, and the seven rules as a walk over all rows for each fact.
//!
//! A place is a pair (g, l) written as the one number g*L + l.

use super::Table;

#[derive(Clone, Copy)]
enum Fact {
    G {
        t: usize,
        from: usize,
        to: usize,
    },
    P {
        t: usize,
        a: usize,
        b: usize,
    },
    Q {
        t: usize,
        a: usize,
        f: usize,
        b: usize,
    },
}

impl Table {
    /// The number of places (g, l).
    fn places(&self) -> usize {
        self.shared * self.locals
    }

    fn place(&self, g: u8, l: u8) -> usize {
        usize::from(g) * self.locals + usize::from(l)
    }

    /// Where the P facts begin, and where the Q facts begin.
    fn starts(&self) -> (usize, usize) {
        let p = self.threads * self.shared * self.shared;
        (p, p + self.threads * self.places() * self.places())
    }

    /// W, the number of positions.
    pub fn total(&self) -> usize {
        let (p, q) = self.starts();
        q + (q - p) * self.frames
    }

    fn g(&self, t: usize, from: usize, to: usize) -> usize {
        (t * self.shared + from) * self.shared + to
    }

    pub fn p(&self, t: usize, a: usize, b: usize) -> usize {
        self.starts().0 + (t * self.places() + a) * self.places() + b
    }

    fn q(&self, t: usize, a: usize, f: usize, b: usize) -> usize {
        self.starts().1 + ((t * self.places() + a) * self.frames + f) * self.places() + b
    }

    /// The start fact of a thread.
    pub fn start(&self, t: usize) -> usize {
        let place = self.first_shared * self.locals + self.first_locals[t];
        self.p(t, place, place)
    }

    fn fact(&self, position: usize) -> Fact {
        let (p, q) = self.starts();
        let places = self.places();
        if position < p {
            let (rest, to) = (position / self.shared, position % self.shared);
            let (t, from) = (rest / self.shared, rest % self.shared);
            Fact::G { t, from, to }
        } else if position < q {
            let (rest, b) = ((position - p) / places, (position - p) % places);
            let (t, a) = (rest / places, rest % places);
            Fact::P { t, a, b }
        } else {
            let (rest, b) = ((position - q) / places, (position - q) % places);
            let (rest, f) = (rest / self.frames, rest % self.frames);
            let (t, a) = (rest / places, rest % places);
            Fact::Q { t, a, f, b }
        }
    }
}

/// The positions of the facts that hold.
pub fn positions(facts: &[u8]) -> impl Iterator<Item = usize> + '_ {
    (0..facts.len()).filter(|&position| facts[position] == 1)
}

/// Leaves the least relations in memory full of zeros and gives their number, or `None` as soon
/// as there are more facts than the budget.
pub fn least(table: &Table, facts: &mut [u8], budget: usize) -> Option<usize> {
    let mut work = Vec::new();
    for t in 0..table.threads {
        facts[table.start(t)] = 1;
        work.push(table.start(t));
    }
    close(table, facts, work, budget)
}

/// Adds all that the rules yield. `work` is the facts that hold so far, each once; afterwards each
/// further fact is taken up once too. Gives the number of facts, or `None` if it passes the budget.
pub fn close(
    table: &Table,
    facts: &mut [u8],
    mut work: Vec<usize>,
    budget: usize,
) -> Option<usize> {
    let mut count = work.len();
    let mut new = Vec::new();
    while let Some(position) = work.pop() {
        missing(table, facts, position, &mut new);
        for yielded in new.drain(..) {
            if facts[yielded] == 0 {
                facts[yielded] = 1;
                work.push(yielded);
                count += 1;
            }
        }
        if count > budget {
            return None;
        }
    }
    (count <= budget).then_some(count)
}

/// Puts into `new` what one use of a rule yields from the facts that hold, with the fact at
/// `position` among its premises, and does not hold yet.
pub fn missing(table: &Table, facts: &[u8], position: usize, new: &mut Vec<usize>) {
    let holds = |position: usize| facts[position] == 1;
    let mut yields = |position: usize| {
        if facts[position] == 0 {
            new.push(position);
        }
    };
    let shift = |g: usize, b: usize| g * table.locals + b % table.locals;
    match table.fact(position) {
        Fact::G { t: e, from, to } => {
            for t in (0..table.threads).filter(|&t| t != e) {
                for a in 0..table.places() {
                    for b in shift(from, 0)..shift(from + 1, 0) {
                        // Rule 2.
                        if holds(table.p(t, a, b)) {
                            yields(table.p(t, a, shift(to, b)));
                        }
                        // Rule 3.
                        for f in 0..table.frames {
                            if holds(table.q(t, a, f, b)) {
                                yields(table.q(t, a, f, shift(to, b)));
                            }
                        }
                    }
                }
            }
        }
        Fact::P { t, a, b } => {
            let here =
                |row: &&[u8; 5]| usize::from(row[0]) == t && table.place(row[1], row[2]) == b;
            // Rule 2.
            for e in (0..table.threads).filter(|&e| e != t) {
                for to in 0..table.shared {
                    if holds(table.g(e, b / table.locals, to)) {
                        yields(table.p(t, a, shift(to, b)));
                    }
                }
            }
            // Rule 4.
            for &[_, g, _, to, l] in table.steps.iter().filter(here) {
                yields(table.p(t, a, table.place(to, l)));
                yields(table.g(t, usize::from(g), usize::from(to)));
            }
            // Rule 5.
            for &[_, g, _, l, f] in table.pushes.iter().filter(here) {
                let entry = table.place(g, l);
                yields(table.q(t, a, usize::from(f), entry));
                yields(table.p(t, entry, entry));
            }
            // Rule 6, as its second premise.
            for caller in 0..table.places() {
                for f in 0..table.frames {
                    if holds(table.q(t, caller, f, a)) {
                        yields(table.q(t, caller, f, b));
                    }
                }
            }
        }
        Fact::Q { t, a, f, b } => {
            // Rule 3.
            for e in (0..table.threads).filter(|&e| e != t) {
                for to in 0..table.shared {
                    if holds(table.g(e, b / table.locals, to)) {
                        yields(table.q(t, a, f, shift(to, b)));
                    }
                }
            }
            // Rule 6, as its first premise.
            for c in 0..table.places() {
                if holds(table.p(t, b, c)) {
                    yields(table.q(t, a, f, c));
                }
            }
            // Rule 7.
            for &[thread, g, l, frame, to] in &table.pops {
                if usize::from(thread) == t && table.place(g, l) == b && usize::from(frame) == f {
                    yields(table.p(t, a, table.place(g, to)));
                }
            }
        }
    }
}

/// A fact's line in the listing.
pub fn fact_line(table: &Table, position: usize) -> String {
    let pair = |place: usize| format!("{} {}", place / table.locals, place % table.locals);
    match table.fact(position) {
        Fact::G { t, from, to } => format!("G {t} {from} {to}\n"),
        Fact::P { t, a, b } => format!("P {t} {} {}\n", pair(a), pair(b)),
        Fact::Q { t, a, f, b } => format!("Q {t} {} {f} {}\n", pair(a), pair(b)),
    }
}
