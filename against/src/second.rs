//! The same three calls written once more, in other ways on purpose, to test the reference:
//! - all numbers of a file are taken apart first, then asked what they count;
//! - the relations are computed as sets of places per thread and entry, Q only at the end from the
//!   calls (every Q fact is a call and a P fact of the place it enters);
//! - the verdict goes through all lists of local stores;
//! - a claim is judged backward: for each fact that is not claimed, whether a rule yields it.

use crate::answer::{Answer, Calls, Verdict, Witness};
use std::collections::{BTreeMap, BTreeSet};
use std::ops::Range;

pub const CALLS: Calls = Calls {
    name: "second implementation",
    check,
    write_claim,
    check_claim,
};

type Refused = (u8, usize);

fn check(table: &[u8], memory: &mut [u8], budget: usize) -> Answer {
    match run(table, memory, budget) {
        Ok((facts, verdict)) => {
            settle(memory, facts.total, &facts.positions);
            reply((0, facts.positions.len()), 0, Some(verdict), None)
        }
        Err(refused) => refuse(refused, memory, table),
    }
}

fn write_claim(table: &[u8], memory: &mut [u8], budget: usize, space: &mut [u8]) -> Answer {
    let (facts, verdict) = match run(table, memory, budget) {
        Ok(found) => found,
        Err(refused) => return refuse(refused, memory, table),
    };
    let mut numbers = vec![1, facts.positions.len()];
    numbers.extend(facts.positions.first());
    for pair in facts.positions.windows(2) {
        numbers.push(pair[1] - pair[0]);
    }
    let mut claim = Vec::new();
    for number in numbers {
        let groups = (1..4).take_while(|i| number >> (7 * i) > 0).count();
        for i in 0..=groups {
            let more = if i < groups { 128 } else { 0 };
            claim.push((number >> (7 * i) & 127) as u8 | more);
        }
    }
    if claim.len() > space.len() {
        return refuse((12, claim.len()), memory, table);
    }
    settle(memory, facts.total, &facts.positions);
    for (i, byte) in claim.iter().enumerate() {
        space[i] = *byte;
    }
    reply(
        (0, facts.positions.len()),
        0,
        Some(verdict),
        Some(claim.len()),
    )
}

fn check_claim(table_bytes: &[u8], claim: &[u8], memory: &mut [u8]) -> Answer {
    let table = match read(table_bytes) {
        Ok(table) => table,
        Err(refused) => return reply(refused, 0, None, None),
    };
    let total = table.total();
    if memory.len() < total {
        return reply((7, total), 0, None, None);
    }
    let positions = match read_claim(claim, total) {
        Ok(positions) => positions,
        Err(refused) => return reply(refused, 1, None, None),
    };
    let mut held = vec![false; total];
    for &position in &positions {
        held[position] = true;
    }
    match judge(&table, &held) {
        Ok(()) => {
            settle(memory, total, &positions);
            reply((0, positions.len()), 0, None, None)
        }
        Err(refused) => refuse(refused, memory, table_bytes),
    }
}

fn reply(
    (number, value): Refused,
    origin: u8,
    verdict: Option<Verdict>,
    written: Option<usize>,
) -> Answer {
    Answer {
        number,
        origin,
        value,
        verdict,
        written,
    }
}

/// A refusal with what it does to the memory: 8 and more clear it.
fn refuse(refused: Refused, memory: &mut [u8], table: &[u8]) -> Answer {
    if refused.0 >= 8 {
        let total = read(table).map_or(0, |table| table.total());
        settle(memory, total, &[]);
    }
    reply(refused, 0, None, None)
}

fn settle(memory: &mut [u8], total: usize, positions: &[usize]) {
    memory[..total].iter_mut().for_each(|byte| *byte = 0);
    positions.iter().for_each(|&position| memory[position] = 1);
}

// Reading.

/// A file taken apart: its numbers with the place of each, where that stopped, and why.
struct Apart {
    numbers: Vec<(usize, usize)>,
    stop: usize,
    why: Refused,
    next: usize,
}

impl Apart {
    fn new(bytes: &[u8]) -> Self {
        let mut numbers = Vec::new();
        let mut stop = 0;
        let why = loop {
            let rest = &bytes[stop..];
            let four = &rest[..rest.len().min(4)];
            match four.iter().position(|byte| *byte < 128) {
                None if four.len() == 4 => break (2, stop),
                None => break (1, bytes.len()),
                Some(last) if last > 0 && four[last] == 0 => break (2, stop),
                Some(last) => {
                    let groups = four[..=last].iter().rev();
                    let number = groups.fold(0, |sum, byte| sum * 128 + usize::from(byte % 128));
                    numbers.push((number, stop));
                    stop += last + 1;
                }
            }
        };
        Apart {
            numbers,
            stop,
            why,
            next: 0,
        }
    }

    fn place(&self) -> usize {
        self.numbers
            .get(self.next)
            .map_or(self.stop, |number| number.1)
    }

    fn take(&mut self, range: Range<usize>) -> Result<usize, Refused> {
        let (number, place) = *self.numbers.get(self.next).ok_or(self.why)?;
        self.next += 1;
        match range.contains(&number) {
            true => Ok(number),
            false => Err((4, place)),
        }
    }

    fn version(&mut self) -> Result<(), Refused> {
        match self.take(0..usize::MAX)? {
            1 => Ok(()),
            _ => Err((3, 0)),
        }
    }

    fn finish(&self, bytes: &[u8]) -> Result<(), Refused> {
        match self.place() {
            end if end == bytes.len() => Ok(()),
            more => Err((6, more)),
        }
    }
}

struct Table {
    n: usize,
    g: usize,
    l: usize,
    f: usize,
    failed: usize,
    start: Vec<Place>,
    lists: Vec<Vec<Vec<usize>>>,
}

type Place = (usize, usize);

fn read(bytes: &[u8]) -> Result<Table, Refused> {
    let mut apart = Apart::new(bytes);
    apart.version()?;
    let n = apart.take(1..5)?;
    let g = apart.take(1..17)?;
    let l = apart.take(1..17)?;
    let f = apart.take(0..9)?;
    let failed = apart.take(0..l + 1)?;
    let shared = apart.take(0..g)?;
    let mut start = Vec::new();
    while start.len() < n {
        start.push((shared, apart.take(0..l)?));
    }
    let error: Vec<usize> = (0..=n)
        .map(|i| if i == 0 { g + 1 } else { l + 1 })
        .collect();
    let kinds = [
        (1024, vec![n, g, l, g, l]),
        (256, vec![n, g, l, l, f]),
        (256, vec![n, g, l, f, l]),
        (64, error),
    ];
    let mut lists = Vec::new();
    for (most, columns) in kinds {
        let mut list: Vec<Vec<usize>> = Vec::new();
        for _ in 0..apart.take(0..most + 1)? {
            let place = apart.place();
            let mut row = Vec::new();
            for &column in &columns {
                row.push(apart.take(0..column)?);
            }
            match list.last() {
                Some(before) if before >= &row => return Err((5, place)),
                _ => list.push(row),
            }
        }
        lists.push(list);
    }
    apart.finish(bytes)?;
    Ok(Table {
        n,
        g,
        l,
        f,
        failed,
        start,
        lists,
    })
}

fn read_claim(bytes: &[u8], total: usize) -> Result<Vec<usize>, Refused> {
    let mut apart = Apart::new(bytes);
    apart.version()?;
    let count = apart.take(0..total + 1)?;
    let mut positions = Vec::new();
    let mut allowed = 0..total;
    let mut sum = 0;
    for _ in 0..count {
        sum += apart.take(allowed)?;
        positions.push(sum);
        allowed = 1..total - sum;
    }
    apart.finish(bytes)?;
    Ok(positions)
}

impl Table {
    fn total(&self) -> usize {
        self.n * self.g * self.g * (1 + self.l * self.l * (1 + self.f))
    }

    fn at_g(&self, t: usize, from: usize, to: usize) -> usize {
        (t * self.g + from) * self.g + to
    }

    fn at_p(&self, t: usize, (g, l): Place, (g2, l2): Place) -> usize {
        self.n * self.g * self.g + (((t * self.g + g) * self.l + l) * self.g + g2) * self.l + l2
    }

    fn at_q(&self, t: usize, (g, l): Place, f: usize, (g2, l2): Place) -> usize {
        self.n * self.g * self.g * (1 + self.l * self.l)
            + ((((t * self.g + g) * self.l + l) * self.f + f) * self.g + g2) * self.l
            + l2
    }

    fn places(&self) -> impl Iterator<Item = Place> + '_ {
        (0..self.g).flat_map(|g| (0..self.l).map(move |l| (g, l)))
    }
}

// The relations.

/// Where P facts lead from an entry of a thread.
type Reach = BTreeMap<(usize, Place), BTreeSet<Place>>;

struct Facts {
    total: usize,
    positions: Vec<usize>,
}

fn run(bytes: &[u8], memory: &[u8], budget: usize) -> Result<(Facts, Verdict), Refused> {
    let table = read(bytes)?;
    let total = table.total();
    if memory.len() < total {
        return Err((7, total));
    }
    let (moves, reach) = relations(&table);
    let mut positions = Vec::new();
    for &(t, from, to) in &moves {
        positions.push(table.at_g(t, from, to));
    }
    for (&(t, a), ends) in &reach {
        positions.extend(ends.iter().map(|&b| table.at_p(t, a, b)));
    }
    let mut calls = BTreeSet::new();
    for (&(t, a), ends) in &reach {
        for row in &table.lists[1] {
            if row[0] == t && ends.contains(&(row[1], row[2])) {
                calls.insert((t, a, row[4], (row[1], row[3])));
            }
        }
    }
    let mut inside = vec![false; total];
    for &(t, a, f, entry) in &calls {
        for &b in &reach[&(t, entry)] {
            inside[table.at_q(t, a, f, b)] = true;
        }
    }
    positions.extend((0..total).filter(|&i| inside[i]));
    positions.sort();
    if positions.len() > budget {
        return Err((8, budget));
    }
    let mut held = vec![false; total];
    positions.iter().for_each(|&i| held[i] = true);
    let verdict = verdict(&table, &held);
    Ok((Facts { total, positions }, verdict))
}

/// G and P: every entry is followed as far as it goes, until a whole round finds nothing new.
fn relations(table: &Table) -> (BTreeSet<(usize, usize, usize)>, Reach) {
    let mut rows_at = [(); 3].map(|_| BTreeMap::<_, Vec<&Vec<usize>>>::new());
    for (list, rows_at) in rows_at.iter_mut().enumerate() {
        for row in &table.lists[list] {
            rows_at
                .entry((row[0], (row[1], row[2])))
                .or_default()
                .push(row);
        }
    }
    let rows = |list: usize, t: usize, at: Place| rows_at[list].get(&(t, at)).into_iter().flatten();

    let mut moves = BTreeSet::new();
    let mut reach = Reach::new();
    for (t, &at) in table.start.iter().enumerate() {
        reach.insert((t, at), BTreeSet::from([at]));
    }
    loop {
        let size = |reach: &Reach| reach.values().map(BTreeSet::len).sum::<usize>();
        let before = (moves.len(), size(&reach));
        for (t, a) in reach.keys().copied().collect::<Vec<_>>() {
            let mut ends = reach[&(t, a)].clone();
            let mut todo: Vec<Place> = ends.iter().copied().collect();
            while let Some((g, l)) = todo.pop() {
                let mut found = Vec::new();
                for e in 0..table.n {
                    if e != t {
                        let moved = moves.range((e, g, 0)..(e, g + 1, 0));
                        found.extend(moved.map(|&(_, _, to)| (to, l)));
                    }
                }
                for row in rows(0, t, (g, l)) {
                    moves.insert((t, g, row[3]));
                    found.push((row[3], row[4]));
                }
                for call in rows(1, t, (g, l)) {
                    let entry = (g, call[3]);
                    let callee = reach.entry((t, entry)).or_insert(BTreeSet::from([entry]));
                    for &at in callee.iter() {
                        let back = rows(2, t, at).filter(|row| row[3] == call[4]);
                        found.extend(back.map(|row| (at.0, row[4])));
                    }
                }
                todo.extend(found.into_iter().filter(|&place| ends.insert(place)));
            }
            reach.entry((t, a)).or_default().extend(ends);
        }
        if before == (moves.len(), size(&reach)) {
            return (moves, reach);
        }
    }
}

/// The verdict, through all rows, shared stores and lists of local stores in order.
fn verdict(table: &Table, held: &[bool]) -> Verdict {
    let mut reached = vec![false; table.n * table.g * table.l];
    for t in 0..table.n {
        for a in table.places() {
            for b in table.places() {
                reached[(t * table.g + b.0) * table.l + b.1] |= held[table.at_p(t, a, b)];
            }
        }
    }
    for row in 0..=table.lists[3].len() {
        for shared in 0..table.g {
            for list in 0..table.l.pow(table.n as u32) {
                let local = |t: usize| list / table.l.pow((table.n - 1 - t) as u32) % table.l;
                let erroneous = if row == 0 {
                    (0..table.n).any(|t| local(t) + 1 == table.failed)
                } else {
                    let cells = &table.lists[3][row - 1];
                    [0, shared + 1].contains(&cells[0])
                        && (0..table.n).all(|t| [0, local(t) + 1].contains(&cells[1 + t]))
                };
                if erroneous
                    && (0..table.n).all(|t| reached[(t * table.g + shared) * table.l + local(t)])
                {
                    let locals = (0..table.n).map(local).collect();
                    return Verdict::Possible(Witness {
                        row,
                        shared,
                        locals,
                    });
                }
            }
        }
    }
    Verdict::Safe
}

// Claims.

/// Refusals 9 to 11.
fn judge(table: &Table, held: &[bool]) -> Result<(), Refused> {
    for (t, &at) in table.start.iter().enumerate() {
        if !held[table.at_p(t, at, at)] {
            return Err((9, t));
        }
    }
    if let Some(position) = first_lacking(table, held) {
        return Err((10, position));
    }
    match verdict(table, held) {
        Verdict::Safe => Ok(()),
        Verdict::Possible(witness) => Err((11, witness.row)),
    }
}

/// The first fact, in the order of positions, that is not held and that a rule yields.
fn first_lacking(table: &Table, held: &[bool]) -> Option<usize> {
    let [steps, pushes, pops] = [0, 1, 2].map(|list| &table.lists[list]);
    let p = |t, a, b| held[table.at_p(t, a, b)];
    let q = |t, a, f, b| held[table.at_q(t, a, f, b)];
    let reached = |t, b| table.places().any(|a| p(t, a, b));
    let moved = |t, from, to| (0..table.n).any(|e| e != t && held[table.at_g(e, from, to)]);

    for t in 0..table.n {
        for from in 0..table.g {
            for to in 0..table.g {
                let position = table.at_g(t, from, to);
                let step = |row: &Vec<usize>| {
                    row[0] == t && row[1] == from && row[3] == to && reached(t, (from, row[2]))
                };
                if !held[position] && steps.iter().any(step) {
                    return Some(position);
                }
            }
        }
    }
    for t in 0..table.n {
        for a in table.places() {
            for b in table.places() {
                let position = table.at_p(t, a, b);
                let (g, l) = b;
                let moved = |from| p(t, a, (from, l)) && moved(t, from, g);
                let step = |row: &Vec<usize>| {
                    row[0] == t && (row[3], row[4]) == b && p(t, a, (row[1], row[2]))
                };
                let entered = |row: &Vec<usize>| {
                    row[0] == t && (row[1], row[3]) == b && reached(t, (row[1], row[2]))
                };
                let popped = |row: &Vec<usize>| {
                    row[0] == t && (row[1], row[4]) == b && q(t, a, row[3], (g, row[2]))
                };
                if !held[position]
                    && ((0..table.g).any(moved)
                        || steps.iter().any(step)
                        || (a == b && pushes.iter().any(entered))
                        || pops.iter().any(popped))
                {
                    return Some(position);
                }
            }
        }
    }
    for t in 0..table.n {
        for a in table.places() {
            for f in 0..table.f {
                for c in table.places() {
                    let position = table.at_q(t, a, f, c);
                    let (g, l) = c;
                    let moved = |from| q(t, a, f, (from, l)) && moved(t, from, g);
                    let pushed = |row: &Vec<usize>| {
                        row[0] == t && (row[1], row[3], row[4]) == (g, l, f) && p(t, a, (g, row[2]))
                    };
                    if !held[position]
                        && ((0..table.g).any(moved)
                            || pushes.iter().any(pushed)
                            || table.places().any(|b| q(t, a, f, b) && p(t, b, c)))
                    {
                        return Some(position);
                    }
                }
            }
        }
    }
    None
}
