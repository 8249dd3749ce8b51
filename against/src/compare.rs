//! The comparison: two implementations get the same calls, and every answer and every byte of the
//! lent memory and of guard bytes around it has to agree.

use crate::answer::{Answer, Calls, Verdict};
use crate::reference::{self, read_table, Table};
use crate::tables::{
    bytes_of, claim_numbers, damaged_claim, damaged_table, grown_claim, mutex, near, recursion,
    smallest, sound, training, Model, Random, NEAR,
};

/// Bytes on each side of what is lent, more in front so that the lent part is not aligned.
const FRONT: usize = 19;
const BACK: usize = 16;

/// How far around what a table takes every budget and every length is tried.
const AROUND: usize = 24;

/// How a comparison ended.
pub struct Tally {
    pub compared: usize,
    pub differ: usize,
    /// How often each answer came back from a check, a claim writing, a claim check.
    pub answers: [[usize; 3]; 13],
    /// How often the verdict was "possible".
    pub possible: usize,
    /// The first differences, in words.
    pub notes: Vec<String>,
}

/// One call with its inputs.
#[derive(Clone, Debug)]
pub struct Case {
    pub table: Vec<u8>,
    /// Bytes of working memory lent.
    pub memory: usize,
    pub call: Call,
    /// What the lent memory holds before comes from this seed.
    pub dirt: u64,
}

#[derive(Clone, Debug)]
pub enum Call {
    Check { budget: usize },
    WriteClaim { budget: usize, space: usize },
    CheckClaim { claim: Vec<u8> },
}

/// What a call gave back and left behind, guard bytes too.
#[derive(PartialEq, Eq)]
struct Outcome {
    answer: Answer,
    memory: Vec<u8>,
    space: Vec<u8>,
}

/// Compares two implementations on all calls at the edges of the document's own tables, then on
/// `count` calls drawn from the seed.
pub fn compare(one: Calls, two: Calls, seed: u64, count: usize) -> Tally {
    let mut random = Random::new(seed);
    let mut tally = Tally {
        compared: 0,
        differ: 0,
        answers: [[0; 3]; 13],
        possible: 0,
        notes: Vec::new(),
    };
    for model in [smallest(), recursion(), training(), mutex()] {
        for case in Base::new(model).edges() {
            tally.add(one, two, &case);
        }
    }
    let count = tally.compared + count;
    for turn in 0.. {
        // Of 300 tables one is near the limits and two have any size up to them.
        let (model, calls) = match (turn % 300, random.below(8)) {
            (150, _) => {
                let which = 1 + (seed as usize % NEAR.len() + turn / 300) % NEAR.len();
                (near(which).expect("there are ten"), 3)
            }
            (50 | 250, _) => (sound(&mut random, 3), 5),
            (_, 0) => (sound(&mut random, 2), 15),
            (_, 1..6) => (sound(&mut random, 1), 40),
            _ => (sound(&mut random, 0), 25),
        };
        let base = Base::new(model);
        for _ in 0..calls.min(count - tally.compared) {
            let case = base.case(&mut random);
            tally.add(one, two, &case);
        }
        if tally.compared == count {
            break;
        }
    }
    tally
}

impl Tally {
    fn add(&mut self, one: Calls, two: Calls, case: &Case) {
        let a = outcome(one, case);
        let b = outcome(two, case);
        self.compared += 1;
        let kind = match case.call {
            Call::Check { .. } => 0,
            Call::WriteClaim { .. } => 1,
            Call::CheckClaim { .. } => 2,
        };
        self.answers[usize::from(a.answer.number)][kind] += 1;
        self.possible += usize::from(matches!(a.answer.verdict, Some(Verdict::Possible(_))));
        if a == b {
            return;
        }
        self.differ += 1;
        if self.notes.len() < 5 {
            let byte = |a: &[u8], b: &[u8]| (0..a.len()).find(|&i| a[i] != b[i]);
            self.notes.push(format!(
                "{}: {:?}\n{}: {:?}\nfirst differing byte (guard of {FRONT} in front): memory {:?}, space {:?}\n{case:?}",
                one.name,
                a.answer,
                two.name,
                b.answer,
                byte(&a.memory, &b.memory),
                byte(&a.space, &b.space),
            ));
        }
    }
}

/// Makes a call with dirty memory and guard bytes on both sides.
fn outcome(calls: Calls, case: &Case) -> Outcome {
    let mut memory = dirty(case.dirt, case.memory);
    let mut space = Vec::new();
    let lent = FRONT..FRONT + case.memory;
    let answer = match &case.call {
        Call::Check { budget } => (calls.check)(&case.table, &mut memory[lent], *budget),
        Call::WriteClaim {
            budget,
            space: length,
        } => {
            space = dirty(case.dirt + 1, *length);
            let room = &mut space[FRONT..FRONT + length];
            (calls.write_claim)(&case.table, &mut memory[lent], *budget, room)
        }
        Call::CheckClaim { claim } => (calls.check_claim)(&case.table, claim, &mut memory[lent]),
    };
    Outcome {
        answer,
        memory,
        space,
    }
}

/// `length` bytes and the guards: by the seed all 0, all 1, or random.
fn dirty(seed: u64, length: usize) -> Vec<u8> {
    let mut random = Random::new(seed);
    let length = FRONT + length + BACK;
    match seed % 8 {
        0 => vec![0; length],
        1 => vec![1; length],
        _ => {
            let words = (0..length.div_ceil(8)).flat_map(|_| random.word().to_le_bytes());
            words.take(length).collect()
        }
    }
}

/// A sound table with what the reference finds for it, to draw calls from.
struct Base {
    model: Model,
    file: Vec<u8>,
    table: Table,
    facts: Vec<u8>,
    positions: Vec<usize>,
    claim: Vec<u8>,
}

impl Base {
    fn new(model: Model) -> Self {
        let file = model.bytes();
        let table = read_table(&file).expect("the table is sound");
        let mut facts = vec![0; model.total()];
        reference::check(&file, &mut facts, usize::MAX);
        let positions: Vec<usize> = (0..facts.len()).filter(|&i| facts[i] == 1).collect();
        let claim = bytes_of(&claim_numbers(&positions));
        Base {
            model,
            file,
            table,
            facts,
            positions,
            claim,
        }
    }

    /// Every length of memory, every budget and every space around what the table takes, and the
    /// table and its claim cut at every byte.
    fn edges(&self) -> Vec<Case> {
        let [memory, budget, space] = [self.facts.len(), self.positions.len(), self.claim.len()];
        let around = |number: usize| number.saturating_sub(AROUND)..=number + AROUND;
        let claim = &self.claim;
        let mut cases = Vec::new();
        let mut add = |file: &[u8], memory, call| {
            cases.push(Case {
                table: file.to_vec(),
                memory,
                call,
                dirt: cases.len() as u64,
            })
        };
        for memory in around(memory) {
            let claim = claim.clone();
            add(&self.file, memory, Call::Check { budget });
            add(&self.file, memory, Call::WriteClaim { budget, space });
            add(&self.file, memory, Call::CheckClaim { claim });
        }
        for budget in around(budget) {
            add(&self.file, memory, Call::Check { budget });
            add(&self.file, memory, Call::WriteClaim { budget, space });
        }
        for space in around(space) {
            add(&self.file, memory, Call::WriteClaim { budget, space });
        }
        for cut in 0..self.file.len() {
            add(&self.file[..cut], memory, Call::Check { budget });
        }
        for cut in 0..claim.len() {
            let claim = claim[..cut].to_vec();
            add(&self.file, memory, Call::CheckClaim { claim });
        }
        cases
    }

    /// A call with this table or a damaged one.
    fn case(&self, random: &mut Random) -> Case {
        let total = self.model.total();
        let damaged = random.once_in(3);
        let table = if damaged {
            damaged_table(random, &self.model)
        } else if random.once_in(50) {
            (0..random.below(30))
                .map(|_| random.word() as u8 % 8)
                .collect()
        } else {
            self.file.clone()
        };
        let memory = match random.below(12) {
            0 => total - 1,
            1 => random.below(total),
            2 => total + 1,
            3..6 => total + random.below(200),
            6 | 7 if damaged => 2 * total,
            _ => total,
        };
        let call = match random.below(8) {
            0..2 => Call::Check {
                budget: self.budget(random),
            },
            2..4 => Call::WriteClaim {
                budget: self.budget(random),
                space: around(random, self.claim.len()),
            },
            _ => Call::CheckClaim {
                claim: self.some_claim(random),
            },
        };
        Case {
            table,
            memory,
            call,
            dirt: random.word() >> 1,
        }
    }

    fn budget(&self, random: &mut Random) -> usize {
        match random.below(4) {
            0 => around(random, self.positions.len()),
            1 => self.positions.len(),
            2 => self.model.total(),
            _ => 0xFFFF_FFFF,
        }
    }

    fn some_claim(&self, random: &mut Random) -> Vec<u8> {
        let total = self.model.total();
        match random.below(10) {
            0 => self.claim.clone(),
            1 | 2 => damaged_claim(random, &self.positions, total),
            3..5 => bytes_of(&claim_numbers(&grown_claim(
                random,
                &self.table,
                &self.facts,
            ))),
            5 | 6 => {
                let grown = grown_claim(random, &self.table, &self.facts);
                damaged_claim(random, &grown, total)
            }
            7 => bytes_of(&claim_numbers(&(0..total).collect::<Vec<_>>())),
            8 => {
                let often = 1 + random.below(9);
                let some: Vec<usize> = (0..total)
                    .filter(|&i| {
                        self.facts[i] == 1 && !random.once_in(1 + 4 * often)
                            || random.once_in(30 * often)
                    })
                    .collect();
                bytes_of(&claim_numbers(&some))
            }
            _ => [&[1, 0][..], &[], &[2], &[1], &[1, 1, 0], &[0x81, 0]][random.below(6)].to_vec(),
        }
    }
}

/// A number at or around another, or any below it.
fn around(random: &mut Random, number: usize) -> usize {
    match random.below(5) {
        0 => number.saturating_sub(1),
        1 => number,
        2 => number + 1 + random.below(40),
        3 => random.below(number + 1),
        _ => 0,
    }
}
