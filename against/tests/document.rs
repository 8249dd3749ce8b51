//! Every result that document 01 names, of each implementation.

use against::answer::{Answer, Calls, Verdict, Witness};
use against::tables::{self, bytes_of, claim_numbers, Model, ERROR, MOST, NEAR, POP, PUSH, STEP};
use against::{reference, second, OTHER};

const ALL: &[Calls] = if cfg!(feature = "proved") {
    &[reference::CALLS, second::CALLS, OTHER]
} else {
    &[reference::CALLS, second::CALLS]
};

const RECURSION: [u8; 29] = [
    0x01, 0x01, 0x02, 0x02, 0x01, 0x00, 0x00, 0x00, 0x01, 0x00, 0x00, 0x00, 0x01, 0x01, 0x01, 0x00,
    0x00, 0x00, 0x00, 0x00, 0x01, 0x00, 0x01, 0x01, 0x00, 0x01, 0x01, 0x02, 0x01,
];
const SMALLEST: [u8; 12] = [1, 1, 1, 1, 0, 0, 0, 0, 0, 0, 0, 0];

/// What the memory holds before each call.
const DIRT: u8 = 0xA5;

/// Number, origin and value.
type Plain = (u8, u8, usize);

fn plain(answer: &Answer) -> Plain {
    (answer.number, answer.origin, answer.value)
}

/// The positions of the ones, if all other bytes are 0.
fn ones(memory: &[u8]) -> Vec<usize> {
    assert!(memory.iter().all(|&byte| byte < 2));
    (0..memory.len()).filter(|&i| memory[i] == 1).collect()
}

/// A check with `memory` bytes, the refusals' promise about them looked after.
fn check(calls: Calls, table: &[u8], memory: usize, budget: usize) -> (Answer, Vec<u8>) {
    let mut lent = vec![DIRT; memory];
    let answer = (calls.check)(table, &mut lent, budget);
    if (1..8).contains(&answer.number) {
        assert!(lent.iter().all(|&byte| byte == DIRT));
    }
    (answer, lent)
}

/// A refused check: number and value, by each.
fn refused(table: &[u8], number: u8, value: usize) {
    for &calls in ALL {
        let (answer, _) = check(calls, table, 65_536, 65_536);
        assert_eq!(
            plain(&answer),
            (number, 0, value),
            "{} {table:?}",
            calls.name
        );
        assert_eq!((answer.verdict, answer.written), (None, None));
    }
}

fn possible(row: usize, shared: usize, locals: &[usize]) -> Option<Verdict> {
    Some(Verdict::Possible(Witness {
        row,
        shared,
        locals: locals.to_vec(),
    }))
}

fn reference_tables() -> Vec<Model> {
    let names = ["recursion", "smallest", "training", "mutex"];
    names
        .iter()
        .filter_map(|name| tables::by_name(name))
        .collect()
}

#[test]
fn recursion() {
    assert_eq!(tables::recursion().bytes(), RECURSION);
    assert_eq!(tables::recursion().total(), 36);
    for &calls in ALL {
        let (answer, memory) = check(calls, &RECURSION, 40, 5);
        assert_eq!(plain(&answer), (0, 0, 5));
        assert_eq!(answer.verdict, Some(Verdict::Safe));
        assert_eq!(ones(&memory[..36]), [1, 4, 7, 20, 23]);
        assert_eq!(memory[36..], [DIRT; 4]);
    }
    let listing = "facts 5\nverdict safe\nG 0 0 1\nP 0 0 0 0 0\nP 0 0 0 1 1\n\
                   Q 0 0 0 0 0 0\nQ 0 0 0 0 1 1\n";
    assert_eq!(reference::listing(&RECURSION), listing);
    for cut in 0..RECURSION.len() {
        refused(&RECURSION[..cut], 1, cut);
    }
}

#[test]
fn recursion_claims() {
    let claims: [(&[u8], Plain, &[usize]); 5] = [
        (&[1, 5, 1, 3, 3, 13, 3], (0, 0, 5), &[1, 4, 7, 20, 23]),
        (
            &[1, 6, 1, 3, 3, 12, 1, 3],
            (0, 0, 6),
            &[1, 4, 7, 19, 20, 23],
        ),
        (&[1, 4, 1, 3, 3, 13], (10, 0, 23), &[]),
        (&[1, 7, 1, 3, 2, 1, 13, 2, 1], (11, 0, 1), &[]),
        (&[1, 0], (9, 0, 0), &[]),
    ];
    for &calls in ALL {
        for (claim, expected, held) in claims {
            let mut memory = [DIRT; 40];
            let answer = (calls.check_claim)(&RECURSION, claim, &mut memory);
            assert_eq!(plain(&answer), expected);
            assert_eq!((answer.verdict, answer.written), (None, None));
            assert_eq!(ones(&memory[..36]), held);
            assert_eq!(memory[36..], [DIRT; 4]);
        }
    }
}

#[test]
fn claims_refused_for_their_layout() {
    let own = [1, 5, 1, 3, 3, 13, 3];
    let mut cases: Vec<(Vec<u8>, Plain)> = Vec::new();
    for cut in 0..own.len() {
        cases.push((own[..cut].to_vec(), (1, 1, cut)));
    }
    cases.push((vec![0x80, 0], (2, 1, 0)));
    cases.push((vec![2, 0], (3, 1, 0)));
    cases.push((vec![1, 37], (4, 1, 1)));
    cases.push((vec![1, 1, 36], (4, 1, 2)));
    cases.push((vec![1, 2, 4, 0], (4, 1, 3)));
    cases.push((vec![1, 2, 4, 32], (4, 1, 3)));
    cases.push((vec![1, 2, 4, 0x84, 0], (2, 1, 3)));
    cases.push((vec![1, 2, 4, 0x80, 0x80, 0x80, 0x80], (2, 1, 3)));
    cases.push((vec![1, 2, 4, 0x80, 0x80, 0x80], (1, 1, 6)));
    cases.push(([&own[..], &[0]].concat(), (6, 1, 7)));
    for &calls in ALL {
        for (claim, expected) in &cases {
            let mut memory = [DIRT; 40];
            let answer = (calls.check_claim)(&RECURSION, claim, &mut memory);
            assert_eq!(plain(&answer), *expected, "{claim:?}");
            assert_eq!(memory, [DIRT; 40]);
        }
        // The table's refusals and 7 come before the claim's.
        let mut memory = [DIRT; 35];
        let answer = (calls.check_claim)(&RECURSION, &[], &mut memory);
        assert_eq!(plain(&answer), (7, 0, 36));
        let answer = (calls.check_claim)(&RECURSION[..5], &[], &mut memory);
        assert_eq!(plain(&answer), (1, 0, 5));
        assert_eq!(memory, [DIRT; 35]);
    }
}

#[test]
fn claims_written() {
    for model in reference_tables() {
        let (file, total) = (model.bytes(), model.total());
        for &calls in ALL {
            let (checked, relations) = check(calls, &file, total, total);
            let expected = bytes_of(&claim_numbers(&ones(&relations)));
            let write = |length: usize| {
                let mut memory = vec![DIRT; total];
                let mut space = vec![DIRT; length];
                let answer = (calls.write_claim)(&file, &mut memory, total, &mut space);
                (answer, memory, space)
            };
            // Space to spare, and exactly enough.
            for spare in [3, 0] {
                let (answer, memory, space) = write(expected.len() + spare);
                assert_eq!(plain(&answer), (0, 0, checked.value));
                assert_eq!(answer.verdict, checked.verdict);
                assert_eq!(answer.written, Some(expected.len()));
                assert_eq!(memory, relations);
                assert_eq!(space[..expected.len()], expected);
                assert_eq!(space[expected.len()..], vec![DIRT; spare]);
            }
            // One byte short, and none.
            for length in [expected.len() - 1, 0] {
                let (answer, memory, space) = write(length);
                assert_eq!(plain(&answer), (12, 0, expected.len()));
                assert_eq!((answer.verdict, answer.written), (None, None));
                assert_eq!(memory, vec![0; total]);
                assert_eq!(space, vec![DIRT; length]);
            }
            // Accepted if safe, else refused for the witness's row.
            let mut memory = vec![DIRT; total];
            let answer = (calls.check_claim)(&file, &expected, &mut memory);
            match checked.verdict {
                Some(Verdict::Possible(witness)) => {
                    assert_eq!(plain(&answer), (11, 0, witness.row));
                    assert_eq!(memory, vec![0; total]);
                }
                _ => {
                    assert_eq!(plain(&answer), (0, 0, checked.value));
                    assert_eq!(memory, relations);
                }
            }
            // The empty claim.
            let answer = (calls.check_claim)(&file, &[1, 0], &mut memory);
            assert_eq!(plain(&answer), (9, 0, 0));
            assert_eq!(memory, vec![0; total]);
        }
    }
}

#[test]
fn claim_of_all_positions() {
    for &calls in ALL {
        let all: Vec<usize> = (0..36).collect();
        let mut memory = [DIRT; 36];
        let claim = bytes_of(&claim_numbers(&all));
        let answer = (calls.check_claim)(&RECURSION, &claim, &mut memory);
        assert_eq!(plain(&answer), (11, 0, 1));
        let answer = (calls.check_claim)(&SMALLEST, &[1, 2, 0, 1], &mut memory);
        assert_eq!(plain(&answer), (0, 0, 2));
        assert_eq!(memory[..3], [1, 1, 0]);
    }
}

#[test]
fn smallest() {
    assert_eq!(tables::smallest().bytes(), SMALLEST);
    assert_eq!(tables::smallest().total(), 2);
    for &calls in ALL {
        let (answer, memory) = check(calls, &SMALLEST, 3, 1);
        assert_eq!(plain(&answer), (0, 0, 1));
        assert_eq!(answer.verdict, Some(Verdict::Safe));
        assert_eq!(memory, [0, 1, DIRT]);

        let mut failed = SMALLEST;
        failed[5] = 1;
        let (answer, _) = check(calls, &failed, 2, 1);
        assert_eq!(plain(&answer), (0, 0, 1));
        assert_eq!(answer.verdict, possible(0, 0, &[0]));
    }
    refused(&SMALLEST[..11], 1, 11);
    refused(&[&SMALLEST[..], &[0]].concat(), 6, 12);
    let mut five = SMALLEST;
    five[1] = 5;
    refused(&five, 4, 1);
    refused(&[], 1, 0);
    assert_eq!(reference::listing(&[]), "refused 1 0\n");
}

#[test]
fn training() {
    let model = tables::training();
    assert_eq!(model.numbers().len(), 576);
    assert!(model.numbers().iter().all(|&number| number < 128));
    assert_eq!(model.lists.each_ref().map(Vec::len), [90, 0, 0, 28]);
    assert_eq!(model.total(), 9600);
    for &calls in ALL {
        let (answer, memory) = check(calls, &model.bytes(), 9600, 57);
        assert_eq!(plain(&answer), (0, 0, 57));
        assert_eq!(answer.verdict, Some(Verdict::Safe));
        assert_eq!(ones(&memory[..3 * 64]).len(), 15);
        assert_eq!(ones(&memory[3 * 64..]).len(), 42);
    }
}

#[test]
fn mutex() {
    let file = tables::mutex().bytes();
    for &calls in ALL {
        let (answer, _) = check(calls, &file, tables::mutex().total(), 65_536);
        assert_eq!(answer.verdict, possible(0, 0, &[0, 6]));
    }
    let listing = reference::listing(&file);
    assert_eq!(listing.lines().nth(1), Some("verdict possible 0 0 0 6"));
}

#[test]
fn budgets_and_memory() {
    for model in reference_tables() {
        let (file, total) = (model.bytes(), model.total());
        for &calls in ALL {
            let count = check(calls, &file, total, total).0.value;
            for memory in [total, total + 5] {
                for budget in [0, count - 1] {
                    let (answer, lent) = check(calls, &file, memory, budget);
                    assert_eq!(plain(&answer), (8, 0, budget));
                    assert_eq!(answer.verdict, None);
                    assert_eq!(lent[..total], vec![0; total]);
                    assert_eq!(lent[total..], vec![DIRT; memory - total]);
                }
                for budget in [count, count + 1] {
                    assert_eq!(check(calls, &file, memory, budget).0.value, count);
                }
            }
            for memory in [0, total - 1] {
                let (answer, _) = check(calls, &file, memory, 0);
                assert_eq!(plain(&answer), (7, 0, total));
            }
            // 8 before 12.
            let mut memory = vec![DIRT; total];
            let answer = (calls.write_claim)(&file, &mut memory, count - 1, &mut []);
            assert_eq!(plain(&answer), (8, 0, count - 1));
        }
    }
}

#[test]
fn numbers_and_their_refusals() {
    // 2 as soon as a byte shows it, before 1; then 3 or 4.
    refused(&[0x81, 0x00], 2, 0);
    refused(&[0x81], 1, 1);
    refused(&[0x81, 0x80, 0x80], 1, 3);
    refused(&[0x81, 0x80, 0x80, 0x80], 2, 0);
    refused(&[0x81, 0x80, 0x80, 0x00], 2, 0);
    refused(&[0x81, 0x80, 0x80, 0x01], 3, 0);
    refused(&[0x00], 3, 0);
    refused(&[1, 0xAC, 0x02], 4, 1);
    refused(&[1, 0], 4, 1);
    refused(&[1, 1, 17], 4, 2);
    refused(&[1, 1, 1, 0], 4, 3);
    refused(&[1, 1, 1, 1, 9], 4, 4);
    refused(&[1, 1, 1, 2, 0, 3], 4, 5);
    refused(&[1, 1, 2, 2, 0, 2, 2], 4, 6);
    refused(&[1, 2, 2, 2, 0, 2, 1, 1, 2], 4, 8);
    // 1,025 step rows are too many, 1,024 not; so are 257 push or pop rows and 65 error rows.
    let header = &SMALLEST[..8];
    refused(&[header, &[0x81, 0x08]].concat(), 4, 8);
    refused(&[header, &[0x80, 0x08]].concat(), 1, 10);
    refused(&[header, &[0, 0x81, 0x02]].concat(), 4, 9);
    refused(&[header, &[0, 0, 0x81, 0x02]].concat(), 4, 10);
    refused(&[header, &[0, 0, 0, 65]].concat(), 4, 11);
    refused(&[header, &[0, 0, 0, 64]].concat(), 1, 12);
}

#[test]
fn rows_and_their_refusals() {
    let header = [1, 1, 3, 2, 1, 0, 0, 0];
    let with = |rest: &[u8]| [&header[..], rest].concat();
    // Each column against its own range.
    refused(&with(&[1, 1]), 4, 9);
    refused(&with(&[1, 0, 3]), 4, 10);
    refused(&with(&[1, 0, 2, 2]), 4, 11);
    refused(&with(&[1, 0, 2, 1, 3]), 4, 12);
    refused(&with(&[1, 0, 2, 1, 2, 2]), 4, 13);
    refused(&with(&[0, 1, 0, 2, 1, 2]), 4, 13);
    refused(&with(&[0, 1, 0, 2, 1, 1, 1]), 4, 14);
    refused(&with(&[0, 0, 1, 0, 2, 1, 1]), 4, 14);
    refused(&with(&[0, 0, 1, 0, 2, 1, 0, 2]), 4, 15);
    refused(&with(&[0, 0, 0, 1, 4]), 4, 12);
    refused(&with(&[0, 0, 0, 1, 3, 3]), 4, 13);
    // Without frames a push or pop row is refused at its frame.
    let no_frames = [1, 1, 3, 2, 0, 0, 0, 0];
    refused(&[&no_frames[..], &[0, 1, 0, 2, 1, 1, 0]].concat(), 4, 14);
    refused(&[&no_frames[..], &[0, 0, 1, 0, 2, 1, 0, 0]].concat(), 4, 14);
    // Order: 5 at the row's first byte, equal rows too, only after the row's last number.
    let two = [2, 0, 1, 0, 1, 0, 0, 1, 0, 1, 0];
    refused(&with(&two), 5, 14);
    refused(&with(&two[..10]), 1, 18);
    refused(&with(&[2, 0, 1, 0, 1, 0, 0, 0, 0, 0, 2]), 4, 18);
    refused(&with(&[0, 0, 0, 2, 3, 2, 3, 1]), 5, 14);
    // Bytes after the end, even where they are no number.
    refused(&with(&[0, 0, 0, 0, 0x80]), 6, 12);
}

#[test]
fn full_lists_are_read() {
    for which in 1..=NEAR.len() {
        let model = tables::near(which).expect("there are ten");
        assert_eq!(model.lists.each_ref().map(Vec::len), MOST, "near{which}");
        assert_eq!(model.total(), 2_360_320);
        let table = reference::read_table(&model.bytes()).expect("it is sound");
        let lists = [&table.steps, &table.pushes, &table.pops, &table.errors];
        assert_eq!(lists.map(Vec::len), MOST);
    }
}

#[test]
fn near_the_limits() {
    let facts = [
        600_064, 590_464, 562_560, 53_170, 54, 530_572, 596_852, 590_128, 440, 590_688,
    ];
    let safe = [3, 5, 8, 9];
    for (which, count) in (1..).zip(facts) {
        let file = tables::near(which).expect("there are ten").bytes();
        let results: Vec<_> = ALL
            .iter()
            .map(|&calls| check(calls, &file, 2_360_320, count))
            .collect();
        let answer = &results[0].0;
        assert_eq!(plain(answer), (0, 0, count), "near{which}");
        assert_eq!(answer.verdict == Some(Verdict::Safe), safe.contains(&which));
        assert!(
            results.iter().all(|result| *result == results[0]),
            "near{which}"
        );
        if which == 10 {
            assert_eq!(answer.verdict, possible(64, 15, &[15, 15, 15, 14]));
        }
    }
}

#[test]
fn slips_to_guard_against() {
    for &calls in ALL {
        // A step that moves nothing shared still gives G(t,g,g).
        let mut model = Model::new([1, 2, 0], 0, 0, &[0]);
        model.add(STEP, [0, 0, 0, 0, 1]);
        assert_eq!(check(calls, &model.bytes(), 5, 9).0.value, 3);
        // A thread's own guarantee does not act on it.
        let mut model = Model::new([2, 2, 0], 0, 0, &[0]);
        model.add(STEP, [0, 0, 0, 1, 1]);
        model.add(ERROR, [2, 1]);
        let (answer, _) = check(calls, &model.bytes(), 99, 9);
        assert_eq!((answer.value, answer.verdict), (3, Some(Verdict::Safe)));
        // A callee is entered.
        let mut model = Model::new([1, 3, 1], 0, 0, &[0]);
        model.add(PUSH, [0, 0, 0, 1, 0]);
        model.add(STEP, [0, 0, 1, 0, 2]);
        model.add(POP, [0, 0, 1, 0, 0]);
        model.add(ERROR, [0, 3]);
        let (answer, _) = check(calls, &model.bytes(), 99, 9);
        assert_eq!(answer.verdict, possible(1, 0, &[2]));
        // Threads at different shared stores are no witness: both fail to meet at g 0.
        let mut model = Model::new([2, 2, 0], 0, 0, &[0, 0]);
        model.add(STEP, [0, 0, 0, 1, 1]);
        model.add(ERROR, [0, 2, 0]);
        model.add(STEP, [1, 0, 0, 0, 1]);
        let model = model.sorted();
        let (answer, _) = check(calls, &model.bytes(), 99, 99);
        assert_eq!(answer.verdict, possible(1, 1, &[1, 0]));
        // The smallest list for row 0 is not every thread's smallest.
        let mut model = Model::new([1, 2, 0], 1 + 1, 0, &[0, 0]);
        model.add(STEP, [0, 0, 0, 0, 1]);
        model.add(STEP, [1, 0, 0, 0, 1]);
        let (answer, _) = check(calls, &model.bytes(), 99, 99);
        assert_eq!(answer.verdict, possible(0, 0, &[0, 1]));
    }
}
