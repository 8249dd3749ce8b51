//! The two implementations agree, and the comparison sees one that is wrong in a single point.

use against::answer::{Answer, Calls, Verdict};
use against::compare::compare;
use against::{reference, second, OTHER};

const GOOD: Calls = reference::CALLS;

#[test]
fn they_agree() {
    agrees(second::CALLS);
    agrees(OTHER);
}

fn agrees(other: Calls) {
    let tally = compare(GOOD, other, 7, 3000);
    assert_eq!(tally.notes, Vec::<String>::new());
    assert_eq!(tally.differ, 0);
    assert!(tally.compared > 3000);
    assert!(tally
        .answers
        .iter()
        .all(|times| times.iter().sum::<usize>() > 0));
}

/// Whether the comparison tells an implementation from the reference.
fn seen(wrong: Calls) -> bool {
    compare(GOOD, wrong, 11, 1000).differ > 0
}

#[test]
fn wrong_answers_are_seen() {
    fn always_safe(table: &[u8], memory: &mut [u8], budget: usize) -> Answer {
        let mut answer = reference::check(table, memory, budget);
        answer.verdict = answer.verdict.map(|_| Verdict::Safe);
        answer
    }
    fn budget_off(table: &[u8], memory: &mut [u8], budget: usize) -> Answer {
        reference::check(table, memory, budget.saturating_sub(1))
    }
    fn accepts_all(table: &[u8], claim: &[u8], memory: &mut [u8]) -> Answer {
        let mut answer = reference::check_claim(table, claim, memory);
        answer.number %= 11;
        answer
    }
    for check in [always_safe, budget_off] {
        assert!(seen(Calls { check, ..GOOD }));
    }
    assert!(seen(Calls {
        check_claim: accepts_all,
        ..GOOD
    }));
    assert!(!seen(GOOD));
}

#[test]
fn wrong_bytes_are_seen() {
    fn left_as_found(table: &[u8], memory: &mut [u8], budget: usize) -> Answer {
        let before = memory.to_vec();
        let answer = reference::check(table, memory, budget);
        if answer.number == 8 {
            memory.copy_from_slice(&before);
        }
        answer
    }
    fn one_past(table: &[u8], memory: &mut [u8], budget: usize) -> Answer {
        let answer = reference::check(table, memory, budget);
        if let (0, Some(last)) = (answer.number, memory.last_mut()) {
            *last = 0;
        }
        answer
    }
    fn touches_space(t: &[u8], memory: &mut [u8], budget: usize, space: &mut [u8]) -> Answer {
        let answer = reference::write_claim(t, memory, budget, space);
        if let (12, Some(first)) = (answer.number, space.first_mut()) {
            *first = 1;
        }
        answer
    }
    for check in [left_as_found, one_past] {
        assert!(seen(Calls { check, ..GOOD }));
    }
    assert!(seen(Calls {
        write_claim: touches_space,
        ..GOOD
    }));
}
