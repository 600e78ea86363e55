//! Derivations written and checked: the hall book, every cause, and what is left unchanged.

use rabbitsteel::{
    check_derivation, order, write_derivation, Cause, Derivation, Refusal, Step, Tables, STEPS_LEN,
    STEPS_MAX,
};

const PART: u8 = 0;
const SITS: u8 = 2;
const LET: u8 = 4;
const DUE: u8 = 6;
/// The hall book has no such name.
const UNKNOWN: u8 = 8;

const HALL: [u8; 20] = [
    b'R', b'L', b'B', 1, 0, 4, 3, 0, PART, 2, PART, PART, SITS, 2, PART, SITS, DUE, 2, SITS, LET,
];

/// One name with a rule from its inverse to it.
const SYMMETRIC: [u8; 11] = [b'R', b'L', b'B', 1, 0, 1, 1, 0, 0, 1, 1];

fn refused<T>(cause: Cause, value: usize) -> Result<T, Refusal> {
    Err(Refusal { cause, value })
}

fn step(place: usize, rule: usize, inverse: bool) -> Step {
    Step {
        place,
        rule,
        inverse,
    }
}

/// The steps of a chain that has one derivation.
fn steps(role: u8, chain: &[u8]) -> Option<Vec<Step>> {
    let derivation = Derivation::of(&HALL, role, chain).unwrap()?;
    assert_eq!(
        check_derivation(&HALL, role, chain, derivation.bytes()),
        Ok(true)
    );
    assert_eq!(derivation.steps().len() * 4, derivation.bytes().len());
    Some(derivation.steps().collect())
}

#[test]
fn derivations_of_the_hall_book() {
    assert_eq!(steps(DUE, &[SITS, LET]), Some(vec![step(0, 2, false)]));
    assert_eq!(
        steps(DUE ^ 1, &[LET ^ 1, SITS ^ 1, PART ^ 1]),
        Some(vec![step(0, 2, true), step(1, 1, true)])
    );
    assert_eq!(steps(DUE, &[DUE]), Some(Vec::new()));
    assert_eq!(steps(DUE, &[SITS, PART, LET]), None);
    // There are many derivations of the longest chain.
    assert_eq!(steps(PART, &[PART; 16]).unwrap().len(), 15);
}

#[test]
fn bytes_of_a_derivation() {
    let derivation = Derivation::of(&HALL, DUE ^ 1, &[LET ^ 1, SITS ^ 1, PART ^ 1]);
    let derivation = derivation.unwrap().unwrap();
    assert_eq!(derivation.bytes(), [0, 0, 2, 1, 1, 0, 1, 1]);
}

#[test]
fn bytes_after_the_steps_are_left() {
    let mut lent = [99; STEPS_LEN + 5];
    let written = write_derivation(&HALL, DUE, &[PART, SITS, LET], &mut lent);
    assert_eq!(written, Ok(Some(2)));
    assert_eq!(lent[..8], [0, 0, 2, 0, 0, 0, 1, 0]);
    assert!(lent[8..].iter().all(|&byte| byte == 99));
}

#[test]
fn not_derived_leaves_the_bytes() {
    let mut lent = [99; STEPS_LEN];
    let written = write_derivation(&HALL, SITS, &[PART; 16], &mut lent);
    assert_eq!(written, Ok(None));
    assert!(lent.iter().all(|&byte| byte == 99));
}

/// A question that both calls refuse by the same cause, whatever is lent and whatever the steps.
fn assert_refused(book: &[u8], role: u8, chain: &[u8], cause: Cause, value: usize) {
    for lent in [0, STEPS_LEN - 1, STEPS_LEN] {
        let mut bytes = vec![99; lent];
        let written = write_derivation(book, role, chain, &mut bytes);
        assert_eq!(written, refused(cause, value));
        assert!(bytes.iter().all(|&byte| byte == 99));
    }
    assert_eq!(Derivation::of(book, role, chain), refused(cause, value));
    for steps in [&[][..], &[0], &[9; 4]] {
        let checked = check_derivation(book, role, chain, steps);
        assert_eq!(checked, refused(cause, value));
    }
}

#[test]
fn refused_books_and_questions() {
    let circle = [b'R', b'L', b'B', 1, 0, 2, 2, 0, 2, 1, 0, 0, 1, 2];
    assert_refused(&HALL[..7], UNKNOWN, &[], Cause::Size, 0);
    assert_refused(&HALL[..19], UNKNOWN, &[], Cause::Malformed, 2);
    assert_refused(&circle, UNKNOWN, &[], Cause::NoOrder, 1);
    // 0 links and over 1,024, then the roles, then over 16 links.
    assert_refused(&HALL, UNKNOWN, &[], Cause::Chain, 0);
    assert_refused(&HALL, UNKNOWN, &[PART; 1025], Cause::Chain, 0);
    assert_refused(&HALL, UNKNOWN, &[PART; 17], Cause::Role, 0);
    assert_refused(&HALL, PART, &[PART, UNKNOWN], Cause::Role, 0);
    assert_refused(&HALL, PART, &[PART; 17], Cause::Long, 0);
    assert_refused(&HALL, PART, &[PART; 1024], Cause::Long, 0);
}

#[test]
fn bytes_lent_too_short_are_left() {
    for (role, chain) in [(PART, &[PART; 2]), (SITS, &[PART; 2])] {
        for lent in [0, STEPS_LEN - 1] {
            let mut bytes = vec![99; lent];
            let written = write_derivation(&HALL, role, chain, &mut bytes);
            assert_eq!(written, refused(Cause::Buffer, 0));
            assert!(bytes.iter().all(|&byte| byte == 99));
        }
    }
}

#[test]
fn steps_that_lead_elsewhere_or_nowhere() {
    let check = |steps: &[u8]| check_derivation(&HALL, DUE, &[PART, SITS, LET], steps);
    assert_eq!(check(&[0, 0, 2, 0, 0, 0, 1, 0]), Ok(true));
    assert_eq!(check(&[0, 0, 2, 0]), Ok(false));
    assert_eq!(check(&[]), Ok(false));
    // No such place, rule or side, and another link there.
    assert_eq!(check(&[0, 0, 2, 0, 0, 1, 1, 0]), refused(Cause::Step, 1));
    assert_eq!(check(&[0, 0, 3, 0]), refused(Cause::Step, 0));
    assert_eq!(check(&[0, 0, 2, 2]), refused(Cause::Step, 0));
    assert_eq!(check(&[0, 0, 2, 0, 1, 0, 1, 0]), refused(Cause::Step, 1));
    // Bytes that are not in fours, before any step.
    assert_eq!(check(&[0, 0, 2, 0, 0]), refused(Cause::Step, 0));
}

#[test]
fn any_number_of_steps() {
    let mut steps = [[0; 4], [0, 0, 0, 1]].repeat(40_000).concat();
    assert_eq!(check_derivation(&SYMMETRIC, 0, &[0], &steps), Ok(true));
    steps.extend([0, 0, 0, 1]);
    let checked = check_derivation(&SYMMETRIC, 0, &[0], &steps);
    assert_eq!(checked, refused(Cause::Step, 80_000));
    assert!(steps.len() > 4 * STEPS_MAX);
}

#[test]
fn books_without_tables_have_derivations() {
    // Each name has the one before it on the left of its only rule.
    let mut book = vec![b'R', b'L', b'B', 1, 0, 64, 63, 0];
    for name in 1..64 {
        book.extend([2 * name, 1, 2 * name - 2]);
    }
    assert_eq!(order(&book).unwrap().depth, 64);
    assert_eq!(Tables::of(&book), refused(Cause::States, 0));
    let derivation = Derivation::of(&book, 127, &[1]).unwrap().unwrap();
    let down: Vec<Step> = (0..63).rev().map(|rule| step(0, rule, true)).collect();
    assert!(derivation.steps().eq(down));
}
