//! The hall book, every cause that a caller can meet, and what the calls leave unchanged.

use rabbitsteel::{
    ask, build, derived, inverse, order, read, Cause, Counts, Header, Refusal, Tables,
};

const PART: u8 = 0;
const SITS: u8 = 2;
const LET: u8 = 4;
const DUE: u8 = 6;
/// The hall book has no such name.
const UNKNOWN: u8 = 8;

const HALL: [u8; 20] = [
    b'R', b'L', b'B', 1, 0, 4, 3, 0, PART, 2, PART, PART, SITS, 2, PART, SITS, DUE, 2, SITS, LET,
];

#[rustfmt::skip]
const HALL_MOVES: [u16; 54] = [
    0, 0, 1,  1, 128, 0,
    2, 2, 3,  2, 128, 4,  4, 0, 5,  5, 128, 4,  5, 128, 2,
    6, 4, 7,
    8, 6, 9,  8, 128, 10,  10, 2, 11,  10, 128, 12,  12, 0, 13,  13, 128, 12,  13, 128, 10,
    11, 128, 14,  14, 4, 15,  15, 128, 9,
];

/// A number that no build writes.
const UNTOUCHED: u16 = 0xFFFF;

/// The bytes of a book: rules as right role and left roles.
fn book(names: u8, rules: &[(u8, &[u8])]) -> Vec<u8> {
    let mut bytes = vec![b'R', b'L', b'B', 1, 0, names];
    bytes.extend(u16::try_from(rules.len()).unwrap().to_le_bytes());
    for (right, left) in rules {
        bytes.extend([*right, u8::try_from(left.len()).unwrap()]);
        bytes.extend(*left);
    }
    bytes
}

/// The hall book with one byte changed.
fn hall_with(place: usize, byte: u8) -> Vec<u8> {
    let mut bytes = HALL.to_vec();
    bytes[place] = byte;
    bytes
}

/// What the order check says of a book that has an order: names, rules, depth and levels.
fn assert_ordered(book: &[u8], names: usize, rules: usize, depth: usize, levels: &[u8]) {
    let order = order(book).unwrap();
    assert_eq!((order.names, order.rules), (names, rules));
    assert_eq!(order.depth, depth);
    assert_eq!(order.levels(), levels);
}

fn untouched(heads: &[u16], moves: &[u16]) -> bool {
    heads.iter().chain(moves).all(|&number| number == UNTOUCHED)
}

fn refused<T>(cause: Cause, value: usize) -> Result<T, Refusal> {
    Err(Refusal { cause, value })
}

/// A book that the reader refuses, and so every later call.
fn assert_not_read(book: &[u8], cause: Cause, value: usize) {
    assert_eq!(read(book), refused(cause, value));
    assert_not_ordered(book, cause, value);
}

/// A book that the order check refuses, and so every later call.
fn assert_not_ordered(book: &[u8], cause: Cause, value: usize) {
    assert_eq!(order(book), refused(cause, value));
    assert_not_built(book, cause, value);
}

/// A book that has no tables. The lent ones are left as they were.
fn assert_not_built(book: &[u8], cause: Cause, value: usize) {
    let (mut heads, mut moves) = ([UNTOUCHED; 64], [UNTOUCHED; 15360]);
    assert_eq!(build(book, &mut heads, &mut moves), refused(cause, value));
    assert_eq!(
        derived(book, &mut heads, &mut moves, PART, &[]),
        refused(cause, value)
    );
    assert!(untouched(&heads, &moves));
    assert_eq!(Tables::of(book), refused(cause, value));
}

#[test]
fn hall_book_is_read_and_ordered() {
    assert_eq!(read(&HALL), Ok(Header { names: 4, rules: 3 }));
    assert_ordered(&HALL, 4, 3, 3, &[1, 2, 1, 3]);
}

#[test]
fn levels_of_names() {
    // Rules of a name and of its inverse count alike: t to s; t to r; inv s u to inv r.
    let both: [(u8, &[u8]); 3] = [(2, &[4]), (0, &[4]), (1, &[3, 6])];
    assert_ordered(&book(4, &both), 4, 3, 3, &[3, 2, 1, 1]);
    // s to inv r; t to r; inv t inv s to inv s.
    let back: [(u8, &[u8]); 3] = [(1, &[2]), (0, &[4]), (3, &[5, 3])];
    assert_ordered(&book(3, &back), 3, 3, 3, &[3, 2, 1]);
    assert_eq!(Tables::of(&book(3, &back)).unwrap().counts().depth, 3);
    // The name with the most names below it, the last, is not the deepest.
    let wide: [(u8, &[u8]); 3] = [(2, &[0]), (4, &[2]), (12, &[6, 8, 10])];
    assert_ordered(&book(7, &wide), 7, 3, 3, &[1, 2, 3, 1, 1, 1, 2]);
    // r r to r; inv s to s: no inner role.
    let own: [(u8, &[u8]); 2] = [(0, &[0, 0]), (2, &[3])];
    assert_ordered(&book(3, &own), 3, 2, 1, &[1, 1, 1]);
}

#[test]
fn deepest_book() {
    // Each name has the next one on the left of its only rule. 44 such names have tables.
    let next: Vec<[u8; 1]> = (1..64).map(|name| [2 * name]).collect();
    let rules: Vec<(u8, &[u8])> = (0..)
        .step_by(2)
        .zip(next.iter().map(|left| &left[..]))
        .collect();
    let levels: Vec<u8> = (1..=64).rev().collect();
    assert_ordered(&book(64, &rules), 64, 63, 64, &levels);
    assert_not_built(&book(64, &rules), Cause::States, 0);
    let counts = Tables::of(&book(44, &rules[..43])).unwrap().counts();
    assert_eq!(
        counts,
        Counts {
            states: 1980,
            moves: 2882,
            depth: 44
        }
    );
}

#[test]
fn hall_book_answers_its_questions() {
    let tables = Tables::of(&HALL).unwrap();
    let (mut heads, mut moves) = ([0; 64], [0; 15360]);
    let inverses = [inverse(LET), inverse(SITS), inverse(PART)];
    let questions: [(u8, &[u8], Result<bool, Refusal>); 7] = [
        (DUE, &[PART, PART, SITS, LET], Ok(true)),
        (DUE, &[SITS, PART, LET], Ok(false)),
        (inverse(DUE), &inverses, Ok(true)),
        (DUE, &[], refused(Cause::Chain, 0)),
        (DUE, &[UNKNOWN], refused(Cause::Role, 0)),
        (DUE, &[DUE], Ok(true)),
        (SITS, &[PART], Ok(false)),
    ];
    for (asked, chain, answer) in questions {
        assert_eq!(tables.ask(asked, chain), answer);
        assert_eq!(derived(&HALL, &mut heads, &mut moves, asked, chain), answer);
    }
}

#[test]
fn hall_tables_are_cut_to_what_is_written() {
    let tables = Tables::of(&HALL).unwrap();
    assert_eq!(
        tables.counts(),
        Counts {
            states: 16,
            moves: 18,
            depth: 3
        }
    );
    assert_eq!(tables.heads(), [0, 2, 6, 8]);
    assert_eq!(tables.moves(), HALL_MOVES);
}

#[test]
fn numbers_after_the_tables_are_left() {
    let (mut heads, mut moves) = ([UNTOUCHED; 64], [UNTOUCHED; 15360]);
    let counts = build(&HALL, &mut heads, &mut moves);
    assert_eq!(
        counts,
        Ok(Counts {
            states: 16,
            moves: 18,
            depth: 3
        })
    );
    let (built_heads, other_heads) = heads.split_at(4);
    let (built_moves, other_moves) = moves.split_at(54);
    assert_eq!(built_heads, [0, 2, 6, 8]);
    assert_eq!(built_moves, HALL_MOVES);
    assert!(untouched(other_heads, other_moves));
    // Lent whole, they are no tables.
    assert_eq!(
        ask(&heads, &moves, PART, &[PART]),
        refused(Cause::Tables, 0)
    );
}

#[test]
fn tables_lent_too_short_are_left() {
    for (heads_len, moves_len) in [(3, 54), (4, 53), (0, 54), (4, 0)] {
        let (mut heads, mut moves) = (vec![UNTOUCHED; heads_len], vec![UNTOUCHED; moves_len]);
        let built = build(&HALL, &mut heads, &mut moves);
        assert_eq!(built, refused(Cause::Short, 0));
        let answer = derived(&HALL, &mut heads, &mut moves, PART, &[PART]);
        assert_eq!(answer, refused(Cause::Short, 0));
        assert!(untouched(&heads, &moves));
    }
    let counts = build(&HALL, &mut [0; 4], &mut [0; 54]);
    assert_eq!(
        counts,
        Ok(Counts {
            states: 16,
            moves: 18,
            depth: 3
        })
    );
}

#[test]
fn bytes_that_are_no_book() {
    assert_not_read(&[], Cause::Size, 0);
    assert_not_read(&HALL[..7], Cause::Size, 0);
    assert_not_read(&[0; 2569], Cause::Size, 0);
    assert_not_read(&[0; 2568], Cause::Mark, 0);
    assert_not_read(&hall_with(2, b'b'), Cause::Mark, 0);
    assert_not_read(&hall_with(3, 2), Cause::Version, 0);
    assert_not_read(&hall_with(4, 1), Cause::Version, 0);
    assert_not_read(&book(0, &[]), Cause::Range, 0);
    assert_not_read(&book(65, &[]), Cause::Range, 0);
    let rule: (u8, &[u8]) = (0, &[2]);
    assert_not_read(&book(64, &[rule; 257]), Cause::Range, 0);
    assert_not_read(&book(64, &[rule; 256]), Cause::Repeated, 1);
}

#[test]
fn rules_that_cannot_be_read() {
    assert_not_read(&hall_with(9, 0), Cause::Malformed, 0);
    assert_not_read(&hall_with(13, 9), Cause::Malformed, 1);
    assert_not_read(&HALL[..19], Cause::Malformed, 2);
    assert_not_read(&[&HALL[..], &[0]].concat(), Cause::Malformed, 3);
    assert_not_read(&hall_with(12, 8), Cause::Undeclared, 1);
    assert_not_read(&hall_with(19, 8), Cause::Undeclared, 2);
    // Rule by rule: the role of rule 0 comes before the length of rule 1.
    assert_not_read(&book(1, &[(0, &[2]), (0, &[])]), Cause::Undeclared, 0);
}

#[test]
fn rules_that_are_repeated() {
    assert_not_read(&book(2, &[(0, &[2]), (0, &[2])]), Cause::Repeated, 1);
    assert_not_read(&book(1, &[(0, &[1]), (1, &[0])]), Cause::Repeated, 1);
}

#[test]
fn rules_without_an_order() {
    let circle = book(2, &[(2, &[0]), (0, &[2])]);
    assert_eq!(read(&circle), Ok(Header { names: 2, rules: 2 }));
    assert_not_ordered(&circle, Cause::NoOrder, 1);
    assert_not_ordered(&book(1, &[(0, &[0])]), Cause::NoOrder, 0);
}

#[test]
fn tables_that_are_too_large() {
    // Each name has eight copies of the one before it: 2, 18, 146, 1,170 and 9,362 states. Cause 10
    // is not to be had: 2,048 states have at most 5,120 moves.
    let eight = |name: u8| [2 * name; 8];
    let (zero, one, two, three) = (eight(0), eight(1), eight(2), eight(3));
    let rules: [(u8, &[u8]); 4] = [(2, &zero), (4, &one), (6, &two), (8, &three)];
    assert_ordered(&book(5, &rules), 5, 4, 5, &[1, 2, 3, 4, 5]);
    assert_not_built(&book(5, &rules), Cause::States, 0);
    let tables = Tables::of(&book(4, &rules[..3])).unwrap();
    assert_eq!(tables.counts().states, 2 + 18 + 146 + 1170);
}

#[test]
fn numbers_that_are_no_tables() {
    let none = refused(Cause::Tables, 0);
    assert_eq!(ask(&[], &[], PART, &[PART]), none);
    assert_eq!(ask(&[0; 65], &[], PART, &[PART]), none);
    assert_eq!(ask(&[2047], &[], PART, &[PART]), none);
    assert_eq!(ask(&[0], &[0, 0], PART, &[PART]), none);
    assert_eq!(ask(&[0], &[0; 15363], PART, &[PART]), none);
    assert_eq!(ask(&[0], &[2048, 0, 1], PART, &[PART]), none);
    assert_eq!(ask(&[0], &[0, 0, 2048], PART, &[PART]), none);
    assert_eq!(ask(&[0], &[0, 129, 1], PART, &[PART]), none);
    // No book gave these, and they are answered.
    assert_eq!(ask(&[2046], &[], PART, &[PART]), Ok(false));
    assert_eq!(ask(&[2046], &[2046, 0, 2047], PART, &[PART]), Ok(true));
}

#[test]
fn questions_that_are_refused() {
    let tables = Tables::of(&HALL).unwrap();
    let longest = [PART; 1024];
    assert_eq!(tables.ask(PART, &longest), Ok(true));
    assert_eq!(tables.ask(SITS, &longest), Ok(false));
    let longer = [PART; 1025];
    assert_eq!(tables.ask(PART, &longer), refused(Cause::Chain, 0));
    assert_eq!(tables.ask(UNKNOWN, &[PART]), refused(Cause::Role, 0));
    assert_eq!(tables.ask(u8::MAX, &[]), refused(Cause::Chain, 0));
    assert_eq!(tables.ask(PART, &[PART, u8::MAX]), refused(Cause::Role, 0));
}

#[test]
fn refused_question_leaves_the_lent_tables() {
    let (mut heads, mut moves) = ([UNTOUCHED; 4], [UNTOUCHED; 54]);
    let answer = derived(&HALL, &mut heads, &mut moves, DUE, &[]);
    assert_eq!(answer, refused(Cause::Chain, 0));
    let answer = derived(&HALL, &mut heads, &mut moves, UNKNOWN, &[PART]);
    assert_eq!(answer, refused(Cause::Role, 0));
    let answer = derived(&HALL, &mut heads[..3], &mut moves, DUE, &[]);
    assert_eq!(answer, refused(Cause::Short, 0));
    assert_eq!((heads, moves), ([UNTOUCHED; 4], [UNTOUCHED; 54]));
    assert_eq!(
        derived(&HALL, &mut heads, &mut moves, DUE, &[DUE]),
        Ok(true)
    );
    assert_eq!((heads, moves), ([0, 2, 6, 8], HALL_MOVES));
}

#[test]
fn smallest_book() {
    let tables = Tables::of(&book(1, &[])).unwrap();
    assert_eq!(
        tables.counts(),
        Counts {
            states: 2,
            moves: 1,
            depth: 1
        }
    );
    assert_eq!(tables.moves(), [0, 0, 1]);
}

#[test]
fn several_threads_ask_at_once() {
    let tables = Tables::of(&HALL).unwrap();
    std::thread::scope(|scope| {
        for _ in 0..4 {
            scope.spawn(|| assert_eq!(tables.ask(DUE, &[PART, SITS, LET]), Ok(true)));
        }
    });
}
