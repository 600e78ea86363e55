//! The examples, edges and misreadings of document 01 and of written derivations, tried on the plain engine.

use super::book::Book;
use super::derivation_writer::{LENT_BYTES, MAX_STEPS};
use super::intervals::Intervals;
use super::program::{run, Method};
use super::query::Indexed;
use super::rewriting::Rewriting;
use super::tables::{MAX_STATES, MAX_TRANSITIONS};
use super::*;
use crate::books::{careless, encode, ladder, long_ways, Draft, Style, HALL};
use crate::chains::{self, Replacements};
use crate::random::Random;
use std::fmt::Debug;

const PART: u8 = 0;
const SITS: u8 = 2;
const LET: u8 = 4;
const DUE: u8 = 6;

/// Roles of names 0 and 1 in small books.
const R: u8 = 0;
const S: u8 = 2;

fn inv(role: u8) -> u8 {
    role ^ 1
}

/// The number of the cause and the value beside it.
fn refusal<T: Debug>(result: Result<T, Refusal>) -> (u64, u64) {
    let Refusal { cause, value } = result.expect_err("it is accepted");
    (cause as u64, value)
}

/// The order check with more levels lent than there are names: what it says, and the levels. They are those of their
/// sentence, and the depth is the highest.
fn ordered(book: &[u8]) -> Result<(u64, u64, u64, Vec<u8>), Refusal> {
    let mut lent = [99; 70];
    let (names, rules, depth) =
        order(book, &mut lent).inspect_err(|_| assert_eq!(lent, [99; 70]))?;
    let (levels, rest) = lent.split_at(names as usize);
    assert_eq!(levels, levels::levels(&Book::read(book).unwrap()));
    assert_eq!(
        levels.iter().max().map(|&level| u64::from(level)),
        Some(depth)
    );
    assert!(rest.iter().all(|&byte| byte == 99));
    Ok((names, rules, depth, levels.to_vec()))
}

struct Tables {
    heads: Vec<u16>,
    moves: Vec<u16>,
}

/// The written numbers alone.
fn tables(book: &[u8]) -> Tables {
    let mut heads = vec![7; 64];
    let mut moves = vec![7; 3 * MAX_TRANSITIONS];
    let (_, transitions, _) = build(book, &mut heads, &mut moves).unwrap();
    heads.truncate(usize::from(book[5]));
    moves.truncate(3 * transitions as usize);
    Tables { heads, moves }
}

/// The answer of the tables, which the two other methods must give too.
fn member(book: &[u8], role: u8, chain: &[u8]) -> bool {
    let Tables { heads, moves } = tables(book);
    let answer = ask(&heads, &moves, role, chain).unwrap();
    let mut indexed = Indexed::new(&heads, &moves).unwrap();
    assert_eq!(indexed.ask(role, chain), Ok(answer));
    let mut heads = [9; 64];
    let mut moves = [9; 3 * MAX_TRANSITIONS];
    assert_eq!(
        derived(book, &mut heads, &mut moves, role, chain),
        Ok(answer)
    );
    let book = Book::read(book).unwrap();
    let intervals = Intervals::new(&book).roles(chain);
    assert_eq!(intervals >> role & 1 == 1, answer);
    let rewriting = Rewriting::new(&book).roles(chain, 100_000).unwrap();
    assert_eq!(rewriting, intervals);
    answer
}

fn refused(heads: &[u16], moves: &[u16], role: u8, chain: &[u8]) -> u64 {
    let refusal = ask(heads, moves, role, chain).unwrap_err();
    assert_eq!(refusal.value, 0);
    refusal.cause as u64
}

#[test]
fn hall_tables() {
    assert_eq!(read(HALL), Ok((4, 3)));
    assert_eq!(ordered(HALL), Ok((4, 3, 3, vec![1, 2, 1, 3])));
    let Tables { heads, moves } = tables(HALL);
    assert_eq!(heads, [0, 2, 6, 8]);
    let by_hand = [
        [0, 0, 1],
        [1, 128, 0],
        [2, 2, 3],
        [2, 128, 4],
        [4, 0, 5],
        [5, 128, 4],
        [5, 128, 2],
        [6, 4, 7],
        [8, 6, 9],
        [8, 128, 10],
        [10, 2, 11],
        [10, 128, 12],
        [12, 0, 13],
        [13, 128, 12],
        [13, 128, 10],
        [11, 128, 14],
        [14, 4, 15],
        [15, 128, 9],
    ];
    assert_eq!(moves, by_hand.as_flattened());
}

#[test]
fn hall_questions() {
    assert!(member(HALL, DUE, &[PART, PART, SITS, LET]));
    assert!(!member(HALL, DUE, &[SITS, PART, LET]));
    assert!(member(HALL, inv(DUE), &[inv(LET), inv(SITS), inv(PART)]));
    assert!(member(HALL, DUE, &[DUE]));
    assert!(!member(HALL, SITS, &[PART]));
    let Tables { heads, moves } = tables(HALL);
    assert_eq!(refused(&heads, &moves, DUE, &[]), 13);
    assert_eq!(refused(&heads, &moves, DUE, &[8]), 14);
    assert_eq!(refused(&heads, &moves, 8, &[DUE]), 14);
}

#[test]
fn hall_program() {
    let questions = b"\x06\x04\x00\x00\x00\x02\x04\x06\x03\x00\x02\x00\x04\x07\x03\x00\x05\x03\x01\x06\x00\x00\x06\x01\x00\x08";
    let lines = [
        "book 16 18 3\n",
        "0 yes\n",
        "1 no\n",
        "2 yes\n",
        "3 refused 13\n",
        "4 refused 14\n",
    ];
    // Where each question ends.
    let ends = [7, 13, 19, 22, 26];
    for method in [Method::Trails, Method::Closure] {
        for cut in 0..=questions.len() {
            let mut output = Vec::new();
            run(HALL, &questions[..cut], &mut output, method).unwrap();
            let whole = ends.iter().filter(|&&end| end <= cut).count();
            let mut expected = lines[..=whole].concat();
            if cut != 0 && !ends.contains(&cut) {
                expected += &format!("{whole} cut\n");
            }
            assert_eq!(String::from_utf8(output).unwrap(), expected);
        }
    }
}

#[test]
fn program_refusals() {
    let written = |book: &[u8], questions: &[u8]| {
        let mut output = Vec::new();
        run(book, questions, &mut output, Method::Trails).unwrap();
        String::from_utf8(output).unwrap()
    };
    assert_eq!(written(b"", b"\x00\x01\x00\x00"), "book refused 1 0\n");
    let cycle = encode(2, &[(R, [S]), (S, [R])]);
    assert_eq!(written(&cycle, b""), "book refused 8 1\n");
    // A refused question's chain is read past; a cut one is cut, whatever else is wrong with it.
    let mut questions = vec![DUE, 1, 4];
    questions.extend([DUE; 1025]);
    questions.extend([DUE, 1, 0, DUE]);
    questions.extend([99, 255, 255]);
    questions.extend([DUE; 65534]);
    assert_eq!(
        written(HALL, &questions),
        "book 16 18 3\n0 refused 13\n1 yes\n2 cut\n"
    );
    questions.push(DUE);
    assert_eq!(
        written(HALL, &questions),
        "book 16 18 3\n0 refused 13\n1 yes\n2 refused 13\n"
    );
}

#[test]
fn starred_books() {
    assert_eq!(refusal(ordered(&encode(1, &[(R, [R])]))), (8, 0));
    assert_eq!(refusal(ordered(&encode(2, &[(R, [S]), (S, [R])]))), (8, 1));
    let symmetric = encode(1, &[(R, [inv(R)]), (inv(R), [R])]);
    assert_eq!(refusal(read(&symmetric)), (7, 1));
    let empty = encode(1, &[] as &[(u8, [u8; 0])]);
    assert_eq!(build(&empty, &mut [0], &mut [0; 3]), Ok((2, 1, 1)));
    assert_eq!(ordered(&empty), Ok((1, 0, 1, vec![1])));
    assert_eq!(refusal(read(&encode(0, &[] as &[(u8, [u8; 0])]))), (4, 0));
}

#[test]
fn headers() {
    for length in 0..8 {
        assert_eq!(refusal(read(&HALL[..length])), (1, 0));
    }
    // 256 rules of length 8 pass, all different.
    let row = |number: u8| [0, 1, 2, 3, 4, 5, 6, 7].map(|bit| S | number >> bit & 1);
    let rules: Vec<_> = (0..=255).map(|number| (R, row(number))).collect();
    let mut long = encode(64, &rules);
    assert_eq!(long.len(), 2568);
    assert_eq!(read(&long), Ok((64, 256)));
    let mut levels = vec![1; 64];
    levels[0] = 2;
    assert_eq!(ordered(&long), Ok((64, 256, 2, levels)));
    long.push(0);
    assert_eq!(refusal(read(&long)), (1, 0));
    let changed = |at: usize, byte: u8| {
        let mut book = HALL.to_vec();
        book[at] = byte;
        read(&book)
    };
    let with = |at, byte| refusal(changed(at, byte));
    for at in 0..3 {
        assert_eq!(with(at, 0), (2, 0));
    }
    assert_eq!(with(3, 0), (3, 0));
    assert_eq!(with(4, 1), (3, 0));
    assert_eq!(with(5, 0), (4, 0));
    assert_eq!(with(5, 65), (4, 0));
    assert_eq!(changed(5, 64), Ok((64, 3)));
    assert_eq!(with(7, 2), (4, 0));
    // 256 + 3 rules are too many; 256 are not, but they are cut short.
    assert_eq!(with(7, 1), (4, 0));
    let mut book = HALL.to_vec();
    (book[6], book[7]) = (0, 1);
    assert_eq!(refusal(read(&book)), (5, 3));
    (book[6], book[7]) = (1, 1);
    assert_eq!(refusal(read(&book)), (4, 0));
    (book[6], book[7]) = (2, 0);
    assert_eq!(refusal(read(&book)), (5, 2));
}

#[test]
fn rules_one_after_another() {
    // Cut short at each byte: the rule that is cut.
    for (length, rule) in (8..20).zip([0, 0, 0, 0, 1, 1, 1, 1, 2, 2, 2, 2]) {
        assert_eq!(refusal(read(&HALL[..length])), (5, rule));
    }
    assert_eq!(read(&encode(2, &[(R, vec![S; 8])])), Ok((2, 1)));
    assert_eq!(refusal(read(&encode(2, &[(R, vec![S; 9])]))), (5, 0));
    assert_eq!(refusal(read(&encode(2, &[(R, vec![])]))), (5, 0));
    // 5 comes first in each rule, but a rule with an unknown role comes before a later rule of length 0.
    assert_eq!(
        refusal(read(&encode(2, &[(4, vec![S]), (R, vec![])]))),
        (6, 0)
    );
    assert_eq!(
        refusal(read(&encode(2, &[(R, vec![S]), (4, vec![])]))),
        (5, 1)
    );
    assert_eq!(
        refusal(read(&encode(2, &[(R, vec![S]), (R, vec![3, 4])]))),
        (6, 1)
    );
    // Bytes after the last rule come after 6 and before 7.
    let mut book = encode(2, &[(R, vec![S]), (R, vec![S])]);
    assert_eq!(refusal(read(&book)), (7, 1));
    book.push(0);
    assert_eq!(refusal(read(&book)), (5, 2));
    book[8] = 9;
    assert_eq!(refusal(read(&book)), (6, 0));
}

#[test]
fn repeated_rules() {
    let rules = [
        (R, vec![S, inv(S)]),
        (inv(R), vec![S]),
        (R, vec![inv(S)]),
        (inv(R), vec![S, inv(S)]),
    ];
    assert_eq!(refusal(read(&encode(2, &rules))), (7, 2));
    // Equal left sides with different right sides, or front parts of each other, are no repetition.
    let rules = [(R, vec![S]), (inv(R), vec![S]), (R, vec![S, S])];
    assert_eq!(read(&encode(2, &rules)), Ok((2, 3)));
    assert_eq!(
        read(&encode(2, &[(R, vec![0]), (R, vec![0, 0])])),
        Ok((2, 2))
    );
}

#[test]
fn left_sides() {
    let left_of = |rule| left(HALL, rule);
    assert!(std::ptr::eq(left_of(0), &HALL[10..12]));
    assert!(std::ptr::eq(left_of(1), &HALL[14..16]));
    assert!(std::ptr::eq(left_of(2), &HALL[18..20]));
    assert!(left_of(3).is_empty());
    assert!(left_of(usize::MAX).is_empty());
    assert!(left(&HALL[..19], 0).is_empty());
    // A book refused by cause 7 has left sides.
    assert_eq!(left(&encode(2, &[(R, [S]), (R, [S])]), 1), [S]);
}

#[test]
fn forms_without_order() {
    let order_of = |rules: &[(u8, &[u8])]| order(&encode(3, rules), &mut []);
    let t = 4;
    for left in [
        &[R][..],
        &[R, S, R],
        &[R, inv(R)],
        &[inv(R), R],
        &[inv(R), S],
        &[S, inv(R)],
        &[S, R, S],
        &[R, R, R],
        &[inv(R), inv(R)],
        &[R, R, S],
        &[R, S, inv(R)],
    ] {
        assert_eq!(refusal(order_of(&[(S, &[t]), (R, left)])), (8, 1));
        // The same for an inverse on the right.
        let inverse = completion::inverse(left);
        assert_eq!(refusal(order_of(&[(S, &[t]), (inv(R), &inverse)])), (8, 1));
    }
    for (left, depth) in [
        (&[S][..], 3),
        (&[inv(S), S], 3),
        (&[R, S], 3),
        (&[S, R], 3),
        (&[R, S, S], 3),
        (&[S, t, R], 3),
        (&[t, inv(t), R], 2),
        (&[R, R], 2),
        (&[inv(R)], 2),
    ] {
        assert_eq!(order_of(&[(S, &[t]), (R, left)]), Ok((3, 2, depth)));
        let inverse = completion::inverse(left);
        let inverse = [(S, &[t][..]), (inv(R), &inverse)];
        assert_eq!(order_of(&inverse), Ok((3, 2, depth)));
    }
    let long_circle = [
        (S, &[R][..]),
        (t, &[S]),
        (t, &[t, t]),
        (inv(R), &[inv(R), t]),
    ];
    assert_eq!(refusal(order_of(&long_circle)), (8, 3));
    // A well-formed front part decides, whatever follows.
    assert_eq!(
        refusal(order_of(&[(S, &[R]), (R, &[inv(S)]), (t, &[t])])),
        (8, 1)
    );
}

#[test]
fn readings_that_go_astray() {
    // Without mirrors this would be no.
    assert!(member(HALL, inv(DUE), &[inv(LET), inv(SITS), inv(PART)]));
    // The rules of a symmetric relation's inverse count.
    let symmetric = encode(2, &[(R, vec![inv(R)]), (R, vec![S, R])]);
    assert!(member(&symmetric, R, &[R, inv(S)]));
    assert!(member(&symmetric, R, &[S, inv(R)]));
    assert!(!member(&symmetric, R, &[R, S]));
    // The loop of form 3 stands at the initial state.
    assert!(!member(HALL, SITS, &[SITS, PART]));
    assert!(member(HALL, SITS, &[PART, SITS]));
    let form2 = encode(2, &[(R, vec![R, S])]);
    assert!(member(&form2, R, &[R, S, S]));
    assert!(!member(&form2, R, &[S, R]));
    assert!(member(&form2, inv(R), &[inv(S), inv(R)]));
    // "Exactly" is not the definition here.
    assert!(!member(&encode(2, &[(R, [S, inv(S), S])]), R, &[S]));
}

#[test]
fn symmetric_tables() {
    // inv(R) to R; S R to R; S S to S: rows of R first, then those of inv(R).
    let book = encode(2, &[(R, vec![inv(R)]), (R, vec![S, R]), (S, vec![S, S])]);
    let Tables { heads, moves } = tables(&book);
    assert_eq!(heads, [0, 6]);
    let by_hand = [
        [0, 0, 1],
        [0, 1, 1],
        [0, 128, 2],
        [2, 2, 3],
        [3, 128, 2],
        [3, 128, 0],
        [1, 128, 4],
        [4, 3, 5],
        [5, 128, 4],
        [5, 128, 1],
        [6, 2, 7],
        [7, 128, 6],
    ];
    assert_eq!(moves, by_hand.as_flattened());
}

/// A book of two names with this many states, an even number from 4.
fn sized(states: usize) -> Vec<u8> {
    let mut copies = states / 2 - 2;
    let mut rules = Vec::new();
    while copies > 0 {
        let length = copies.min(8);
        let number = rules.len() as u8;
        let left: Vec<u8> = (0..length).map(|bit| S | number >> bit & 1).collect();
        rules.push((R, left));
        copies -= length;
    }
    encode(2, &rules)
}

#[test]
fn state_limit() {
    let mut heads = [5; 2];
    let mut moves = [5; 3 * MAX_TRANSITIONS];
    let largest = sized(MAX_STATES);
    let (states, transitions, depth) = build(&largest, &mut heads, &mut moves).unwrap();
    assert_eq!((states, depth), (2048, 2));
    assert_eq!(heads, [0, 2046]);
    assert_eq!(moves[3 * transitions as usize - 3..][..3], [2046, 2, 2047]);
    let (mut heads, mut moves) = ([5; 2], [5; 3 * MAX_TRANSITIONS]);
    let over = sized(MAX_STATES + 2);
    assert_eq!(refusal(build(&over, &mut heads, &mut moves)), (9, 0));
    assert_eq!((heads, moves), ([5; 2], [5; 3 * MAX_TRANSITIONS]));
    // Sizes far beyond any number type: each name has eight of the one below.
    let tower: Vec<_> = (1..64).map(|name| (2 * name, [2 * name - 2; 8])).collect();
    let tower = encode(64, &tower);
    assert_eq!(refusal(build(&tower, &mut [], &mut [])), (9, 0));
    assert_eq!(ordered(&tower), Ok((64, 63, 64, (1..=64).collect())));
}

#[test]
fn levels_of_names() {
    // The highest inner name of all rules of a name and of its inverse decides, and no shorter way down.
    let t = 4;
    let levels_of = |rules: &[(u8, Vec<u8>)]| ordered(&encode(4, rules)).unwrap().3;
    let by_both = [(S, vec![t]), (R, vec![t]), (inv(R), vec![inv(S), t])];
    assert_eq!(levels_of(&by_both), [3, 2, 1, 1]);
    let by_both = [(inv(R), vec![S]), (R, vec![t]), (inv(S), vec![inv(t)])];
    assert_eq!(levels_of(&by_both), [3, 2, 1, 1]);
    // Rules without an inner role leave a name at level 1; its own role is no inner one.
    let own = [(R, vec![R, R]), (R, vec![inv(R)]), (S, vec![S, R])];
    assert_eq!(levels_of(&own), [1, 2, 1, 1]);
    // Rules that come after what stands on them: 6 above 0 above 2 above 4.
    let late = [(6, vec![R]), (R, vec![S]), (S, vec![t])];
    assert_eq!(levels_of(&late), [3, 2, 1, 4]);
    // Of several inner names the highest counts, wherever it stands.
    let wide = [(6, vec![t, R, t]), (6, vec![t]), (R, vec![t])];
    assert_eq!(levels_of(&wide), [2, 1, 1, 3]);
    // The name with the most names below it, the last, is not the deepest.
    let broad = encode(7, &[(2, vec![0]), (4, vec![2]), (12, vec![6, 8, 10])]);
    assert_eq!(ordered(&broad), Ok((7, 3, 3, vec![1, 2, 3, 1, 1, 1, 2])));
}

#[test]
fn deepest_book() {
    let levels: Vec<u8> = (1..=64).collect();
    assert_eq!(ordered(&ladder(64)), Ok((64, 63, 64, levels.clone())));
    // Lent short, the first levels are written.
    for lent in 0..=66 {
        let mut given = vec![99; lent];
        assert_eq!(order(&ladder(64), &mut given), Ok((64, 63, 64)));
        let mut owed = levels.clone();
        owed.resize(66, 99);
        assert_eq!(given, owed[..lent]);
    }
    // The copies of a name have two states more than those of the name before it: 44 names have 1,980 states.
    let (mut heads, mut moves) = ([0; 64], [0; 3 * MAX_TRANSITIONS]);
    let built = build(&ladder(44), &mut heads, &mut moves);
    assert_eq!(built, Ok((1980, 2882, 44)));
    assert_eq!(refusal(build(&ladder(45), &mut heads, &mut moves)), (9, 0));
}

#[test]
fn levels_by_their_sentence() {
    let (mut with_order, mut deepest) = (0, 0);
    for seed in 0..4000 {
        let random = &mut Random::new(seed);
        let (names, rules) = match seed % 2 {
            0 => careless(random),
            _ => {
                let style = Style {
                    states: u64::MAX,
                    ..Style::draw(random)
                };
                (style.names, Draft::draw(random, &style).rules)
            }
        };
        if let Ok((.., depth, _)) = ordered(&encode(names as u8, &rules)) {
            with_order += 1;
            deepest = deepest.max(depth);
        }
    }
    assert!(with_order > 2000 && deepest > 16, "{with_order} {deepest}");
}

#[test]
fn lent_tables() {
    for heads_lent in 0..8 {
        for moves_lent in 0..60 {
            let (mut heads, mut moves) = (vec![9; heads_lent], vec![9; moves_lent]);
            let result = build(HALL, &mut heads, &mut moves);
            if heads_lent < 4 || moves_lent < 54 {
                assert_eq!(refusal(result), (11, 0));
                assert!(heads.iter().chain(&moves).all(|&number| number == 9));
            } else {
                assert_eq!(result, Ok((16, 18, 3)));
                assert!(heads[4..]
                    .iter()
                    .chain(&moves[54..])
                    .all(|&number| number == 9));
            }
        }
    }
    // A refused question leaves the lent slices as they were, and the book is refused before it.
    let (mut heads, mut moves) = ([9; 5], [9; 60]);
    let refusal = derived(HALL, &mut heads, &mut moves, DUE, &[]).unwrap_err();
    assert_eq!(refusal, Cause::ChainLength.into());
    assert_eq!((heads, moves), ([9; 5], [9; 60]));
    let refusal = derived(HALL, &mut heads[..3], &mut moves, DUE, &[]).unwrap_err();
    assert_eq!(refusal, Cause::ShortTables.into());
    assert_eq!(derived(HALL, &mut heads, &mut moves, DUE, &[DUE]), Ok(true));
    assert_eq!(heads, [0, 2, 6, 8, 9]);
    assert_eq!(moves[51..], [15, 128, 9, 9, 9, 9, 9, 9, 9]);
}

#[test]
fn question_limits() {
    let chain = [0];
    assert_eq!(refused(&[], &[], 0, &chain), 12);
    assert_eq!(refused(&[0; 65], &[], 0, &chain), 12);
    assert_eq!(ask(&[0; 64], &[], 127, &chain), Ok(false));
    assert_eq!(refused(&[0; 64], &[], 128, &chain), 14);
    assert_eq!(refused(&[2047], &[], 0, &chain), 12);
    assert_eq!(ask(&[2046], &[2046, 0, 2047], 0, &chain), Ok(true));
    assert_eq!(refused(&[0], &[0, 0, 1, 0], 0, &chain), 12);
    assert_eq!(refused(&[0], &[0, 0, 1, 0, 0], 0, &chain), 12);
    assert_eq!(ask(&[0], &[0; 15360], 0, &chain), Ok(false));
    assert_eq!(refused(&[0], &[0; 15363], 0, &chain), 12);
    assert_eq!(refused(&[0], &[2048, 0, 1], 0, &chain), 12);
    assert_eq!(refused(&[0], &[0, 0, 2048], 0, &chain), 12);
    assert_eq!(refused(&[0], &[0, 129, 1], 0, &chain), 12);
    assert_eq!(ask(&[0], &[0, 127, 1], 0, &chain), Ok(false));
    // Causes go 12, 13, 14.
    assert_eq!(refused(&[0], &[0, 129, 1], 9, &[]), 12);
    assert_eq!(refused(&[0], &[0, 128, 1], 9, &[]), 13);
    assert_eq!(refused(&[0], &[0, 128, 1], 0, &[0; 1025]), 13);
    assert_eq!(ask(&[0], &[0, 0, 1, 1, 128, 0], 0, &[0; 1024]), Ok(true));
    assert_eq!(ask(&[0], &[0, 0, 1, 1, 128, 0], 1, &[0; 1024]), Ok(false));
    assert_eq!(ask(&[0], &[0, 0, 1, 1, 128, 0], 1, &[1; 1024]), Ok(true));
    assert_eq!(refused(&[0], &[], 2, &chain), 14);
    assert_eq!(refused(&[0], &[], 0, &[0, 2]), 14);
    // The empty path spells no link; silent cycles end.
    assert_eq!(ask(&[0], &[0, 128, 1, 1, 128, 0], 0, &chain), Ok(false));
}

#[test]
fn many_questions_to_one_index() {
    let Tables { heads, moves } = tables(HALL);
    let mut indexed = Indexed::new(&heads, &moves).unwrap();
    for links in 1..=1024 {
        let mut chain = vec![PART; links];
        assert_eq!(indexed.ask(PART, &chain), Ok(true));
        chain[links - 1] = SITS;
        assert_eq!(indexed.ask(SITS, &chain), Ok(true));
        assert_eq!(indexed.ask(PART, &chain), Ok(false));
    }
}

/// A derivation as it is written, with more bytes lent than needed; none where the chain is not derived. Whatever the
/// answer, the other bytes keep their values.
fn written(book: &[u8], role: u8, chain: &[u8]) -> Result<Option<Vec<[u8; 4]>>, Refusal> {
    let before: Vec<u8> = (0..LENT_BYTES + 9)
        .map(|place| place as u8 ^ 0x5A)
        .collect();
    let mut lent = before.clone();
    let reply = write_derivation(book, role, chain, &mut lent);
    let count = reply.unwrap_or(None).unwrap_or(0) as usize;
    assert!(count <= MAX_STEPS);
    assert_eq!(lent[4 * count..], before[4 * count..]);
    let (steps, _) = lent.as_chunks();
    Ok(reply?.map(|_| steps[..count].to_vec()))
}

/// What the checker says of steps, which is what their sentence says.
fn checked(book: &[u8], role: u8, chain: &[u8], steps: &[[u8; 4]]) -> Result<bool, Refusal> {
    let reply = check_derivation(book, role, chain, steps.as_flattened());
    let owed = match steps::ending(&Book::read(book).unwrap(), role, steps) {
        Ok(ending) => Ok(ending == chain),
        Err(number) => Err(Refusal::at(Cause::Step, number)),
    };
    assert_eq!(reply, owed);
    reply
}

/// Whether a chain is derived, by the writer and by intervals; what is written leads to it.
fn derivable(book: &[u8], role: u8, chain: &[u8]) -> bool {
    let steps = written(book, role, chain).unwrap();
    let intervals = Intervals::new(&Book::read(book).unwrap()).roles(chain);
    assert_eq!(steps.is_some(), intervals >> role & 1 == 1);
    if let Some(steps) = &steps {
        assert_eq!(checked(book, role, chain, steps), Ok(true));
    }
    steps.is_some()
}

#[test]
fn hall_derivations() {
    let steps = written(HALL, DUE, &[PART, PART, SITS, LET]);
    // due; sits let; part sits let; part part sits let
    let by_hand = vec![[0, 0, 2, 0], [0, 0, 1, 0], [1, 0, 1, 0]];
    assert_eq!(steps, Ok(Some(by_hand)));
    // The inverses: inv let inv sits; then inv sits inv part at place 1.
    let steps = written(HALL, inv(DUE), &[inv(LET), inv(SITS), inv(PART)]);
    assert_eq!(steps, Ok(Some(vec![[0, 0, 2, 1], [1, 0, 1, 1]])));
    assert_eq!(written(HALL, DUE, &[DUE]), Ok(Some(Vec::new())));
    assert_eq!(written(HALL, DUE, &[SITS, PART, LET]), Ok(None));
    assert!(derivable(HALL, PART, &[PART; 16]));
    assert!(!derivable(HALL, SITS, &[PART; 16]));
}

#[test]
fn steps_by_hand() {
    let chain = [PART, PART, SITS, LET];
    let check = |steps: &[[u8; 4]]| checked(HALL, DUE, &chain, steps);
    let step = |number| Err(Refusal::at(Cause::Step, number));
    assert_eq!(check(&[[0, 0, 2, 0], [0, 0, 1, 0], [1, 0, 1, 0]]), Ok(true));
    // Another derivation of the same chain.
    assert_eq!(check(&[[0, 0, 2, 0], [0, 0, 1, 0], [0, 0, 0, 0]]), Ok(true));
    // Possible steps that end elsewhere.
    assert_eq!(check(&[]), Ok(false));
    assert_eq!(check(&[[0, 0, 2, 0], [0, 0, 1, 0]]), Ok(false));
    assert_eq!(checked(HALL, DUE, &[DUE], &[]), Ok(true));
    // No such place, rule or side, and another link there.
    assert_eq!(check(&[[1, 0, 2, 0]]), step(0));
    assert_eq!(check(&[[0, 1, 2, 0]]), step(0));
    assert_eq!(check(&[[0, 0, 2, 0], [2, 0, 1, 0]]), step(1));
    assert_eq!(check(&[[0, 0, 3, 0]]), step(0));
    assert_eq!(check(&[[0, 0, 2, 2]]), step(0));
    assert_eq!(check(&[[0, 0, 2, 1]]), step(0));
    assert_eq!(check(&[[0, 0, 2, 0], [0, 0, 0, 0]]), step(1));
    // The first impossible step counts, whatever follows.
    assert_eq!(check(&[[0, 0, 2, 0], [0, 0, 9, 0], [9, 9, 9, 9]]), step(1));
    // 16 links pass and 17 do not, though they could not end in the chain.
    let parts = [PART; 16];
    let mut steps = vec![[0, 0, 0, 0]; 15];
    assert_eq!(checked(HALL, PART, &parts, &steps), Ok(true));
    assert_eq!(checked(HALL, PART, &parts[1..], &steps), Ok(false));
    steps.push([0, 0, 0, 0]);
    assert_eq!(checked(HALL, PART, &parts, &steps), step(15));
    // Bytes that are not in fours come before any step.
    for length in [1, 2, 3, 5, 61] {
        let reply = check_derivation(HALL, DUE, &chain, &[9; 61][..length]);
        assert_eq!(refusal(reply), (17, 0));
    }
}

#[test]
fn derivation_refusals() {
    let mut lent = [7; LENT_BYTES];
    let mut both = |book: &[u8], role, chain: &[u8], owed| {
        let reply = write_derivation(book, role, chain, &mut lent);
        assert_eq!(refusal(reply), owed);
        assert_eq!(refusal(write_derivation(book, role, chain, &mut [])), owed);
        // What is wrong with the steps comes last.
        assert_eq!(refusal(check_derivation(book, role, chain, &[9])), owed);
        assert_eq!(lent, [7; LENT_BYTES]);
    };
    both(&HALL[..19], 9, &[], (5, 2));
    both(&encode(2, &[(R, [S]), (S, [R])]), 9, &[], (8, 1));
    // 0 links and over 1,024 come before a bad role, that before over 16 links.
    both(HALL, 9, &[], (13, 0));
    both(HALL, PART, &[], (13, 0));
    both(HALL, 9, &[PART; 1025], (13, 0));
    both(HALL, 8, &[PART; 17], (14, 0));
    both(HALL, PART, &[8; 17], (14, 0));
    both(HALL, PART, &[8], (14, 0));
    both(HALL, PART, &[PART; 17], (15, 0));
    both(HALL, PART, &[PART; 1024], (15, 0));
    // A buffer lent too short is refused before the answer is known.
    for chain in [&[PART][..], &[SITS], &[PART; 16]] {
        let reply = write_derivation(HALL, PART, chain, &mut lent[1..]);
        assert_eq!(refusal(reply), (16, 0));
        let reply = write_derivation(HALL, PART, chain, &mut []);
        assert_eq!(refusal(reply), (16, 0));
    }
    assert_eq!(lent, [7; LENT_BYTES]);
    assert_eq!(
        write_derivation(HALL, PART, &[PART; 2], &mut lent),
        Ok(Some(1))
    );
    assert_eq!(lent[..5], [0, 0, 0, 0, 7]);
}

#[test]
fn derivations_of_any_length() {
    // inv(R) to R: rule, inverse, rule and so on for ever.
    let symmetric = encode(1, &[(R, [inv(R)])]);
    let mut steps: Vec<[u8; 4]> = [[0; 4], [0, 0, 0, 1]].repeat(40_000);
    assert_eq!(checked(&symmetric, R, &[R], &steps), Ok(true));
    assert_eq!(checked(&symmetric, R, &[inv(R)], &steps), Ok(false));
    steps.push([0, 0, 0, 1]);
    assert_eq!(
        checked(&symmetric, R, &[R], &steps),
        Err(Refusal::at(Cause::Step, 80_000))
    );
    steps[80_000] = [0; 4];
    assert_eq!(checked(&symmetric, R, &[inv(R)], &steps), Ok(true));
}

#[test]
fn long_ways_of_one_link_rules() {
    // From the last name down to the inverse of the first takes 64 steps, and 15 make 16 links of it.
    let steps = written(&long_ways(), 126, &[1; 16]).unwrap().unwrap();
    assert_eq!(steps.len(), 15 + 16 * 64);
    assert!(derivable(&long_ways(), 126, &[1; 16]));
    // More than 2,048 states are no matter.
    let (mut heads, mut moves) = ([0; 64], [0; 3 * MAX_TRANSITIONS]);
    let reply = build(&long_ways(), &mut heads, &mut moves);
    assert_eq!(refusal(reply), (9, 0));
}

#[test]
fn derivations_by_other_methods() {
    let (mut yes, mut no, mut most) = (0, 0, 0);
    for seed in 0..3000 {
        let random = &mut Random::new(seed);
        let style = Style {
            states: random.pick(&[MAX_STATES as u64, u64::MAX]),
            ..Style::draw(random)
        };
        let draft = Draft::draw(random, &style);
        let (book, names) = (draft.bytes(), draft.names);
        let replacements = Replacements::new(names, &draft.rules);
        let role = random.below(2 * names) as u8;
        let links = random.between(1, 16);
        let derived = replacements.derive(random, role, links);
        assert!(derivable(&book, role, &derived));
        let steps = written(&book, role, &derived).unwrap().unwrap();
        most = most.max(steps.len());
        let near = chains::nearly(random, &derived, names);
        if near.len() <= 16 {
            let found = derivable(&book, role, &near);
            (yes, no) = (yes + u64::from(found), no + u64::from(!found));
            if near.len() <= 6 {
                let read = Book::read(&book).unwrap();
                if let Some(roles) = Rewriting::new(&read).roles(&near, 2000) {
                    assert_eq!(roles >> role & 1 == 1, found);
                }
            }
        }
        // Each byte of a short derivation changed, and its front parts.
        for number in 0..steps.len().min(4) {
            for byte in 0..4 {
                let mut damaged = steps.clone();
                damaged[number][byte] = random.below(4) as u8;
                let _ = checked(&book, role, &derived, &damaged);
                damaged[number][byte] = random.byte();
                let _ = checked(&book, role, &derived, &damaged);
            }
            let _ = checked(&book, role, &derived, &steps[..number]);
        }
    }
    assert!(yes > 300 && no > 300 && most > 15, "{yes} {no} {most}");
}
