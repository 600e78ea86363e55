//! A short selection: document 01's own examples with the numbers that it gives, then a little of every other trial.

use outside::archive::{self, Reply};
use outside::books::{encode, fullest, ladder, longest, HALL};
use outside::cases::{binding, books, damage, derivations, lent, tables};
use outside::trial::run_exactly;

fn accepted(first: u64, second: u64, third: u64) -> Reply {
    Reply {
        cause: 0,
        first,
        second,
        third,
    }
}

fn refused(cause: u64, value: u64) -> Reply {
    Reply {
        cause,
        first: value,
        second: 0,
        third: 0,
    }
}

#[rustfmt::skip]
const HALL_MOVES: [u16; 54] = [
    0, 0, 1,  1, 128, 0,
    2, 2, 3,  2, 128, 4,  4, 0, 5,  5, 128, 4,  5, 128, 2,
    6, 4, 7,
    8, 6, 9,  8, 128, 10,  10, 2, 11,  10, 128, 12,  12, 0, 13,  13, 128, 12,  13, 128, 10,
    11, 128, 14,  14, 4, 15,  15, 128, 9,
];

#[test]
fn hall() {
    assert_eq!(archive::read(HALL), accepted(4, 3, 0));
    let mut levels = [99; 6];
    assert_eq!(archive::order(HALL, &mut levels), accepted(4, 3, 3));
    assert_eq!(levels, [1, 2, 1, 3, 99, 99]);
    let (mut heads, mut moves) = ([99; 6], [99; 60]);
    let reply = archive::build(HALL, &mut heads, &mut moves);
    assert_eq!(reply, accepted(16, 18, 3));
    assert_eq!(heads, [0, 2, 6, 8, 99, 99]);
    assert_eq!(moves[..54], HALL_MOVES);
    assert_eq!(moves[54..], [99; 6]);
    let questions: [(u8, &[u8], Reply); 7] = [
        (6, &[0, 0, 2, 4], Reply::answered(true)),
        (6, &[2, 0, 4], Reply::answered(false)),
        (7, &[5, 3, 1], Reply::answered(true)),
        (6, &[], refused(13, 0)),
        (6, &[8], refused(14, 0)),
        (6, &[6], Reply::answered(true)),
        (2, &[0], Reply::answered(false)),
    ];
    for (role, chain, owed) in questions {
        let reply = archive::ask(&heads[..4], &moves[..54], role, chain);
        assert_eq!(reply, owed);
        let (mut heads, mut moves) = ([99; 4], [99; 54]);
        let reply = archive::derived(HALL, &mut heads, &mut moves, role, chain);
        assert_eq!(reply, owed);
        let written = if owed.cause == 0 {
            ([0, 2, 6, 8], HALL_MOVES)
        } else {
            ([99; 4], [99; 54])
        };
        assert_eq!((heads, moves), written);
    }
}

#[test]
fn worked_books() {
    const R: u8 = 0;
    const S: u8 = 2;
    let no_rule: &[(u8, Vec<u8>)] = &[];
    let order = |names, rules: &[(u8, Vec<u8>)]| archive::order(&encode(names, rules), &mut []);
    assert_eq!(order(1, &[(R, vec![R])]), refused(8, 0));
    assert_eq!(order(2, &[(R, vec![S]), (S, vec![R])]), refused(8, 1));
    assert_eq!(
        order(1, &[(R, vec![R ^ 1]), (R ^ 1, vec![R])]),
        refused(7, 1)
    );
    assert_eq!(order(2, &[(R, vec![R, S, R])]), refused(8, 0));
    assert_eq!(order(2, &[(R, vec![R, R ^ 1])]), refused(8, 0));
    assert_eq!(order(0, no_rule), refused(4, 0));
    assert_eq!(order(2, &[(R, vec![S; 8])]), accepted(2, 1, 2));
    assert_eq!(order(2, &[(R, vec![S; 9])]), refused(5, 0));
    let (mut heads, mut moves) = ([99; 1], [99; 3]);
    let reply = archive::build(&encode(1, no_rule), &mut heads, &mut moves);
    assert_eq!(reply, accepted(2, 1, 1));
    assert_eq!((heads, moves), ([0], [0, 0, 1]));
    let derived = |rules: &[(u8, Vec<u8>)], role, chain: &[u8]| {
        let book = encode(2, rules);
        archive::derived(&book, &mut [0; 2], &mut [0; 300], role, chain)
    };
    let symmetric = [(R, vec![R ^ 1]), (R, vec![S, R])];
    assert_eq!(derived(&symmetric, R, &[R, S ^ 1]), Reply::answered(true));
    let exactly = [(R, vec![S, S ^ 1, S])];
    assert_eq!(derived(&exactly, R, &[S]), Reply::answered(false));
    let form3 = [(S, vec![R, S])];
    assert_eq!(derived(&form3, S, &[R, S]), Reply::answered(true));
    assert_eq!(derived(&form3, S, &[S, R]), Reply::answered(false));
    let form2 = [(S, vec![S, R])];
    assert_eq!(derived(&form2, S, &[R, S]), Reply::answered(false));
    assert_eq!(derived(&form2, S, &[S, R]), Reply::answered(true));
}

/// Levels by hand: of the deepest book, and of names whose rules have their inverse on the right.
#[test]
fn levels() {
    let mut levels = [0; 64];
    let reply = archive::order(&ladder(64), &mut levels);
    assert_eq!(reply, accepted(64, 63, 64));
    assert!(levels.into_iter().eq(1..=64));
    let reply = archive::build(&ladder(44), &mut [0; 44], &mut [0; 15360]);
    assert_eq!(reply, accepted(1980, 2882, 44));
    let inverses = encode(3, &[(1, vec![2]), (0, vec![4]), (3, vec![5, 3])]);
    let mut levels = [0; 3];
    assert_eq!(archive::order(&inverses, &mut levels), accepted(3, 3, 3));
    assert_eq!(levels, [3, 2, 1]);
}

/// Derivations of the hall book that are the only ones, and what both calls refuse.
#[test]
fn hall_derivations() {
    let written: [(u8, &[u8], Reply, &[u8]); 6] = [
        (6, &[2, 4], accepted(1, 1, 0), &[0, 0, 2, 0]),
        (7, &[5, 3, 1], accepted(1, 2, 0), &[0, 0, 2, 1, 1, 0, 1, 1]),
        (6, &[6], accepted(1, 0, 0), &[]),
        (6, &[2, 0, 4], accepted(0, 0, 0), &[]),
        (6, &[], refused(13, 0), &[]),
        (6, &[8; 17], refused(14, 0), &[]),
    ];
    for (role, chain, owed, steps) in written {
        let mut lent = [99; 16_384];
        let reply = archive::write_derivation(HALL, role, chain, &mut lent);
        assert_eq!(reply, owed);
        assert_eq!(lent[..steps.len()], *steps);
        assert!(lent[steps.len()..].iter().all(|&byte| byte == 99));
        let owed = match owed.cause {
            0 => Reply::answered(chain != [2, 0, 4]),
            _ => owed,
        };
        let steps = if chain == [2, 0, 4] {
            &[0, 0, 2, 0]
        } else {
            steps
        };
        assert_eq!(archive::check_derivation(HALL, role, chain, steps), owed);
    }
    let write =
        |chain: &[u8], lent: usize| archive::write_derivation(HALL, 0, chain, &mut vec![0; lent]);
    assert_eq!(write(&[0; 17], 0), refused(15, 0));
    assert_eq!(write(&[2], 16_383), refused(16, 0));
    assert_eq!(write(&[2], 16_384), accepted(0, 0, 0));
    assert_eq!(write(&[0; 16], 16_384), accepted(1, 15, 0));
    let check = |steps: &[u8]| archive::check_derivation(HALL, 6, &[2, 4], steps);
    assert_eq!(check(&[]), Reply::answered(false));
    assert_eq!(check(&[0, 0, 2]), refused(17, 0));
    assert_eq!(check(&[0, 0, 2, 0, 0, 0, 2, 0]), refused(17, 1));
}

/// What binds in the book of request F-4, in the hall book, and in one without a rule, with the networks by hand.
#[test]
fn worked_networks() {
    let serves = encode(2, &[(2, [0, 1, 0])]);
    let none = encode(2, &[] as &[(u8, [u8; 0])]);
    let written = |book: &[u8], role: u8, chain: &[u8], network: &[u8]| {
        let mut lent = [99; 128];
        let reply = archive::binds(book, role, chain, &mut lent);
        assert_eq!(reply, Reply::answered(network.is_empty()));
        assert_eq!(lent[..network.len()], *network);
        assert!(lent[network.len()..].iter().all(|&byte| byte == 99));
    };
    written(&serves, 2, &[0], &[]);
    written(&serves, 3, &[1], &[]);
    written(&serves, 2, &[1], &[0, 0, 1, 0, 0, 0, 1, 0]);
    written(&none, 3, &[0], &[0, 1, 0, 0, 0, 0, 0, 0]);
    written(&none, 3, &[3], &[]);
    written(HALL, 6, &[0, 0, 2, 4], &[]);
    let refusal = |role: u8, chain: &[u8], bytes: usize| {
        let mut lent = vec![99; bytes];
        let reply = archive::binds(HALL, role, chain, &mut lent);
        assert_eq!(lent, vec![99; bytes]);
        reply
    };
    assert_eq!(refusal(8, &[], 20_000), refused(13, 0));
    assert_eq!(refusal(8, &[0; 17], 0), refused(14, 0));
    assert_eq!(refusal(0, &[0; 17], 0), refused(15, 0));
    assert_eq!(refusal(0, &[0; 16], 1155), refused(16, 0));
    assert_eq!(refusal(0, &[0; 16], 1156), Reply::answered(true));
}

#[test]
fn a_little_of_binding() {
    run_exactly("networks", 60, binding::NETWORKS, binding::networks);
    run_exactly("limits", 1, binding::LIMITS, |trial, random| {
        binding::limits(trial, random, HALL);
    });
}

#[test]
fn a_little_of_derivations() {
    run_exactly("written", 60, derivations::WRITTEN, derivations::written);
    run_exactly("damaged", 30, derivations::DAMAGED, derivations::damaged);
    run_exactly("limits", 1, derivations::LIMITS, |trial, random| {
        derivations::limits(trial, random, HALL);
    });
    run_exactly("to_and_fro", 1, derivations::LONG, |trial, _| {
        derivations::to_and_fro(trial, 80_000);
    });
}

#[test]
fn a_little_of_books() {
    run_exactly("valid", 100, books::VALID, books::valid);
    run_exactly("near_limit", 30, books::NEAR_LIMIT, books::near_limit);
    run_exactly("over_limit", 30, books::OVER_LIMIT, books::over_limit);
    run_exactly(
        "without_order",
        300,
        books::WITHOUT_ORDER,
        books::without_order,
    );
    run_exactly("any_rules", 500, books::ANY_RULES, books::any_rules);
}

#[test]
fn a_little_of_damage() {
    run_exactly("every_byte_of_hall", 1, damage::BYTES, |trial, random| {
        for place in 0..HALL.len() {
            damage::byte(trial, random, HALL, place, 0..=255);
        }
    });
    run_exactly("front_parts", 1, damage::FRONT_PARTS, |trial, random| {
        for book in [HALL.to_vec(), longest(random), fullest(random)] {
            damage::front_parts(trial, random, &book);
        }
    });
    run_exactly("every_length", 1, damage::LENGTHS, |trial, random| {
        for length in 0..=2700 {
            damage::length(trial, random, length);
        }
    });
}

#[test]
fn a_little_of_lent_tables() {
    run_exactly("every_pair", 1, lent::LENGTHS, |trial, random| {
        lent::every_pair(trial, HALL);
        let book = lent::sized(random, 100);
        lent::every_length(trial, &book);
    });
    run_exactly("every_level", 1, lent::LEVELS, |trial, _| {
        lent::every_level(trial, HALL);
    });
}

#[test]
fn a_little_of_tables() {
    run_exactly("graphs", 300, tables::GRAPH, tables::graph);
    run_exactly("limits", 1000, tables::LIMIT, tables::limit);
    run_exactly("silent_cycles", 20, tables::CYCLE, tables::cycle);
    run_exactly("role_bytes", 1, tables::ROLES, |trial, random| {
        for heads in [1, 2, 64] {
            tables::roles(trial, random, heads);
        }
    });
}
