//! Lent tables and levels of every length from 0 to past what is needed.

use outside::books::{encode, ladder, HALL};
use outside::cases::lent;
use outside::trial::{run, run_exactly};

#[test]
fn every_pair() {
    run_exactly("every_pair", 1, lent::PAIRS, |trial, _| {
        lent::every_pair(trial, HALL);
        lent::every_pair(trial, &encode(1, &[] as &[(u8, Vec<u8>)]));
        lent::every_pair(trial, &encode(64, &[(0, [2, 3]), (126, [126, 126])]));
    });
}

#[test]
fn every_length() {
    run("every_length", 10, lent::LENGTHS, |trial, random| {
        let states = 2 * random.between(10, 400) as u64;
        let book = lent::sized(random, states);
        lent::every_length(trial, &book);
    });
}

#[test]
fn every_length_of_largest() {
    run(
        "every_length_of_largest",
        1,
        lent::LENGTHS,
        |trial, random| {
            let book = lent::sized(random, 2048);
            lent::every_length(trial, &book);
        },
    );
}

#[test]
fn every_number_of_levels() {
    run(
        "every_number_of_levels",
        50,
        lent::LEVELS,
        |trial, random| {
            lent::every_level(trial, HALL);
            for names in [1, 2, 63, 64] {
                lent::every_level(trial, &ladder(names));
            }
            let states = 2 * random.between(10, 400) as u64;
            lent::every_level(trial, &lent::sized(random, states));
        },
    );
}
