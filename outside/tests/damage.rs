//! Damaged books: bytes changed, missing or too many.

use outside::books::{fullest, longest, Draft, Style, HALL};
use outside::cases::damage;
use outside::random::Random;
use outside::trial::{run, run_exactly};

/// A book of all five forms, with some hundred bytes.
fn middle(random: &mut Random) -> Vec<u8> {
    let style = Style {
        names: 9,
        rules: 24,
        inner: 3,
        forms: vec![1, 1, 2, 3, 4, 5],
        inverses: 40,
        near: 0,
        leaves: 4,
        states: 300,
    };
    Draft::draw(random, &style).bytes()
}

#[test]
fn every_byte_of_hall() {
    run_exactly("every_byte_of_hall", 1, damage::BYTES, |trial, random| {
        for place in 0..HALL.len() {
            damage::byte(trial, random, HALL, place, 0..=255);
        }
    });
}

#[test]
fn every_byte_of_middle() {
    run("every_byte_of_middle", 2, damage::BYTES, |trial, random| {
        let book = middle(random);
        for place in 0..book.len() {
            damage::byte(trial, random, &book, place, 0..=255);
        }
    });
}

#[test]
fn every_byte_of_largest() {
    run(
        "every_byte_of_largest",
        2,
        damage::BYTES,
        |trial, random| {
            for book in [longest(random), fullest(random)] {
                for place in 0..book.len() {
                    let value = random.byte();
                    let values = [value, value ^ 1, random.byte(), book[place] ^ 1];
                    damage::byte(trial, random, &book, place, values.into_iter());
                }
            }
        },
    );
}

#[test]
fn front_parts() {
    run("front_parts", 10, damage::FRONT_PARTS, |trial, random| {
        damage::front_parts(trial, random, HALL);
        for book in [middle(random), longest(random), fullest(random)] {
            damage::front_parts(trial, random, &book);
        }
    });
}

#[test]
fn every_length() {
    run("every_length", 5, damage::LENGTHS, |trial, random| {
        for length in 0..=2700 {
            damage::length(trial, random, length);
        }
    });
}
