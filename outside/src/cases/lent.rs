//! Cases with lent tables and levels of every length.

use crate::books::{Draft, Style};
use crate::random::Random;
use crate::trial::{Met, Trial};

pub const PAIRS: &[Met] = &[Met::Accepted("build"), Met::Refused("build", 11)];

pub const LENGTHS: &[Met] = &[
    Met::Accepted("build"),
    Met::Refused("build", 11),
    Met::Yes("derived"),
    Met::Refused("derived", 11),
];

pub const LEVELS: &[Met] = &[
    Met::Accepted("order"),
    Met::Refused("order", 8),
    Met::Counted("levels by their sentence"),
];

/// Every number of levels, for a book and for it with one more rule that leaves it without an order.
pub fn every_level(trial: &mut Trial, book: &[u8]) {
    let mut without = book.to_vec();
    let rules = u16::from_le_bytes([book[6], book[7]]) + 1;
    without[6..8].copy_from_slice(&rules.to_le_bytes());
    without.extend([0, 1, 0]);
    for levels in 0..=70 {
        trial.order(book, levels);
        trial.order(&without, levels);
    }
}

/// Every number of heads with every number of moves up to a few past what the book needs.
pub fn every_pair(trial: &mut Trial, book: &[u8]) {
    let needed = needed(trial, book);
    for heads in 0..=70 {
        for moves in 0..=needed + 10 {
            trial.build(book, heads, moves);
        }
    }
}

/// Every number of moves with a few numbers of heads, and the other way round.
pub fn every_length(trial: &mut Trial, book: &[u8]) {
    let needed = needed(trial, book);
    let names = usize::from(book[5]);
    for moves in 0..=needed + 10 {
        for heads in [names - 1, names] {
            trial.build(book, heads, moves);
        }
        if moves % 16 == 0 {
            trial.derived(book, 64, moves, 0, &[0]);
        }
    }
    for heads in 0..=70 {
        for moves in [needed - 1, needed, needed + 1, needed + 10] {
            trial.build(book, heads, moves);
            trial.derived(book, heads, moves, 1, &[1]);
        }
    }
}

/// A book of so many states, for the lengths that large tables need.
pub fn sized(random: &mut Random, states: u64) -> Vec<u8> {
    loop {
        let style = Style {
            states: states / 2,
            ..Style::draw(random)
        };
        let mut draft = Draft::draw(random, &style);
        if draft.names > 1 && draft.fill(random, states) {
            return draft.bytes();
        }
    }
}

/// How many numbers the moves of an accepted book take.
fn needed(trial: &mut Trial, book: &[u8]) -> usize {
    let tables = trial.build(book, 64, 15360);
    tables.expect("the book is accepted").moves.len()
}
