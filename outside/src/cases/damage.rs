//! Cases with damaged books: what is left of a book when bytes are changed, missing or too many.

use crate::books::encode;
use crate::plain::binding::network_bytes;
use crate::plain::derivation_writer::LENT_BYTES;
use crate::random::Random;
use crate::trial::{Met, Trial};

/// Changed bytes are refused by all that a reader looks for but the number of bytes, and some are a book.
pub const BYTES: &[Met] = &[
    Met::Accepted("build"),
    Met::Refused("build", 2),
    Met::Refused("build", 3),
    Met::Refused("build", 4),
    Met::Refused("build", 5),
    Met::Refused("build", 6),
];

/// Front parts are too short, or end inside a rule; longer books have bytes after the last.
pub const FRONT_PARTS: &[Met] = &[
    Met::Accepted("build"),
    Met::Refused("build", 1),
    Met::Refused("build", 5),
];

pub const LENGTHS: &[Met] = &[
    Met::Accepted("read"),
    Met::Refused("build", 1),
    Met::Refused("build", 2),
    Met::Refused("build", 5),
    Met::Refused("build", 6),
    Met::Refused("build", 8),
];

/// Puts bytes to all seven calls that take a book, with a short question.
pub fn any_book(trial: &mut Trial, random: &mut Random, book: &[u8]) {
    trial.read(book);
    let ordered = trial.order(book, random.pick(&[0, 5, 64, 70])).cause == 0;
    let moves = if ordered { 15360 } else { 100 };
    trial.build(book, 64, moves);
    trial.build(book, 0, 0);
    let role = random.below(8) as u8;
    let chain = [role, random.below(8) as u8];
    let chain = &chain[random.below(2)..];
    trial.derived(book, 64, moves, role, chain);
    trial.write_derivation(book, role, chain, LENT_BYTES);
    trial.check_derivation(book, role, chain, &[0; 4]);
    trial.binds(book, role, chain, network_bytes(64, chain.len()));
}

/// Sets one byte of a book to these values.
pub fn byte(
    trial: &mut Trial,
    random: &mut Random,
    book: &[u8],
    place: usize,
    values: impl Iterator<Item = u8>,
) {
    let mut damaged = book.to_vec();
    for value in values {
        damaged[place] = value;
        any_book(trial, random, &damaged);
    }
}

/// All front parts of a book, and the book with up to a few bytes more.
pub fn front_parts(trial: &mut Trial, random: &mut Random, book: &[u8]) {
    for length in 0..=book.len() {
        any_book(trial, random, &book[..length]);
    }
    let mut longer = book.to_vec();
    for _ in 0..12 {
        longer.push(random.byte());
        any_book(trial, random, &longer);
    }
}

/// Random bytes of this length: alone, after a valid header, and after the header of a book of small roles.
pub fn length(trial: &mut Trial, random: &mut Random, length: usize) {
    let mut bytes = random.bytes(length);
    any_book(trial, random, &bytes);
    let names = random.between(1, 64) as u8;
    let rules = random.between(0, 256) as u16;
    let mut header = encode(names, &[] as &[(u8, Vec<u8>)]);
    header[6..8].copy_from_slice(&rules.to_le_bytes());
    let front = length.min(header.len());
    bytes[..front].copy_from_slice(&header[..front]);
    any_book(trial, random, &bytes);
    let bytes = rules_of_length(random, length);
    any_book(trial, random, &bytes);
}

/// Bytes that are read rule by rule to the end or nearly so: the last rule is cut, or a byte or two are left over.
fn rules_of_length(random: &mut Random, length: usize) -> Vec<u8> {
    let names = random.between(2, 64);
    let mut rules = Vec::new();
    let mut left = length.saturating_sub(8);
    while left >= 3 && rules.len() < 256 {
        let roles = random.between(1, 8).min(left - 2);
        let any = |random: &mut Random| random.below(2 * names) as u8;
        let right = any(random);
        rules.push((right, (0..roles).map(|_| any(random)).collect::<Vec<u8>>()));
        left -= 2 + roles;
    }
    let mut bytes = encode(names as u8, &rules);
    if random.percent(30) && !rules.is_empty() {
        let count = (rules.len() as u16).saturating_add_signed(random.between(0, 2) as i16 - 1);
        bytes[6..8].copy_from_slice(&count.to_le_bytes());
    }
    bytes.resize(length, 0);
    bytes
}
