//! Cases with written derivations: the writer on books and chains of every kind, the checker on derivations that are
//! whole, damaged, cut and lengthened.

use crate::archive::Reply;
use crate::books::{encode, Axiom, Draft, Style, MOST_STATES};
use crate::chains::{self, Replacements};
use crate::plain::book::Book;
use crate::plain::derivation_checker::MAX_DERIVED_LINKS;
use crate::plain::derivation_writer::LENT_BYTES;
use crate::plain::intervals::Intervals;
use crate::random::Random;
use crate::trial::{hex, Met, Trial};

const WRITE: &str = "write_derivation";
const CHECK: &str = "check_derivation";

pub const WRITTEN: &[Met] = &[
    Met::Yes(WRITE),
    Met::No(WRITE),
    Met::Yes(CHECK),
    Met::Counted("books over 2,048 states"),
    Met::Counted("chains of 16 links derived"),
    Met::Counted("questions by intervals"),
];

/// Chains derived, nearly derived and random, from every role or a few, for a book with an order and any number of
/// states.
pub fn written(trial: &mut Trial, random: &mut Random) {
    let draft = drawn(random);
    let book = draft.bytes();
    let names = draft.names;
    if draft.states() > MOST_STATES {
        trial.count("books over 2,048 states", 1);
    }
    let intervals = Intervals::new(&Book::read(&book).expect("a drawn book is read"));
    let replacements = Replacements::new(names, &draft.rules);
    for _ in 0..4 {
        let asked = random.below(2 * names) as u8;
        let links = random.between(1, MAX_DERIVED_LINKS);
        let derived = replacements.derive(random, asked, links);
        let steps = write(trial, random, &book, asked, &derived);
        let input = [("book", hex(&book)), ("chain", hex(&derived))];
        trial.check(steps.is_some(), "a derived chain has no steps", &input);
        if derived.len() == MAX_DERIVED_LINKS {
            trial.count("chains of 16 links derived", 1);
        }
        let near = chains::nearly(random, &derived, names);
        let any = chains::random(random, names, links);
        for chain in [derived, near, any] {
            if chain.len() > MAX_DERIVED_LINKS {
                continue;
            }
            let roles = intervals.roles(&chain);
            let few = if names > 5 { 6 } else { 2 * names };
            for number in 0..few {
                let role = (usize::from(asked) + number) % (2 * names);
                let steps = write(trial, random, &book, role as u8, &chain);
                let same = steps.is_some() == (roles >> role & 1 == 1);
                let input = [("book", hex(&book)), ("chain", hex(&chain))];
                trial.check(same, "the writer and intervals differ", &input);
                trial.count("questions by intervals", 1);
            }
        }
    }
}

pub const DAMAGED: &[Met] = &[
    Met::Yes(CHECK),
    Met::No(CHECK),
    Met::Refused(CHECK, 17),
    Met::Counted("derivations cut inside a step"),
    Met::Counted("derivations lengthened"),
];

/// A derivation with each byte changed, cut at each byte, with steps left out, doubled and swapped, lengthened, and for
/// another role and chain.
pub fn damaged(trial: &mut Trial, random: &mut Random) {
    let draft = drawn(random);
    let book = draft.bytes();
    let names = draft.names;
    let replacements = Replacements::new(names, &draft.rules);
    let role = random.below(2 * names) as u8;
    let links = random.between(1, MAX_DERIVED_LINKS);
    let chain = replacements.derive(random, role, links);
    let steps = write(trial, random, &book, role, &chain).unwrap_or_default();
    // Long derivations are damaged in a part.
    let places = || (0..steps.len()).step_by(1 + steps.len() / 200);
    for place in places() {
        let mut damaged = steps.clone();
        for value in [
            0,
            1,
            2,
            255,
            steps[place] ^ 1,
            steps[place].wrapping_add(1),
            random.byte(),
        ] {
            damaged[place] = value;
            trial.check_derivation(&book, role, &chain, &damaged);
        }
        trial.check_derivation(&book, role, &chain, &steps[..place]);
        if place % 4 != 0 {
            trial.count("derivations cut inside a step", 1);
        }
    }
    for step in places().step_by(4).map(|place| place / 4) {
        let (front, back) = steps.split_at(4 * step);
        let (first, rest) = back.split_at(4);
        for changed in [
            [front, rest].concat(),
            [front, first, back].concat(),
            [back, front].concat(),
        ] {
            trial.check_derivation(&book, role, &chain, &changed);
        }
    }
    for byte in 0..5 {
        let more = [&steps[..], &random.bytes(byte)].concat();
        trial.check_derivation(&book, role, &chain, &more);
    }
    trial.check_derivation(&book, role, &chain, &[&steps[..], &steps].concat());
    trial.check_derivation(&book, role ^ 1, &chain, &steps);
    let near = chains::nearly(random, &chain, names);
    trial.check_derivation(&book, role, &near, &steps);
    for _ in 0..20 {
        let length = random.between(0, 6);
        let any = possible(random, &book, role, length);
        trial.check_derivation(&book, role, &chain, &any);
    }
    lengthened(trial, random, &draft, &chain, &steps);
}

/// A derivation that goes to and fro on a symmetric relation before it goes on.
fn lengthened(trial: &mut Trial, random: &mut Random, draft: &Draft, chain: &[u8], steps: &[u8]) {
    let symmetric = |(right, left): &Axiom| left[..] == [right ^ 1];
    let Some(number) = draft.rules.iter().position(symmetric) else {
        return;
    };
    let right = draft.rules[number].0;
    let book = draft.bytes();
    let round = [[0, 0, number as u8, 0], [0, 0, number as u8, 1]];
    let rounds = round.repeat(random.between(1, 40)).concat();
    let longer = [&rounds[..], steps].concat();
    trial.check_derivation(&book, right, chain, &longer);
    trial.check_derivation(&book, right, &[right], &rounds);
    trial.check_derivation(&book, right, &[right ^ 1], &rounds[4..]);
    trial.count("derivations lengthened", 1);
}

pub const LIMITS: &[Met] = &[
    Met::Yes(WRITE),
    Met::No(WRITE),
    Met::Refused(WRITE, 13),
    Met::Refused(WRITE, 14),
    Met::Refused(WRITE, 15),
    Met::Refused(WRITE, 16),
    Met::Yes(CHECK),
    Met::Refused(CHECK, 13),
    Met::Refused(CHECK, 14),
    Met::Refused(CHECK, 15),
    Met::Refused(CHECK, 17),
];

/// Each number of links at and past a limit, with good and bad roles, with buffers at and past theirs, and with no step,
/// a part of a step, a possible and an impossible one.
pub fn limits(trial: &mut Trial, random: &mut Random, book: &[u8]) {
    let names = usize::from(book[5]);
    let past = random.between(2 * names, 255) as u8;
    for links in [0, 1, 2, 15, 16, 17, 18, 1023, 1024, 1025, 1026] {
        let role = random.below(2 * names) as u8;
        let same = vec![role; links];
        let any = chains::random(random, names, links);
        let mut bad = any.clone();
        if links > 0 {
            bad[random.below(links)] = past;
        }
        let last_bad = [&any[..links.saturating_sub(1)], &[2 * names as u8]].concat();
        for chain in [same, any, bad, last_bad] {
            for role in [role, past, 2 * names as u8] {
                for lent in [0, 4, 16_383, LENT_BYTES, 16_385, 20_000] {
                    trial.write_derivation(book, role, &chain, lent);
                }
                let step = possible(random, book, role, 1);
                for steps in [&[][..], &[0], &step, &[0, 0, 0, 2], &[0; 7], &[255; 8]] {
                    trial.check_derivation(book, role, &chain, steps);
                }
            }
        }
    }
}

pub const LONG: &[Met] = &[Met::Yes(CHECK), Met::No(CHECK), Met::Refused(CHECK, 17)];

/// So many steps to and fro on a symmetric relation, and one more that is possible or not.
pub fn to_and_fro(trial: &mut Trial, steps: usize) {
    let book = encode(1, &[(0, [1])]);
    let mut bytes = [[0; 4], [0, 0, 0, 1]].repeat(steps / 2 + 1).concat();
    bytes.truncate(4 * steps);
    let end = (steps % 2) as u8;
    trial.check_derivation(&book, 0, &[end], &bytes);
    trial.check_derivation(&book, 0, &[end ^ 1], &bytes);
    for side in [0, 1] {
        bytes.extend([0, 0, 0, side]);
        let reply = trial.check_derivation(&book, 0, &[end ^ 1], &bytes);
        let input = [("steps", steps.to_string()), ("side", side.to_string())];
        let owed = match side == end {
            true => Reply::answered(true),
            false => refused(17, steps as u64),
        };
        trial.check(reply == owed, "one step more", &input);
        bytes.truncate(4 * steps);
    }
}

fn refused(cause: u64, value: u64) -> Reply {
    Reply {
        cause,
        first: value,
        second: 0,
        third: 0,
    }
}

/// The writer and both checkers, with enough bytes lent and sometimes more.
fn write(
    trial: &mut Trial,
    random: &mut Random,
    book: &[u8],
    role: u8,
    chain: &[u8],
) -> Option<Vec<u8>> {
    let lent = LENT_BYTES + random.pick(&[0, 0, 1, 2, 3, 4, 1000]);
    trial.write_derivation(book, role, chain, lent)
}

/// A book with an order, within the state limit or not.
pub fn drawn(random: &mut Random) -> Draft {
    let style = Style {
        states: random.pick(&[MOST_STATES, u64::MAX]),
        ..Style::draw(random)
    };
    Draft::draw(random, &style)
}

/// So many steps that name rules and places there are, most often impossible after the first few.
fn possible(random: &mut Random, book: &[u8], role: u8, steps: usize) -> Vec<u8> {
    let book = Book::read(book).expect("the book is read");
    let mut bytes = Vec::new();
    for number in 0..steps {
        let rules: Vec<usize> = (0..book.rules())
            .filter(|&rule| number > 0 || book.rule(rule).right >> 1 == role >> 1)
            .collect();
        if rules.is_empty() {
            break;
        }
        let rule = random.pick(&rules);
        let side = (book.rule(rule).right ^ role) & 1;
        let place = random.below(number + 1) as u8;
        bytes.extend([place, 0, rule as u8, side]);
    }
    bytes
}
