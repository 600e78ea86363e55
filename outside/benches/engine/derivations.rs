//! Derivations written and checked: small and large books, derived chains and others, and a very long derivation.

use crate::inputs::{asked, rules};
use crate::pair;
use crate::report::Report;
use outside::archive::{self, Reply};
use outside::books::{encode, long_ways, Axiom, Draft, Style, HALL, MOST_RULES};
use outside::chains::Replacements;
use outside::plain;
use outside::random::Random;
use std::hint::black_box;

const LINKS: usize = 16;
const LENT: usize = 16_384;

/// A question about a book.
struct Asked {
    name: String,
    book: Vec<u8>,
    role: u8,
    chain: Vec<u8>,
}

pub fn rows(report: &mut Report) {
    let questions = questions();
    for question in &questions {
        write(report, question);
    }
    for question in &questions {
        check(report, question);
    }
    to_and_fro(report);
}

/// The writer. Which derivation is written is free, so the numbers of steps are not compared.
fn write(report: &mut Report, question: &Asked) {
    let Asked {
        name,
        book,
        role,
        chain,
    } = question;
    let (mut steps, mut plain_steps) = (vec![0xFF; LENT], vec![0xFF; LENT]);
    let archive = || {
        let (book, chain) = (black_box(book), black_box(chain));
        archive::write_derivation(book, *role, chain, black_box(&mut steps))
    };
    let plain = || {
        let (book, chain) = (black_box(book), black_box(chain));
        plain::write_derivation(book, *role, chain, black_box(&mut plain_steps)).into()
    };
    let answer = |reply: Reply| Reply { second: 0, ..reply };
    let (mut archive, mut plain) = (archive, plain);
    let yes = answer(plain()).first == 1;
    let label = format!("{name}, {}", asked(chain, yes));
    pair(
        report,
        "write",
        &label,
        move || answer(archive()),
        move || answer(plain()),
    );
}

/// The checker, on what the plain engine writes.
fn check(report: &mut Report, question: &Asked) {
    let Asked {
        name,
        book,
        role,
        chain,
    } = question;
    let mut steps = vec![0; LENT];
    let written = plain::write_derivation(book, *role, chain, &mut steps);
    let Some(count) = written.expect("the question is answered") else {
        return;
    };
    steps.truncate(4 * count as usize);
    let label = format!("{name}, {LINKS} links, {count} steps");
    checked(report, &label, book, *role, chain, &steps);
}

/// 80,000 steps to and fro on a symmetric relation.
fn to_and_fro(report: &mut Report) {
    let book = encode(1, &[(0, [1])]);
    let steps = [[0; 4], [0, 0, 0, 1]].repeat(40_000).concat();
    checked(report, "to and fro, 80,000 steps", &book, 0, &[0], &steps);
}

fn checked(report: &mut Report, label: &str, book: &[u8], role: u8, chain: &[u8], steps: &[u8]) {
    let archive = || {
        let (book, chain, steps) = (black_box(book), black_box(chain), black_box(steps));
        archive::check_derivation(book, role, chain, steps)
    };
    let plain = || {
        let (book, chain, steps) = (black_box(book), black_box(chain), black_box(steps));
        plain::check_derivation(book, role, chain, steps).into()
    };
    assert_eq!(archive(), Reply::answered(true));
    pair(report, "check", label, archive, plain);
}

/// Chains of 16 links: a derived one and another for each book.
fn questions() -> Vec<Asked> {
    // part .. part sits let from due.
    let mut hall = vec![0; LINKS];
    hall[LINKS - 2..].copy_from_slice(&[2, 4]);
    let mut other = hall.clone();
    other[LINKS - 1] = 0;
    let asked = |name: &str, book: &[u8], role: u8, chain: Vec<u8>| Asked {
        name: name.to_string(),
        book: book.to_vec(),
        role,
        chain,
    };
    let mut questions = vec![asked("hall", HALL, 6, hall), asked("hall", HALL, 6, other)];
    let (book, role, chain) = large();
    let other = not_derived(&book, role, &chain);
    questions.extend([chain, other].map(|chain| asked("256 rules, 64 names", &book, role, chain)));
    // The last name is transitive, the one before it is not.
    let roles = [126, 124];
    questions.extend(roles.map(|role| asked("long ways", &long_ways(), role, vec![1; LINKS])));
    questions
}

/// A book of 256 rules over 64 names, with all forms and inverses, and a derived chain of 16 links.
pub fn large() -> (Vec<u8>, u8, Vec<u8>) {
    let random = &mut Random::new(4);
    let style = Style {
        names: 64,
        rules: MOST_RULES,
        inner: 3,
        forms: vec![1, 1, 2, 3, 4, 5],
        inverses: 30,
        near: 0,
        leaves: 0,
        states: u64::MAX,
    };
    let book = Draft::draw(random, &style).bytes();
    let rules: Vec<Axiom> = rules(&book);
    assert_eq!(rules.len(), MOST_RULES);
    let replacements = Replacements::new(64, &rules);
    loop {
        let role = random.below(128) as u8;
        let chain = replacements.derive(random, role, LINKS);
        if chain.len() == LINKS {
            return (book, role, chain);
        }
    }
}

/// The chain with its last possible link changed so that it is not derived.
fn not_derived(book: &[u8], role: u8, chain: &[u8]) -> Vec<u8> {
    let mut steps = vec![0; LENT];
    for place in (0..chain.len()).rev() {
        for link in 0..2 * book[5] {
            let mut other = chain.to_vec();
            other[place] = link;
            if plain::write_derivation(book, role, &other, &mut steps) == Ok(None) {
                return other;
            }
        }
    }
    panic!("every link can be changed");
}
