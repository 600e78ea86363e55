//! Books of 256 rules without a repeat, and the reader on them: its search for repeats, relation by relation, beside the
//! proved search that goes rule by rule.

use outside::books::{encode, inverse, Axiom, MOST_RULES};
use outside::random::Random;
use std::collections::HashSet;

/// The books: spread over the names, all of one name, and all of one name with keys of one remainder, which are in one
/// list in either search.
pub fn books() -> [(&'static str, Vec<u8>); 3] {
    let random = &mut Random::new(3);
    let mut name = (0..64).cycle();
    let short = |random: &mut Random| random.between(2, 4);
    [
        (
            "256 rules, 64 names",
            unrepeated(|| {
                let right = 2 * name.next().expect("the names go round") + random.below(2) as u8;
                (right, left(random, short))
            }),
        ),
        (
            "256 rules of one name",
            unrepeated(|| (126 + random.below(2) as u8, left(random, short))),
        ),
        (
            "256 rules of one name, keys in one list",
            unrepeated(|| loop {
                let rule = (126, left(random, |_| 8));
                if key(&rule) % 251 == 7 {
                    return rule;
                }
            }),
        ),
    ]
}

/// A book of rules drawn until there are 256 that repeat none.
fn unrepeated(mut draw: impl FnMut() -> Axiom) -> Vec<u8> {
    let (mut rules, mut met) = (Vec::new(), HashSet::new());
    while rules.len() < MOST_RULES {
        let rule = draw();
        if met.insert(rule.clone()) {
            met.insert(inverse(&rule));
            rules.push(rule);
        }
    }
    encode(64, &rules)
}

/// A left side over 64 names.
fn left(random: &mut Random, length: impl Fn(&mut Random) -> usize) -> Vec<u8> {
    (0..length(random))
        .map(|_| random.below(128) as u8)
        .collect()
}

/// The number that the proved reader has for a rule with a name on the right.
fn key((right, left): &Axiom) -> u64 {
    let code = left
        .iter()
        .rev()
        .fold(1, |code, &role| code << 7 | u64::from(role));
    code << 6 | u64::from(right >> 1)
}

#[cfg(not(by_rule))]
pub fn rows(report: &mut crate::report::Report) {
    report.note("No rows beside the search that goes rule by rule: make its archive with `tools/archive read_by_rule`, then `touch build.rs`.");
}

#[cfg(by_rule)]
pub fn rows(report: &mut crate::report::Report) {
    use crate::measure::interleaved;
    use crate::report::Row;
    use outside::archive::{self, Reply};
    use std::hint::black_box;

    extern "C" {
        fn rabbitsteel_read_by_rule(
            book: *const u8,
            book_len: usize,
            first: *mut u64,
            second: *mut u64,
        ) -> u64;
    }
    let by_rule = |book: &[u8]| {
        let (mut first, mut second) = (0, 0);
        // SAFETY: the pointers and the length are those of a live slice and numbers, and the call keeps none of them.
        let cause =
            unsafe { rabbitsteel_read_by_rule(book.as_ptr(), book.len(), &mut first, &mut second) };
        Reply {
            cause,
            first,
            second,
            third: 0,
        }
    };
    for (name, book) in &books() {
        let passed = Reply {
            cause: 0,
            first: 64,
            second: 256,
            third: 0,
        };
        assert_eq!(archive::read(book), passed, "{name}");
        assert_eq!(by_rule(book), passed, "{name}");
        let times = interleaved(
            || archive::read(black_box(book)),
            || by_rule(black_box(book)),
        );
        report.add(Row {
            call: "read",
            input: name.to_string(),
            beside: "rule by rule",
            times,
        });
    }
}
