//! Cases with well-formed books: all that can be asked of one book.

use crate::archive::Reply;
use crate::books::{careless, encode, inverse, repeating, Axiom, Draft, Style, MOST_RULES};
use crate::chains::{self, Replacements};
use crate::plain::binding::network_bytes;
use crate::plain::book::Book;
use crate::plain::derivation_checker::MAX_DERIVED_LINKS;
use crate::plain::derivation_writer::LENT_BYTES;
use crate::plain::intervals::Intervals;
use crate::plain::refusal::{Cause, Refusal};
use crate::plain::rewriting::Rewriting;
use crate::random::Random;
use crate::trial::{hex, Met, Tables, Trial};

/// Chains up to these lengths are put to the two other membership methods.
const INTERVAL_LINKS: usize = 24;
const REWRITING_LINKS: usize = 7;
/// Rewriting gives up after so many chains.
const REWRITING_LIMIT: usize = 2000;

pub const VALID: &[Met] = &[
    Met::Accepted("read"),
    Met::Accepted("order"),
    Met::Accepted("build"),
    Met::Refused("build", 11),
    Met::Yes("ask"),
    Met::No("ask"),
    Met::Refused("ask", 13),
    Met::Refused("ask", 14),
    Met::Yes("derived"),
    Met::No("derived"),
    Met::Refused("derived", 11),
    Met::Refused("derived", 13),
    Met::Refused("derived", 14),
    Met::Yes("write_derivation"),
    Met::No("write_derivation"),
    Met::Yes("binds"),
    Met::No("binds"),
    Met::Counted("questions by intervals"),
    Met::Counted("questions by rewriting"),
    Met::Counted("levels by their sentence"),
];

/// A book with an order and within the limits.
pub fn valid(trial: &mut Trial, random: &mut Random) {
    let style = Style::draw(random);
    let draft = Draft::draw(random, &style);
    let book = draft.bytes();
    let tables = everything(trial, random, &book);
    let Some(tables) = tables else {
        trial.check(false, "a drawn book is refused", &[("book", hex(&book))]);
        return;
    };
    let times = if draft.names > 12 { 3 } else { 9 };
    questions(trial, random, &draft, &tables, times);
}

pub const NEAR_LIMIT: &[Met] = &[
    Met::Accepted("build"),
    Met::Refused("build", 9),
    Met::Counted("books of 2,048 states"),
    Met::Counted("books of 2,050 states"),
    Met::Yes("ask"),
    Met::No("ask"),
];

/// A book with a number of states just below, at or just above the limit.
pub fn near_limit(trial: &mut Trial, random: &mut Random) {
    let states = random.pick(&[2044, 2046, 2048, 2050, 2052]);
    let draft = loop {
        let style = Style {
            states: random.between(200, 2000) as u64,
            rules: random.between(0, 120),
            ..Style::draw(random)
        };
        let mut draft = Draft::draw(random, &style);
        if draft.fill(random, states) {
            break draft;
        }
        trial.count("books that could not be filled", 1);
    };
    let book = draft.bytes();
    let tables = everything(trial, random, &book);
    let accepted = tables.is_some();
    trial.check(
        accepted == (states <= 2048),
        "the state limit",
        &[("book", hex(&book))],
    );
    match states {
        2048 => trial.count("books of 2,048 states", 1),
        2050 => trial.count("books of 2,050 states", 1),
        _ => {}
    }
    if let Some(tables) = tables {
        questions(trial, random, &draft, &tables, 3);
    }
}

pub const OVER_LIMIT: &[Met] = &[
    Met::Accepted("order"),
    Met::Refused("build", 9),
    Met::Yes("write_derivation"),
    Met::Yes("binds"),
    Met::Counted("levels by their sentence"),
];

/// A book far over the state limit, most often with many long rules.
pub fn over_limit(trial: &mut Trial, random: &mut Random) {
    let style = Style {
        states: u64::MAX,
        names: random.between(4, 64),
        rules: random.between(60, MOST_RULES),
        inner: 8,
        leaves: random.pick(&[0, 3]),
        ..Style::draw(random)
    };
    let book = Draft::draw(random, &style).bytes();
    trial.most("bytes", book.len() as u64);
    everything(trial, random, &book);
}

pub const WITHOUT_ORDER: &[Met] = &[
    Met::Accepted("read"),
    Met::Refused("order", 8),
    Met::Refused("build", 8),
    Met::Refused("derived", 8),
    Met::Refused("write_derivation", 8),
    Met::Refused("check_derivation", 8),
    Met::Refused("binds", 8),
];

/// A book with a rule, or a few, that leave it without an order.
pub fn without_order(trial: &mut Trial, random: &mut Random) {
    let style = Style::draw(random);
    let style = Style {
        rules: style.rules.min(MOST_RULES - 3),
        ..style
    };
    let mut draft = Draft::draw(random, &style);
    for _ in 0..random.between(1, 3) {
        draft.break_order(random);
    }
    everything(trial, random, &draft.bytes());
}

pub const REPEATS: &[Met] = &[
    Met::Accepted("read"),
    Met::Refused("read", 7),
    Met::Counted("repeats of several names"),
    Met::Counted("repeats among over 16 rules of a name"),
];

/// A book with rules of few names or of many, and none, one or several of them repeated. Cause 7 names the lowest rule that
/// equals one before it or the inverse of one.
pub fn repeats(trial: &mut Trial, random: &mut Random) {
    let (names, rules) = repeating(random);
    let repeated: Vec<usize> = (0..rules.len())
        .filter(|&later| {
            rules[..later]
                .iter()
                .any(|rule| *rule == rules[later] || inverse(rule) == rules[later])
        })
        .collect();
    let name = |rule: usize| rules[rule].0 / 2;
    if repeated.iter().any(|&rule| name(rule) != name(repeated[0])) {
        trial.count("repeats of several names", 1);
    }
    let crowded = |&rule: &usize| {
        (0..rules.len())
            .filter(|&other| name(other) == name(rule))
            .count()
            > 16
    };
    if repeated.iter().any(crowded) {
        trial.count("repeats among over 16 rules of a name", 1);
    }
    let book = encode(names as u8, &rules);
    let owed = match repeated.first() {
        Some(&lowest) => Err(Refusal::at(Cause::RepeatedRule, lowest)),
        None => Ok((names as u64, rules.len() as u64)),
    };
    let given = trial.read(&book);
    trial.check(
        given == owed.into(),
        "the lowest repeat",
        &[("book", hex(&book))],
    );
}

pub const ANY_RULES: &[Met] = &[
    Met::Refused("read", 7),
    Met::Refused("order", 8),
    Met::Yes("ask"),
    Met::No("ask"),
    Met::Counted("questions by intervals"),
    Met::Counted("questions by rewriting"),
    Met::Counted("chains of books without tables, by both methods"),
];

/// A book of random rules. The two membership methods agree on it even where it has no order.
pub fn any_rules(trial: &mut Trial, random: &mut Random) {
    let (names, rules) = careless(random);
    let book = encode(names as u8, &rules);
    let Some(tables) = everything(trial, random, &book) else {
        if let Ok(read) = Book::read(&book) {
            methods_agree(trial, random, &read, &rules);
        }
        return;
    };
    let mut draft = Draft::new(random, names);
    for rule in rules {
        draft.add(rule);
    }
    questions(trial, random, &draft, &tables, 3);
}

/// Reads, checks and builds a book, with levels lent for all names and with fewer or more, and with tables lent that are
/// long enough, a little too short or empty, and asks it for a derivation and for what binds. What is wrong with a book
/// comes before what is wrong with the tables or the steps, and that before what is wrong with a question.
fn everything(trial: &mut Trial, random: &mut Random, book: &[u8]) -> Option<Tables> {
    trial.read(book);
    trial.order(book, 64);
    trial.order(book, random.between(0, 70));
    trial.build(book, 0, 0);
    trial.build(book, 0, 15360);
    trial.derived(book, 64, 0, 255, &[]);
    trial.write_derivation(book, 255, &[], 0);
    trial.write_derivation(book, 1, &[1], LENT_BYTES);
    trial.check_derivation(book, 255, &[], &[0]);
    trial.check_derivation(book, 1, &[1], &[0; 4]);
    trial.binds(book, 255, &[], 0);
    trial.binds(book, 1, &[1], network_bytes(64, 1));
    let tables = trial.build(book, 64, 15360)?;
    let (heads, moves) = (tables.heads.len(), tables.moves.len());
    let heads_lent = (heads + random.below(4)).saturating_sub(1);
    let moves_lent = (moves + random.below(12)).saturating_sub(4);
    trial.build(book, heads, moves);
    trial.build(book, heads_lent, moves_lent);
    Some(tables)
}

/// The two membership methods beside each other, for a book without tables.
fn methods_agree(trial: &mut Trial, random: &mut Random, book: &Book, rules: &[Axiom]) {
    let names = book.names();
    let replacements = Replacements::new(names, rules);
    for _ in 0..4 {
        let role = random.below(2 * names) as u8;
        let links = random.between(1, REWRITING_LINKS);
        let derived = replacements.derive(random, role, links);
        let near = chains::nearly(random, &derived, names);
        for chain in [derived, near] {
            let intervals = Intervals::new(book).roles(&chain);
            let Some(rewriting) = Rewriting::new(book).roles(&chain, REWRITING_LIMIT) else {
                trial.count("rewritings given up", 1);
                continue;
            };
            trial.count("chains of books without tables, by both methods", 1);
            let input = [("book", hex(book.bytes())), ("chain", hex(&chain))];
            trial.check(intervals == rewriting, "the methods differ", &input);
        }
    }
}

/// Asks a book's tables about chains of every kind.
fn questions(trial: &mut Trial, random: &mut Random, draft: &Draft, tables: &Tables, times: usize) {
    let names = draft.names;
    let book = draft.bytes();
    let read = Book::read(&book).expect("the book was accepted");
    let asker = Asker {
        book: &book,
        names,
        tables,
        intervals: Intervals::new(&read),
        rewriting: Rewriting::new(&read),
    };
    let replacements = Replacements::new(names, &draft.rules);
    for _ in 0..times {
        let role = random.below(2 * names) as u8;
        let links = chains::links(random);
        let derived = replacements.derive(random, role, links);
        trial.count("chains derived by replacements", 1);
        trial.most("links of a derived chain", derived.len() as u64);
        let reply = trial.ask(&tables.heads, &tables.moves, role, &derived);
        let input = [
            ("book", hex(&book)),
            ("role", hex(&[role])),
            ("chain", hex(&derived)),
        ];
        let yes = reply == Reply::answered(true);
        trial.check(yes, "a derived chain is not accepted", &input);
        asker.every_role(trial, random, &derived);
        let near = chains::nearly(random, &derived, names);
        trial.count("chains nearly derived", 1);
        asker.every_role(trial, random, &near);
        let any = chains::random(random, names, links);
        trial.count("random chains", 1);
        asker.some_roles(trial, random, &any);
    }
    asker.refusals(trial, random);
}

struct Asker<'a> {
    book: &'a [u8],
    names: usize,
    tables: &'a Tables,
    intervals: Intervals,
    rewriting: Rewriting,
}

impl Asker<'_> {
    /// Asks about a chain and every role (a few where both are many), and both other methods where it is short.
    fn every_role(&self, trial: &mut Trial, random: &mut Random, chain: &[u8]) {
        if chain.len() > 64 && self.names > 4 {
            return self.some_roles(trial, random, chain);
        }
        let mut roles = 0u128;
        for role in 0..2 * self.names as u8 {
            let reply = trial.ask(&self.tables.heads, &self.tables.moves, role, chain);
            let yes = reply == Reply::answered(true);
            if !yes && reply != Reply::answered(false) {
                let input = [("role", hex(&[role])), ("chain", hex(chain))];
                trial.check(false, "a question about a book is refused", &input);
            }
            roles |= u128::from(yes) << role;
        }
        self.other_methods(trial, chain, roles);
        self.build_and_ask(trial, random, chain, roles);
        if chain.len() <= MAX_DERIVED_LINKS {
            self.written(trial, random, chain, roles);
        }
    }

    fn some_roles(&self, trial: &mut Trial, random: &mut Random, chain: &[u8]) {
        for _ in 0..3 {
            let role = random.below(2 * self.names) as u8;
            trial.ask(&self.tables.heads, &self.tables.moves, role, chain);
        }
    }

    fn other_methods(&self, trial: &mut Trial, chain: &[u8], roles: u128) {
        let input = || [("book", hex(self.book)), ("chain", hex(chain))];
        if chain.len() <= INTERVAL_LINKS {
            let same = self.intervals.roles(chain) == roles;
            trial.check(same, "tables and intervals differ", &input());
            trial.count("questions by intervals", 2 * self.names as u64);
        }
        if chain.len() <= REWRITING_LINKS {
            let Some(rewritten) = self.rewriting.roles(chain, REWRITING_LIMIT) else {
                trial.count("rewritings given up", 1);
                return;
            };
            trial.check(rewritten == roles, "tables and rewriting differ", &input());
            trial.count("questions by rewriting", 2 * self.names as u64);
        }
    }

    /// One call for the whole way, which must give the same answer.
    fn build_and_ask(&self, trial: &mut Trial, random: &mut Random, chain: &[u8], roles: u128) {
        let heads = self.tables.heads.len() + random.below(3);
        let moves = self.tables.moves.len() + random.below(7);
        let role = random.below(2 * self.names) as u8;
        let reply = trial.derived(self.book, heads, moves, role, chain);
        let same = reply == Reply::answered(roles >> role & 1 == 1);
        let input = [
            ("book", hex(self.book)),
            ("role", hex(&[role])),
            ("chain", hex(chain)),
        ];
        trial.check(same, "derived and ask differ", &input);
    }

    /// Each yes of the tables has a derivation, and no other question has; a derived chain binds.
    fn written(&self, trial: &mut Trial, random: &mut Random, chain: &[u8], roles: u128) {
        let any = random.below(2 * self.names) as u8;
        let derived = (0..2 * self.names as u8).find(|role| roles >> role & 1 == 1);
        for role in [any, derived.unwrap_or(any)] {
            let steps = trial.write_derivation(self.book, role, chain, LENT_BYTES);
            let same = steps.is_some() == (roles >> role & 1 == 1);
            let input = [
                ("book", hex(self.book)),
                ("role", hex(&[role])),
                ("chain", hex(chain)),
            ];
            trial.check(same, "tables and written derivations differ", &input);
            let lent = network_bytes(self.names, chain.len());
            let binds = trial.binds(self.book, role, chain, lent) == Reply::answered(true);
            let holds = binds || steps.is_none();
            trial.check(holds, "a derived chain does not bind", &input);
        }
    }

    /// Questions at and past the limits, put to the tables and to the whole way.
    fn refusals(&self, trial: &mut Trial, random: &mut Random) {
        let past = 2 * self.names;
        let (heads, moves) = (&self.tables.heads[..], &self.tables.moves[..]);
        let role = random.below(past) as u8;
        let mut bad = chains::random(random, self.names, 5);
        let place = random.below(bad.len());
        bad[place] = random.between(past, 255) as u8;
        let good = chains::random(random, self.names, 2);
        let long = chains::random(random, self.names, 1025);
        for (role, chain) in [
            (role, &[][..]),
            (role, &long),
            (role, &bad),
            (past as u8, &good),
            (255, &good),
            (255, &long),
        ] {
            trial.ask(heads, moves, role, chain);
            trial.derived(self.book, heads.len(), moves.len(), role, chain);
            trial.derived(self.book, heads.len() - 1, moves.len(), role, chain);
            trial.derived(self.book, heads.len(), moves.len() - 1, role, chain);
        }
    }
}
