//! Cases with what binds: books and chains of every kind, with the networks that are written, and questions at every
//! limit.

use crate::archive::Reply;
use crate::books::MOST_STATES;
use crate::cases::derivations::drawn;
use crate::chains::{self, Replacements};
use crate::plain::binding::{forced, network_bytes, NETWORK_BYTES};
use crate::plain::book::Book;
use crate::plain::derivation_checker::MAX_DERIVED_LINKS;
use crate::plain::intervals::Intervals;
use crate::plain::networks::Network;
use crate::plain::trails;
use crate::random::Random;
use crate::trial::{hex, Met, Tables, Trial};

const BINDS: &str = "binds";

pub const NETWORKS: &[Met] = &[
    Met::Yes(BINDS),
    Met::No(BINDS),
    Met::Counted("books over 2,048 states"),
    Met::Counted("chains of 16 links"),
    Met::Counted("folded chains"),
    Met::Counted("yes without a derivation"),
    Met::Counted("networks by their sentences"),
    Met::Counted("networks by walks"),
    Met::Counted("walks by intervals"),
];

/// Chains derived, folded, nearly derived and random, asked about every role or a few, for a book with an order and any
/// number of states.
pub fn networks(trial: &mut Trial, random: &mut Random) {
    let draft = drawn(random);
    let (book, names) = (draft.bytes(), draft.names);
    let read = Book::read(&book).expect("a drawn book is read");
    let tables = match draft.states() <= MOST_STATES {
        true => trial.build(&book, 64, 15360),
        false => None,
    };
    trial.count("books over 2,048 states", tables.is_none().into());
    let asker = Asker {
        intervals: Intervals::new(&read),
        read,
        tables,
    };
    let replacements = Replacements::new(names, &draft.rules);
    for _ in 0..3 {
        let asked = random.below(2 * names) as u8;
        let links = random.between(1, MAX_DERIVED_LINKS);
        let derived = replacements.derive(random, asked, links);
        let folded = chains::folded(&derived);
        let near = chains::nearly(random, &derived, names);
        let any = chains::random(random, names, links);
        let longest = derived.len() == MAX_DERIVED_LINKS;
        trial.count("chains of 16 links", longest.into());
        trial.count("folded chains", (folded != derived).into());
        let bound = asker.chain(trial, random, asked, &folded);
        let input = asker.input(&folded);
        trial.check(bound, "a folded chain does not bind", &input);
        for chain in [derived, near, any] {
            if chain.len() <= MAX_DERIVED_LINKS {
                asker.chain(trial, random, asked, &chain);
            }
        }
    }
}

/// A book, and other ways to find what its chains bind.
struct Asker<'a> {
    read: Book<'a>,
    intervals: Intervals,
    tables: Option<Tables>,
}

impl Asker<'_> {
    /// Puts questions about a chain to both engines, and holds their network to other methods; whether the asked role is
    /// bound.
    fn chain(&self, trial: &mut Trial, random: &mut Random, asked: u8, chain: &[u8]) -> bool {
        let bytes = forced(&self.read, chain);
        let network = Network::new(chain.len() + 1, &bytes);
        self.every_role(trial, random, asked, chain, network);
        self.derived(trial, chain, network);
        self.walks(trial, random, chain, network);
        if let Some(Tables { heads, moves }) = &self.tables {
            let same = bytes == trails::forced(heads, moves, chain);
            trial.check(same, "closure and walks differ", &self.input(chain));
            trial.count("networks by walks", 1);
        }
        network.links(asked, 0, chain.len())
    }

    /// Asks about every role, or a few from the asked one on and one that is not bound, with just enough bytes lent or
    /// more.
    fn every_role(
        &self,
        trial: &mut Trial,
        random: &mut Random,
        asked: u8,
        chain: &[u8],
        network: Network,
    ) {
        let bound = |role: u8| network.links(role, 0, chain.len());
        let roles = 2 * self.read.names() as u8;
        let few = if roles > 10 { 4 } else { roles };
        let few = (0..few).map(|number| (asked + number) % roles);
        for role in few.chain((0..roles).find(|&role| !bound(role))) {
            let needed = network_bytes(self.read.names(), chain.len());
            let lent = needed + random.pick(&[0, 0, 1, 2, 100]);
            let reply = trial.binds(self.read.bytes(), role, chain, lent);
            let same = reply == Reply::answered(bound(role));
            let input = self.input(chain);
            trial.check(same, "the answer is not the network's", &input);
        }
    }

    /// What a chain is derived from it binds, and at times more.
    fn derived(&self, trial: &mut Trial, chain: &[u8], network: Network) {
        let derived = self.intervals.roles(chain);
        let (mut kept, mut more) = (true, 0);
        for role in 0..2 * self.read.names() as u8 {
            let bound = network.links(role, 0, chain.len());
            let derived = derived >> role & 1 == 1;
            kept &= bound || !derived;
            more += u64::from(bound && !derived);
        }
        trial.check(kept, "a derived chain does not bind", &self.input(chain));
        trial.count("yes without a derivation", more);
    }

    /// Walks to and fro: what a walk's chain is derived from links its ends, for books of any number of states.
    fn walks(&self, trial: &mut Trial, random: &mut Random, chain: &[u8], network: Network) {
        for _ in 0..4 {
            let links = random.between(1, 12);
            let (spelled, from, to) = chains::walk(random, chain, links);
            let roles = self.intervals.roles(&spelled);
            let mut roles = (0..128).filter(|role| roles >> role & 1 == 1);
            let linked = roles.all(|role| network.links(role, from, to));
            trial.check(linked, "a walk's ends are not linked", &self.input(chain));
            trial.count("walks by intervals", 1);
        }
    }

    fn input(&self, chain: &[u8]) -> [(&'static str, String); 2] {
        [("book", hex(self.read.bytes())), ("chain", hex(chain))]
    }
}

pub const LIMITS: &[Met] = &[
    Met::Yes(BINDS),
    Met::No(BINDS),
    Met::Refused(BINDS, 13),
    Met::Refused(BINDS, 14),
    Met::Refused(BINDS, 15),
    Met::Refused(BINDS, 16),
];

/// Each number of links at and past a limit, with good and bad roles, and with bytes lent at and past what is needed.
pub fn limits(trial: &mut Trial, random: &mut Random, book: &[u8]) {
    let names = usize::from(book[5]);
    let past = random.between(2 * names, 255) as u8;
    for links in [0, 1, 2, 15, 16, 17, 18, 1023, 1024, 1025, 1026] {
        let role = random.below(2 * names) as u8;
        let same = vec![role; links];
        let any = chains::random(random, names, links);
        let mut bad = any.clone();
        if links > 0 {
            bad[random.below(links)] = past;
        }
        let last_bad = [&any[..links.saturating_sub(1)], &[2 * names as u8]].concat();
        let needed = network_bytes(names, links.min(MAX_DERIVED_LINKS));
        for chain in [same, any, bad, last_bad] {
            for role in [role, role ^ 1, past, 2 * names as u8] {
                for lent in [0, needed - 1, needed, needed + 1, NETWORK_BYTES, 20_000] {
                    trial.binds(book, role, &chain, lent);
                }
            }
        }
    }
}
