//! Many questions put to the same tables by what binds: whether hops lead from a name's initial state at one end of the
//! chain to its final state at the other, a letter taken ahead along a link or back along its inverse.

use super::derivation_checker::MAX_DERIVED_LINKS;
use super::query::{check_chain, check_tables, Index, EPSILONS, LETTERS};
use super::refusal::{Cause, Refusal};
use super::tables::{MAX_STATES, MAX_TRANSITIONS};

/// The pairs of a state and a place.
const PAIRS: usize = MAX_STATES * (MAX_DERIVED_LINKS + 1);

/// Tables that are checked and indexed once, with a set of pairs for one question after another.
pub struct TrailSearch<'a> {
    heads: &'a [u16],
    tables: Tables<'a>,
    reached: Reached,
}

struct Tables<'a> {
    transitions: &'a [[u16; 3]],
    index: Box<Index<MAX_STATES, MAX_TRANSITIONS>>,
}

/// The pairs that hops lead to, in the order in which they were met. A pair is in exactly when its mark is the stamp, so
/// that a new stamp empties the set.
struct Reached {
    met: Box<[u16; PAIRS]>,
    count: usize,
    marks: Box<[u16; PAIRS]>,
    stamp: u16,
}

impl<'a> TrailSearch<'a> {
    /// Indexes lent tables, or refuses them by cause 12.
    pub fn new(heads: &'a [u16], moves: &'a [u16]) -> Result<TrailSearch<'a>, Refusal> {
        let (transitions, _) = check_tables(heads, moves)?;
        let index = Box::new(Index::new(transitions));
        Ok(TrailSearch {
            heads,
            tables: Tables { transitions, index },
            reached: Reached {
                met: Box::new([0; PAIRS]),
                count: 0,
                marks: Box::new([0; PAIRS]),
                stamp: 0,
            },
        })
    }

    /// Yes or no, or the refusal (causes 13 to 15). An inverse is asked from the last place back to the first.
    pub fn binds(&mut self, role: u8, chain: &[u8]) -> Result<bool, Refusal> {
        check_chain(self.heads.len(), role, chain)?;
        if chain.len() > MAX_DERIVED_LINKS {
            return Err(Cause::LongChain.into());
        }
        let (begin, end) = match role & 1 {
            0 => (0, chain.len()),
            _ => (chain.len(), 0),
        };
        let head = usize::from(self.heads[usize::from(role >> 1)]);
        Ok(self.leads(chain, pair(head, begin), pair(head + 1, end)))
    }

    /// Whether hops lead from one pair to another.
    fn leads(&mut self, chain: &[u8], from: usize, to: usize) -> bool {
        let TrailSearch {
            tables, reached, ..
        } = self;
        reached.renew();
        reached.add(from);
        let mut done = 0;
        while done < reached.count && reached.marks[to] != reached.stamp {
            let met = usize::from(reached.met[done]);
            let (state, place) = (met % MAX_STATES, met / MAX_STATES);
            tables.silent(reached, state, place);
            if let Some(&link) = chain.get(place) {
                tables.letters(reached, state, link, place + 1);
            }
            if place > 0 {
                tables.letters(reached, state, chain[place - 1] ^ 1, place - 1);
            }
            done += 1;
        }
        reached.marks[to] == reached.stamp
    }
}

impl Tables<'_> {
    /// Adds the states that silent moves lead to, at the same place.
    fn silent(&self, reached: &mut Reached, state: usize, place: usize) {
        let mut entry = self.index.first[state][EPSILONS];
        while entry != 0 {
            let number = usize::from(entry) - 1;
            let [_, _, to] = self.transitions[number];
            reached.add(pair(usize::from(to), place));
            entry = self.index.next[number];
        }
    }

    /// Adds, at another place, the states that a letter leads to.
    fn letters(&self, reached: &mut Reached, state: usize, letter: u8, place: usize) {
        let mut entry = self.index.first[state][LETTERS];
        while entry != 0 {
            let number = usize::from(entry) - 1;
            let [_, label, to] = self.transitions[number];
            if label == u16::from(letter) {
                reached.add(pair(usize::from(to), place));
            }
            entry = self.index.next[number];
        }
    }
}

impl Reached {
    /// Empties the set.
    fn renew(&mut self) {
        if self.stamp == u16::MAX {
            self.marks.fill(0);
            self.stamp = 0;
        }
        self.stamp += 1;
        self.count = 0;
    }

    fn add(&mut self, pair: usize) {
        if self.marks[pair] != self.stamp {
            self.marks[pair] = self.stamp;
            self.met[self.count] = pair as u16;
            self.count += 1;
        }
    }
}

/// The number of a pair of a state and a place.
fn pair(state: usize, place: usize) -> usize {
    MAX_STATES * place + state
}
