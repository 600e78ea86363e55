//! Chains from a seed: derived by random replacements, nearly derived, folded, and random; and walks along them.
#![forbid(unsafe_code)]

use crate::books::{inverse, Axiom};
use crate::random::Random;

pub const MOST_LINKS: usize = 1024;

/// The left sides of a book's completed rules, by right role.
pub struct Replacements {
    lefts: Vec<Vec<Vec<u8>>>,
}

impl Replacements {
    pub fn new(names: usize, rules: &[Axiom]) -> Replacements {
        let mut lefts = vec![Vec::new(); 2 * names];
        for rule in rules {
            for (right, left) in [rule.clone(), inverse(rule)] {
                lefts[usize::from(right)].push(left);
            }
        }
        Replacements { lefts }
    }

    /// A chain derived from a role, of at most this many links, by random replacements.
    pub fn derive(&self, random: &mut Random, role: u8, links: usize) -> Vec<u8> {
        let mut chain = vec![role];
        for _ in 0..8 * links + 16 {
            let place = random.below(chain.len());
            let lefts = &self.lefts[usize::from(chain[place])];
            if lefts.is_empty() {
                continue;
            }
            let left = &lefts[random.below(lefts.len())];
            if chain.len() - 1 + left.len() <= links {
                chain.splice(place..=place, left.iter().copied());
            }
            if chain.len() == links && random.percent(30) {
                break;
            }
        }
        chain
    }
}

/// A chain with one link changed, dropped, doubled, flipped or swapped with the next.
pub fn nearly(random: &mut Random, chain: &[u8], names: usize) -> Vec<u8> {
    let mut chain = chain.to_vec();
    let place = random.below(chain.len());
    match random.below(5) {
        0 => chain[place] = random.below(2 * names) as u8,
        1 if chain.len() > 1 => {
            chain.remove(place);
        }
        2 if chain.len() > 1 => {
            let next = (place + 1) % chain.len();
            chain.swap(place, next);
        }
        3 if chain.len() < MOST_LINKS => chain.insert(place, chain[place]),
        _ => chain[place] ^= 1,
    }
    chain
}

/// A chain with ways out, back and out again gone once, while it has any: u inv(u) u becomes u. It binds what the chain
/// is derived from.
pub fn folded(chain: &[u8]) -> Vec<u8> {
    let mut chain = chain.to_vec();
    while let Some((start, length)) = out_and_back(&chain) {
        chain.drain(start..start + 2 * length);
    }
    chain
}

/// Where u inv(u) u starts, and the length of u.
fn out_and_back(chain: &[u8]) -> Option<(usize, usize)> {
    let parts = (1..=chain.len() / 3)
        .flat_map(|length| (0..=chain.len() - 3 * length).map(move |start| (start, length)));
    parts.into_iter().find(|&(start, length)| {
        let part = |number: usize| &chain[start + number * length..][..length];
        let back = part(1).iter().rev().map(|link| link ^ 1);
        part(0) == part(2) && back.eq(part(0).iter().copied())
    })
}

/// A walk of so many links to and fro along a chain, from any place: the chain that it spells, where it starts and where it
/// ends.
pub fn walk(random: &mut Random, chain: &[u8], links: usize) -> (Vec<u8>, usize, usize) {
    let start = random.between(0, chain.len());
    let mut place = start;
    let spelled = (0..links).map(|_| {
        let ahead = place == 0 || (place < chain.len() && random.percent(60));
        if ahead {
            place += 1;
            chain[place - 1]
        } else {
            place -= 1;
            chain[place] ^ 1
        }
    });
    let spelled = spelled.collect();
    (spelled, start, place)
}

pub fn random(random: &mut Random, names: usize, links: usize) -> Vec<u8> {
    (0..links).map(|_| random.below(2 * names) as u8).collect()
}

/// A number of links: few most often, sometimes up to 1,024.
pub fn links(random: &mut Random) -> usize {
    match random.below(20) {
        0..=6 => random.between(1, 4),
        7..=13 => random.between(5, 12),
        14..=17 => random.between(13, 64),
        18 => random.between(65, MOST_LINKS),
        _ => random.pick(&[1, 2, 512, 1023, MOST_LINKS]),
    }
}
