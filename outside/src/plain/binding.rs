//! Whether a chain binds a role: causes 1 to 8 and 13 to 16, and where it does not, a network that obeys the book, holds
//! the chain and lacks the link. It is the least that holds the chain, laid over places of its own: whatever is linked
//! there is linked in every network that obeys the book, wherever the chain runs.

use super::book::{Book, MAX_NAMES, MAX_RULES};
use super::closure::{Links, Rules};
use super::derivation_checker::{asked_book, MAX_DERIVED_LINKS};
use super::refusal::{Cause, Refusal};

/// The bytes that suffice for the network of every book and chain.
pub const NETWORK_BYTES: usize = network_bytes(MAX_NAMES, MAX_DERIVED_LINKS);

/// The bytes of a network: one for each name, place from and place to, and a place more than links.
pub const fn network_bytes(names: usize, links: usize) -> usize {
    names * (links + 1) * (links + 1)
}

/// Whether the role links the chain's ends in every finite network that obeys the book and holds the chain. Where it does
/// not, the network is written over the front of the lent bytes; else they are left as they were.
pub fn binds(book: &[u8], role: u8, chain: &[u8], network: &mut [u8]) -> Result<bool, Refusal> {
    let book = asked_book(book, role, chain)?;
    let needed = network_bytes(book.names(), chain.len());
    let Some(network) = network.get_mut(..needed) else {
        return Err(Cause::ShortBuffer.into());
    };
    // Small books are closed in small arrays, which take less time to clear.
    Ok(match (book.rules(), book.names()) {
        (..=8, ..=4) => answer::<8, 8>(&book, role, chain, network),
        (..=16, ..=8) => answer::<16, 16>(&book, role, chain, network),
        _ => answer::<MAX_RULES, { 2 * MAX_NAMES }>(&book, role, chain, network),
    })
}

fn answer<const RULES: usize, const ROLES: usize>(
    book: &Book,
    role: u8,
    chain: &[u8],
    network: &mut [u8],
) -> bool {
    let mut links = Links::<ROLES>::new(chain.len() + 1);
    links.close(&Rules::<RULES, ROLES>::new(book), chain);
    let binds = links.link(role, 0, chain.len());
    if !binds {
        write(&links, chain.len() + 1, network);
    }
    binds
}

/// The network of the links that the rules force on a chain of at most 16, for every well-formed book, with or without an
/// order.
pub fn forced(book: &Book, chain: &[u8]) -> Vec<u8> {
    let mut links = Links::<{ 2 * MAX_NAMES }>::new(chain.len() + 1);
    links.close(&Rules::<MAX_RULES, { 2 * MAX_NAMES }>::new(book), chain);
    let mut network = vec![0; network_bytes(book.names(), chain.len())];
    write(&links, chain.len() + 1, &mut network);
    network
}

/// Writes the links of each name, place by place, into bytes of just their number. Most rows are empty, in most networks.
fn write<const ROLES: usize>(links: &Links<ROLES>, places: usize, network: &mut [u8]) {
    network.fill(0);
    for (name, pairs) in network.chunks_exact_mut(places * places).enumerate() {
        let rows = pairs.chunks_exact_mut(places).zip(links.rows(name));
        for (row, linked) in rows.filter(|(_, linked)| **linked != 0) {
            for (to, byte) in row.iter_mut().enumerate() {
                *byte = (linked >> to & 1) as u8;
            }
        }
    }
}
