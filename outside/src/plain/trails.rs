//! Forced links without a closure: a name is forced from one place of a chain to another exactly where a walk to and fro
//! along the chain spells a path of the name's table (paper 000, Proposition 1). For books that have tables.

use super::binding::network_bytes;
use super::tables::{EPSILON, MAX_STATES};

/// The network of the links that are forced on the chain, by reachability in pairs of a state and a place.
pub fn forced(heads: &[u16], moves: &[u16], chain: &[u8]) -> Vec<u8> {
    let places = chain.len() + 1;
    let mut leaving = vec![Vec::new(); MAX_STATES];
    for triple in moves.chunks(3) {
        leaving[usize::from(triple[0])].push((triple[1], usize::from(triple[2])));
    }
    let mut network = vec![0; network_bytes(heads.len(), chain.len())];
    let rows = network.chunks_exact_mut(places);
    let starts = heads
        .iter()
        .flat_map(|&head| (0..places).map(move |place| (usize::from(head), place)));
    for (row, (head, place)) in rows.zip(starts) {
        let reached = reached(&leaving, chain, head, place);
        for (to, byte) in row.iter_mut().enumerate() {
            *byte = u8::from(reached[(head + 1) * places + to]);
        }
    }
    network
}

/// The pairs of a state and a place that are reached from such a pair.
fn reached(leaving: &[Vec<(u16, usize)>], chain: &[u8], state: usize, place: usize) -> Vec<bool> {
    let places = chain.len() + 1;
    let mut reached = vec![false; MAX_STATES * places];
    let mut waiting = vec![(state, place)];
    while let Some((state, place)) = waiting.pop() {
        if std::mem::replace(&mut reached[state * places + place], true) {
            continue;
        }
        for &(label, to) in &leaving[state] {
            if label == EPSILON {
                waiting.push((to, place));
                continue;
            }
            if place < chain.len() && label == u16::from(chain[place]) {
                waiting.push((to, place + 1));
            }
            if place > 0 && label == u16::from(chain[place - 1] ^ 1) {
                waiting.push((to, place - 1));
            }
        }
    }
    reached
}
