//! The answer to a question by its sentence, slowly: all pairs of links read and state reached, grown until nothing
//! is new. For tables and chains that pass causes 12 to 14.

/// Whether some path from the head to head + 1 spells the chain, silent moves free.
pub fn ask(heads: &[u16], moves: &[u16], role: u8, chain: &[u8]) -> bool {
    let chain = match role & 1 {
        0 => chain.to_vec(),
        _ => super::completion::inverse(chain),
    };
    let head = heads[usize::from(role >> 1)];
    let mut reached = vec![vec![false; 2048]; chain.len() + 1];
    reached[0][usize::from(head)] = true;
    for read in 0..=chain.len() {
        loop {
            let mut new = false;
            for triple in moves.chunks(3) {
                let [from, label, to] = [triple[0], triple[1], triple[2]].map(usize::from);
                if !reached[read][from] {
                    continue;
                }
                let then = match chain.get(read) {
                    _ if label == 128 => read,
                    Some(link) if usize::from(*link) == label => read + 1,
                    _ => continue,
                };
                new |= !reached[then][to];
                reached[then][to] = true;
            }
            if !new {
                break;
            }
        }
    }
    reached[chain.len()][usize::from(head) + 1]
}
