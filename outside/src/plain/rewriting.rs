//! Membership by the definition itself, for short chains: replacements are undone one by one, in every possible way.
//! Works for every well-formed book, with or without an order.

use super::book::Book;
use super::completion::{completion, CompletedRule};
use std::collections::HashSet;

pub struct Rewriting {
    /// The completed rules by the first role of the left side.
    rules: Vec<Vec<CompletedRule>>,
}

impl Rewriting {
    pub fn new(book: &Book) -> Rewriting {
        let mut rules = vec![Vec::new(); 2 * book.names()];
        for rule in completion(book) {
            rules[usize::from(rule.left[0])].push(rule);
        }
        Rewriting { rules }
    }

    /// All roles that the chain is derived from, a bit for each; none where more than `limit` chains would be met.
    /// No replacement shortens a chain, so that there are finitely many to meet.
    pub fn roles(&self, chain: &[u8], limit: usize) -> Option<u128> {
        let mut met = HashSet::from([chain.to_vec()]);
        let mut waiting = vec![chain.to_vec()];
        let mut roles = 0;
        while let Some(chain) = waiting.pop() {
            if let [role] = chain[..] {
                roles |= 1 << role;
            }
            for before in self.undone(&chain) {
                if !met.contains(&before) {
                    met.insert(before.clone());
                    waiting.push(before);
                }
            }
            if met.len() > limit {
                return None;
            }
        }
        Some(roles)
    }

    /// The chains that one replacement leads from to this one.
    fn undone(&self, chain: &[u8]) -> Vec<Vec<u8>> {
        let mut found = Vec::new();
        for (at, &role) in chain.iter().enumerate() {
            for rule in &self.rules[usize::from(role)] {
                if let Some(rest) = chain[at..].strip_prefix(&rule.left[..]) {
                    found.push([&chain[..at], &[rule.right], rest].concat());
                }
            }
        }
        found
    }
}
