//! The completed rules of a book: its rules and their inverses.

use super::book::Book;

/// A completed rule, as its own list of roles.
#[derive(Clone, Debug, PartialEq, Eq)]
pub struct CompletedRule {
    pub right: u8,
    pub left: Vec<u8>,
}

/// The inverse of a chain: reversed, with each role flipped.
pub fn inverse(chain: &[u8]) -> Vec<u8> {
    chain.iter().rev().map(|role| role ^ 1).collect()
}

/// The rules of a book in book order, each followed by its inverse.
pub fn completion(book: &Book) -> Vec<CompletedRule> {
    let mut completed = Vec::with_capacity(2 * book.rules());
    for number in 0..book.rules() {
        let rule = book.rule(number);
        completed.push(CompletedRule {
            right: rule.right,
            left: rule.left.to_vec(),
        });
        completed.push(CompletedRule {
            right: rule.right ^ 1,
            left: inverse(rule.left),
        });
    }
    completed
}
