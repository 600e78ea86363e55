//! The levels of names by their sentence, slowly: recursion over the rules, with what is found kept. For books that have
//! an order.

use super::book::Book;

/// One level to a name: 1 where its rules have no inner role, else 1 more than the highest level among the inner names.
pub fn levels(book: &Book) -> Vec<u8> {
    let mut known = vec![None; book.names()];
    (0..book.names())
        .map(|name| level(book, name, &mut known))
        .collect()
}

/// The inner roles of a rule are, where there is an order, the left roles with another name than the right one.
fn level(book: &Book, name: usize, known: &mut [Option<u8>]) -> u8 {
    if let Some(level) = known[name] {
        return level;
    }
    let mut highest = 0;
    for number in 0..book.rules() {
        let rule = book.rule(number);
        if usize::from(rule.right >> 1) != name {
            continue;
        }
        for inner in rule.left.iter().map(|role| usize::from(role >> 1)) {
            if inner != name {
                highest = highest.max(level(book, inner, known));
            }
        }
    }
    known[name] = Some(highest + 1);
    highest + 1
}
