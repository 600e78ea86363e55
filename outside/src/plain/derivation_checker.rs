//! The checker of written derivations: causes 1 to 8, 13 to 15 and 17, and whether the steps lead from the role to the
//! chain.

use super::book::Book;
use super::order;
use super::query::check_chain;
use super::refusal::{Cause, Refusal};

/// The most links of a chain that derivations are written for.
pub const MAX_DERIVED_LINKS: usize = 16;

/// The bytes of a step: its place in the present chain, low byte first; the rule's number; 0 for the rule as it stands or
/// 1 for its inverse.
pub const STEP: usize = 4;

/// Follows the steps from the role: whether they end in the chain.
pub fn check_derivation(
    book: &[u8],
    role: u8,
    chain: &[u8],
    steps: &[u8],
) -> Result<bool, Refusal> {
    let book = asked_book(book, role, chain)?;
    let (steps, rest) = steps.as_chunks::<STEP>();
    if !rest.is_empty() {
        return Err(Cause::Step.into());
    }
    let mut present = Present::new(role);
    for (number, &step) in steps.iter().enumerate() {
        if present.replace(&book, step).is_none() {
            return Err(Refusal::at(Cause::Step, number));
        }
    }
    Ok(present.links() == chain)
}

/// Causes 1 to 8, then 13 to 15.
pub fn asked_book<'a>(book: &'a [u8], role: u8, chain: &[u8]) -> Result<Book<'a>, Refusal> {
    let book = Book::read(book)?;
    order::ordered(&book)?;
    check_chain(book.names(), role, chain)?;
    if chain.len() > MAX_DERIVED_LINKS {
        return Err(Cause::LongChain.into());
    }
    Ok(book)
}

/// The chain that the steps so far lead to. It never gets shorter.
struct Present {
    links: [u8; MAX_DERIVED_LINKS],
    length: usize,
}

impl Present {
    fn new(role: u8) -> Present {
        let mut links = [0; MAX_DERIVED_LINKS];
        links[0] = role;
        Present { links, length: 1 }
    }

    fn links(&self) -> &[u8] {
        &self.links[..self.length]
    }

    /// Puts the left side of the step's rule, or of its inverse, in the place of its right role; none where the step is
    /// impossible.
    fn replace(&mut self, book: &Book, [low, high, number, side]: [u8; STEP]) -> Option<()> {
        let place = usize::from(u16::from_le_bytes([low, high]));
        let number = usize::from(number);
        if place >= self.length || number >= book.rules() || side > 1 {
            return None;
        }
        let rule = book.rule(number);
        let length = self.length - 1 + rule.left.len();
        if self.links[place] != rule.right ^ side || length > MAX_DERIVED_LINKS {
            return None;
        }
        let after = place + rule.left.len();
        if length > self.length {
            self.links.copy_within(place + 1..self.length, after);
            self.length = length;
        }
        let put = self.links[place..after].iter_mut();
        if side == 0 {
            put.zip(rule.left).for_each(|(link, role)| *link = *role);
        } else {
            let inverse = rule.left.iter().rev();
            put.zip(inverse).for_each(|(link, role)| *link = role ^ 1);
        }
        Some(())
    }
}
