//! A written derivation checked by its sentence, slowly: on lists, with the completed rules. For questions that are not
//! refused.

use super::book::Book;
use super::completion::completion;

/// The chain that the steps lead to from the role, or the number of the first impossible one.
pub fn ending(book: &Book, role: u8, steps: &[[u8; 4]]) -> Result<Vec<u8>, usize> {
    let rules = completion(book);
    let mut chain = vec![role];
    for (number, step) in steps.iter().enumerate() {
        let place = usize::from(step[0]) + 256 * usize::from(step[1]);
        // Each rule is followed by its inverse.
        let rule = match step[3] {
            side @ 0..=1 => rules.get(2 * usize::from(step[2]) + usize::from(side)),
            _ => None,
        };
        match (chain.get(place), rule) {
            (Some(link), Some(rule)) if *link == rule.right => {
                chain.splice(place..=place, rule.left.iter().copied());
            }
            _ => return Err(number),
        }
        if chain.len() > 16 {
            return Err(number);
        }
    }
    Ok(chain)
}
