//! The order check: the form of each rule, cause 8, and the levels of the names.

use super::book::{Book, Rule, MAX_NAMES};
use super::refusal::{Cause, Refusal};

/// The five forms of document 01, in its order.
#[derive(Clone, Copy, Debug, PartialEq, Eq)]
pub enum Form {
    /// S1..Sk to R
    Row,
    /// R S1..Sk to R
    RightFirst,
    /// S1..Sk R to R
    RightLast,
    /// R R to R
    Transitive,
    /// inv(R) to R
    Symmetric,
}

impl Form {
    /// The form and the inner roles of a rule; none where no order gives it a form. An inner role has another name
    /// than the right role, so no rule has two forms.
    pub fn of<'a>(rule: Rule<'a>) -> Option<(Form, &'a [u8])> {
        let right = rule.right;
        let (form, inner) = match rule.left {
            [role] if *role == right ^ 1 => (Form::Symmetric, &[][..]),
            [first, last] if *first == right && *last == right => (Form::Transitive, &[][..]),
            [first, inner @ ..] if *first == right && !inner.is_empty() => {
                (Form::RightFirst, inner)
            }
            [inner @ .., last] if *last == right && !inner.is_empty() => (Form::RightLast, inner),
            inner => (Form::Row, inner),
        };
        let fits = inner.iter().all(|role| role >> 1 != right >> 1);
        fits.then_some((form, inner))
    }
}

/// The levels of a book's names: 1 where a name's rules have no inner role, else 1 more than the highest level among
/// the inner names, which is the longest way down. A name and its inverse have one level.
pub struct Levels {
    levels: [u8; MAX_NAMES],
    names: usize,
    depth: usize,
}

impl Levels {
    /// The levels of names that are given with the names below each. A walk in rising order of how many are below meets
    /// all names below a name before it.
    fn of(below: &[u64]) -> Levels {
        let mut levels = [0; MAX_NAMES];
        // The names met so far, by level; those up to the depth are in use.
        let mut met = [0u64; MAX_NAMES];
        let mut depth = 0;
        for &name in &rising(below)[..below.len()] {
            let name = usize::from(name);
            let highest = met[..depth].iter().rposition(|met| met & below[name] != 0);
            let level = highest.map_or(1, |highest| highest + 2);
            met[level - 1] |= 1 << name;
            levels[name] = level as u8;
            depth = depth.max(level);
        }
        Levels {
            levels,
            names: below.len(),
            depth,
        }
    }

    /// One level to a name.
    pub fn levels(&self) -> &[u8] {
        &self.levels[..self.names]
    }

    /// The highest level.
    pub fn depth(&self) -> usize {
        self.depth
    }
}

/// The names in rising order of how many are below them: each comes after all that are below it.
fn rising(below: &[u64]) -> [u8; MAX_NAMES] {
    let mut counts = [0u8; MAX_NAMES];
    // Where the names with so many below them start; a name has at most all others below it.
    let mut starts = [0u8; MAX_NAMES + 1];
    for (count, below) in counts.iter_mut().zip(below) {
        *count = below.count_ones() as u8;
        starts[usize::from(*count) + 1] += 1;
    }
    for count in 1..below.len() {
        starts[count] += starts[count - 1];
    }
    let mut row = [0; MAX_NAMES];
    for (name, count) in counts[..below.len()].iter().enumerate() {
        let start = &mut starts[usize::from(*count)];
        row[usize::from(*start)] = name as u8;
        *start += 1;
    }
    row
}

/// Cause 8, or the levels.
pub fn check(book: &Book) -> Result<Levels, Refusal> {
    let below = ordered(book)?;
    Ok(Levels::of(&below[..book.names()]))
}

/// Cause 8, or the names below each name. A role is below another exactly when its inverse is below the other's inverse,
/// so an order on roles exists exactly when one on names does: a rule breaks it when its right name is below one of its
/// inner names.
pub fn ordered(book: &Book) -> Result<[u64; MAX_NAMES], Refusal> {
    // Closed under transitivity.
    let mut all = [0u64; MAX_NAMES];
    let below = &mut all[..book.names()];
    for number in 0..book.rules() {
        let rule = book.rule(number);
        let right = usize::from(rule.right >> 1);
        let Some((_, inner)) = Form::of(rule) else {
            return Err(Refusal::at(Cause::NoOrder, number));
        };
        let under = inner.iter().fold(0, |under, role| {
            let name = usize::from(role >> 1);
            under | below[name] | 1 << name
        });
        if under >> right & 1 == 1 {
            return Err(Refusal::at(Cause::NoOrder, number));
        }
        if under & !below[right] != 0 {
            below[right] |= under;
            for above in below.iter_mut().filter(|above| **above >> right & 1 == 1) {
                *above |= under;
            }
        }
    }
    Ok(all)
}
