//! The book reader: causes 1 to 7, and the left sides as parts of the book.

use super::refusal::{Cause, Refusal};

pub const MAX_NAMES: usize = 64;
pub const MAX_RULES: usize = 256;
pub const MAX_LEFT: usize = 8;
pub const MIN_BYTES: usize = 8;
pub const MAX_BYTES: usize = MIN_BYTES + MAX_RULES * (2 + MAX_LEFT);

/// Where the number of names stands.
pub const NAMES: usize = 5;

/// A book that passed causes 1 to 6.
pub struct Book<'a> {
    bytes: &'a [u8],
    names: usize,
    rules: usize,
    /// Where each rule starts.
    starts: [u16; MAX_RULES],
}

/// A rule as it stands in the book.
#[derive(Clone, Copy, Debug, PartialEq, Eq)]
pub struct Rule<'a> {
    pub right: u8,
    pub left: &'a [u8],
}

impl<'a> Book<'a> {
    /// Reads a book by causes 1 to 7.
    pub fn read(bytes: &'a [u8]) -> Result<Book<'a>, Refusal> {
        let book = Book::parse(bytes)?;
        book.check_repeated()?;
        Ok(book)
    }

    /// Reads a book by causes 1 to 6 alone.
    pub fn parse(bytes: &'a [u8]) -> Result<Book<'a>, Refusal> {
        let (names, rules) = header(bytes)?;
        let mut starts = [0; MAX_RULES];
        let mut at = MIN_BYTES;
        for (number, start) in starts.iter_mut().enumerate().take(rules) {
            *start = at as u16;
            let [right, length, rest @ ..] = &bytes[at..] else {
                return Err(Refusal::at(Cause::Framing, number));
            };
            let length = usize::from(*length);
            if length == 0 || length > MAX_LEFT || length > rest.len() {
                return Err(Refusal::at(Cause::Framing, number));
            }
            let unknown = |role: &u8| usize::from(*role) >= 2 * names;
            if unknown(right) || rest[..length].iter().any(unknown) {
                return Err(Refusal::at(Cause::UnknownRole, number));
            }
            at += 2 + length;
        }
        if at < bytes.len() {
            return Err(Refusal::at(Cause::Framing, rules));
        }
        Ok(Book {
            bytes,
            names,
            rules,
            starts,
        })
    }

    pub fn names(&self) -> usize {
        self.names
    }

    pub fn rules(&self) -> usize {
        self.rules
    }

    pub fn bytes(&self) -> &'a [u8] {
        self.bytes
    }

    /// Where the left side of a rule starts in the book's bytes.
    pub fn left_start(&self, rule: usize) -> usize {
        usize::from(self.starts[rule]) + 2
    }

    pub fn rule(&self, rule: usize) -> Rule<'a> {
        let start = self.left_start(rule);
        let length = usize::from(self.bytes[start - 1]);
        Rule {
            right: self.bytes[start - 2],
            left: &self.bytes[start..start + length],
        }
    }

    /// Cause 7.
    fn check_repeated(&self) -> Result<(), Refusal> {
        const FEW: usize = 16;
        let repeated = if self.rules <= FEW {
            self.first_repeated::<{ 2 * FEW }>()
        } else {
            self.first_repeated::<{ 2 * MAX_RULES }>()
        };
        match repeated {
            Some(number) => Err(Refusal::at(Cause::RepeatedRule, number)),
            None => Ok(()),
        }
    }

    /// The first rule whose key was met before. The keys stand in a hash table with open addressing, at most half full
    /// and a power of two in size; 0 is a free slot.
    fn first_repeated<const SLOTS: usize>(&self) -> Option<usize> {
        let mut slots = [0u64; SLOTS];
        for number in 0..self.rules {
            let key = key(self.rule(number));
            let hash = key.wrapping_mul(0x9E37_79B9_7F4A_7C15) >> (u64::BITS - SLOTS.ilog2());
            let mut slot = hash as usize;
            while slots[slot] != 0 {
                if slots[slot] == key {
                    return Some(number);
                }
                slot = (slot + 1) % SLOTS;
            }
            slots[slot] = key;
        }
        None
    }
}

/// Causes 1 to 4: the names and the rule count.
fn header(bytes: &[u8]) -> Result<(usize, usize), Refusal> {
    if bytes.len() < MIN_BYTES || bytes.len() > MAX_BYTES {
        return Err(Cause::BookSize.into());
    }
    if bytes[..3] != *b"RLB" {
        return Err(Cause::Mark.into());
    }
    if u16::from_le_bytes([bytes[3], bytes[4]]) != 1 {
        return Err(Cause::Version.into());
    }
    let names = usize::from(bytes[NAMES]);
    let rules = usize::from(u16::from_le_bytes([bytes[6], bytes[7]]));
    if names == 0 || names > MAX_NAMES || rules > MAX_RULES {
        return Err(Cause::Counts.into());
    }
    Ok((names, rules))
}

/// A number that two rules share exactly when they are equal or inverse to each other. Of a rule and its inverse it
/// takes the one with a name on the right: 7 bits for each left role under a leading 1, then 6 bits for the name.
fn key(rule: Rule) -> u64 {
    let push = |key: u64, role: u8| key << 7 | u64::from(role);
    let left = if rule.right & 1 == 0 {
        rule.left.iter().fold(1, |key, &role| push(key, role))
    } else {
        rule.left
            .iter()
            .rev()
            .fold(1, |key, &role| push(key, role ^ 1))
    };
    left << 6 | u64::from(rule.right >> 1)
}

/// The left side of a rule as that part of the book; empty where the book is refused by causes 1 to 6 or has no such
/// rule.
pub fn left(book: &[u8], rule: usize) -> &[u8] {
    match Book::parse(book) {
        Ok(book) if rule < book.rules() => book.rule(rule).left,
        _ => &[],
    }
}
