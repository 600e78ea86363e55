//! The causes of documents 01 and 02 that refuse an input, and the value returned beside each.

/// What refuses; the numbers are the documents'.
#[derive(Clone, Copy, Debug, PartialEq, Eq)]
#[repr(u64)]
pub enum Cause {
    /// Fewer than 8 or more than 2,568 bytes.
    BookSize = 1,
    Mark = 2,
    Version = 3,
    /// Names or rule count out of range.
    Counts = 4,
    /// Length 0 or over 8, rule cut short, or bytes after the last.
    Framing = 5,
    /// A role byte of twice the names or more.
    UnknownRole = 6,
    /// A rule equals an earlier rule or its inverse.
    RepeatedRule = 7,
    NoOrder = 8,
    /// Over 2,048 states.
    States = 9,
    /// Over 5,120 transitions.
    Transitions = 10,
    /// Heads or moves lent too short.
    ShortTables = 11,
    /// Tables that no question can be put to.
    Tables = 12,
    /// A chain of 0 or over 1,024 links.
    ChainLength = 13,
    /// A role byte, asked or in the chain, of twice the heads or more.
    QueryRole = 14,
    /// A chain of over 16 links, where a derivation or a network is asked for.
    LongChain = 15,
    /// Fewer bytes lent than the steps or the network need.
    ShortBuffer = 16,
    /// Steps that are not in fours, or the first impossible one.
    Step = 17,
}

/// A refused input: the first cause met, and the value beside it.
#[derive(Clone, Copy, Debug, PartialEq, Eq)]
pub struct Refusal {
    pub cause: Cause,
    pub value: u64,
}

impl Refusal {
    /// A refusal that names a rule or a step.
    pub fn at(cause: Cause, number: usize) -> Refusal {
        Refusal {
            cause,
            value: number as u64,
        }
    }
}

/// A refusal with 0 beside it.
impl From<Cause> for Refusal {
    fn from(cause: Cause) -> Refusal {
        Refusal { cause, value: 0 }
    }
}
