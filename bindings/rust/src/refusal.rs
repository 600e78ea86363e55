//! Why an input is refused: the causes of documents 01 and 02, their numbers and the value beside
//! each.

use std::error::Error;
use std::fmt;

/// Why a book, the memory lent to a call, a question or a derivation is refused.
///
/// The first cause met, in the order of their numbers, is the whole answer; [`Malformed`] and
/// [`Undeclared`] go rule by rule, and bytes after the last rule come next.
///
/// [`Malformed`]: Cause::Malformed
/// [`Undeclared`]: Cause::Undeclared
#[derive(Debug, Clone, Copy, PartialEq, Eq, Hash)]
#[non_exhaustive]
#[repr(u8)]
pub enum Cause {
    /// The book has fewer than 8 or more than 2,568 bytes.
    Size = 1,
    /// The book does not begin with the mark `RLB`.
    Mark = 2,
    /// The version is not 1.
    Version = 3,
    /// The names are not 1 to 64, or the rules are over 256.
    Range = 4,
    /// A left side has 0 or over 8 roles, or a rule is cut short: the value is that rule. Or bytes
    /// follow the last rule: the value is the number of rules.
    Malformed = 5,
    /// A role has a name that the book does not have. The value is the rule.
    Undeclared = 6,
    /// A rule equals an earlier rule or its mirror. The value is the lowest such later rule.
    Repeated = 7,
    /// The rules have no regular order. The value is the last rule of the shortest front part
    /// without one.
    NoOrder = 8,
    /// The tables have over 2,048 states.
    States = 9,
    /// The tables have over 5,120 moves.
    Moves = 10,
    /// Heads or moves are lent too short.
    Short = 11,
    /// Numbers that are no tables: no head or over 64, a head over 2,046, moves not in threes or
    /// over 15,360 numbers, a state over 2,047, or a label over 128.
    Tables = 12,
    /// The chain has 0 or over 1,024 links.
    Chain = 13,
    /// A role, asked or in the chain, has a name that the book or the tables do not have.
    Role = 14,
    /// The chain has over 16 links, where a derivation or a network is asked for.
    Long = 15,
    /// Fewer bytes are lent than the steps of a derivation, or a network, need.
    Buffer = 16,
    /// The steps of a derivation are not in fours of bytes: the value is 0. Or a step is
    /// impossible: the value is the number of the first such.
    Step = 17,
}

impl Cause {
    /// All causes, in the order of their numbers.
    pub const ALL: [Cause; 17] = [
        Cause::Size,
        Cause::Mark,
        Cause::Version,
        Cause::Range,
        Cause::Malformed,
        Cause::Undeclared,
        Cause::Repeated,
        Cause::NoOrder,
        Cause::States,
        Cause::Moves,
        Cause::Short,
        Cause::Tables,
        Cause::Chain,
        Cause::Role,
        Cause::Long,
        Cause::Buffer,
        Cause::Step,
    ];

    /// The number of the cause, 1 to 17.
    pub const fn number(self) -> u8 {
        self as u8
    }

    /// The cause of this number.
    pub(crate) fn numbered(number: u64) -> Option<Cause> {
        Cause::ALL
            .into_iter()
            .find(|cause| u64::from(cause.number()) == number)
    }
}

impl fmt::Display for Cause {
    fn fmt(&self, f: &mut fmt::Formatter<'_>) -> fmt::Result {
        f.write_str(match self {
            Cause::Size => "the book has fewer than 8 or more than 2,568 bytes",
            Cause::Mark => "the book does not begin with the mark RLB",
            Cause::Version => "the version is not 1",
            Cause::Range => "the names are not 1 to 64, or the rules over 256",
            Cause::Malformed => {
                "a left side of 0 or over 8 roles, a rule cut short, or bytes after the last rule"
            }
            Cause::Undeclared => "a role of a name that the book does not have",
            Cause::Repeated => "a rule equals an earlier rule or its mirror",
            Cause::NoOrder => "no regular order",
            Cause::States => "the tables have over 2,048 states",
            Cause::Moves => "the tables have over 5,120 moves",
            Cause::Short => "heads or moves lent too short",
            Cause::Tables => "the tables are out of bounds",
            Cause::Chain => "the chain has 0 or over 1,024 links",
            Cause::Role => "a role of a name that the book or the tables do not have",
            Cause::Long => "the chain has over 16 links",
            Cause::Buffer => "fewer bytes lent than the steps or the network need",
            Cause::Step => "steps not in fours of bytes, or an impossible step",
        })
    }
}

/// A cause and the value beside it: a rule number for causes 5 to 8, a step's number for cause 17,
/// and 0 for every other.
#[derive(Debug, Clone, Copy, PartialEq, Eq, Hash)]
pub struct Refusal {
    /// Why the input is refused.
    pub cause: Cause,
    /// The value beside the cause.
    pub value: usize,
}

impl fmt::Display for Refusal {
    fn fmt(&self, f: &mut fmt::Formatter<'_>) -> fmt::Result {
        let Refusal { cause, value } = self;
        write!(f, "refused {}: {cause}", cause.number())?;
        match cause {
            Cause::Malformed => write!(f, "; at rule {value}"),
            Cause::Undeclared => write!(f, "; in rule {value}"),
            Cause::Repeated => write!(f, "; rule {value} is the lowest that does"),
            Cause::NoOrder => write!(f, "; rule {value} ends the shortest front part without one"),
            Cause::Step => write!(f, "; step {value}"),
            _ => Ok(()),
        }
    }
}

impl Error for Refusal {}
