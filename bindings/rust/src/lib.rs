//! Safe calls of the proved relation engine.
//!
//! A book holds rules over links, such as "part sits to sits": a part of what sits in a hall sits
//! there too. The engine reads a book, checks that its rules have a regular order and how deep it
//! is, builds tables and answers whether a chain of links is derived from a role. It writes down
//! how a chain is derived, and checks such a derivation. And it answers whether a chain binds a
//! role: whether the role links the chain's ends in every finite network that obeys the rules; where
//! it does not, it gives such a network.
//!
//! A role byte is twice the name, plus 1 for the inverse; [`role`] and [`inverse`] make them. The
//! calls keep no state and take no more memory than is lent to them, so they may run in several
//! threads at once; a build or a question takes up to 40 KB of the stack, both in one call 70 KB,
//! writing a derivation 100 KB.
//!
//! # The hall book
//!
//! ```
//! use rabbitsteel::{inverse, order, role, Binding, Cause, Counts, Derivation, Step, Tables};
//!
//! const PART: u8 = role(0);
//! const SITS: u8 = role(1);
//! const LET: u8 = role(2);
//! const DUE: u8 = role(3);
//!
//! // Four names and three rules, each as right role, length, left roles.
//! let book = [
//!     b'R', b'L', b'B', 1, 0, 4, 3, 0, // mark, version, names, rules
//!     PART, 2, PART, PART,             // part part to part
//!     SITS, 2, PART, SITS,             // part sits to sits
//!     DUE, 2, SITS, LET,               // sits let to due
//! ];
//!
//! // part and let stand on no other name, sits on part, due on sits and let.
//! let order = order(&book)?;
//! assert_eq!(order.levels(), [1, 2, 1, 3]);
//! assert_eq!(order.depth, 3);
//!
//! let tables = Tables::of(&book)?;
//! assert_eq!(tables.counts(), Counts { states: 16, moves: 18, depth: 3 });
//! assert!(tables.ask(DUE, &[PART, PART, SITS, LET])?);
//! assert!(!tables.ask(DUE, &[SITS, PART, LET])?);
//! assert!(tables.ask(inverse(DUE), &[inverse(LET), inverse(SITS), inverse(PART)])?);
//!
//! // due, by rule 2 sits let, by rule 1 part sits let.
//! let derivation = Derivation::of(&book, DUE, &[PART, SITS, LET])?.expect("it is derived");
//! let steps: Vec<Step> = derivation.steps().collect();
//! assert_eq!(steps[0], Step { place: 0, rule: 2, inverse: false });
//! assert_eq!(steps[1], Step { place: 0, rule: 1, inverse: false });
//!
//! // Places 0 to 3, with sits from 0 to 1, part from 1 to 2 and let from 2 to 3, and no due.
//! let binding = Binding::of(&book, DUE, &[SITS, PART, LET])?;
//! let network = binding.network().expect("it does not bind");
//! assert!(network.links(1, 0, 1) && !network.links(3, 0, 3));
//! assert_eq!(network.iter().count(), 3);
//!
//! let refusal = tables.ask(DUE, &[]).unwrap_err();
//! assert_eq!(refusal.cause, Cause::Chain);
//! assert_eq!(refusal.to_string(), "refused 13: the chain has 0 or over 1,024 links");
//! # Ok::<(), rabbitsteel::Refusal>(())
//! ```

#![warn(missing_docs)]
#![deny(unsafe_code)]

#[allow(unsafe_code)]
mod calls;
mod derivation;
mod network;
mod refusal;
mod tables;

pub use derivation::{Derivation, Step};
pub use network::{Binding, Link, Network};
pub use refusal::{Cause, Refusal};
pub use tables::Tables;

use calls::Told;

/// The most bytes of a book.
pub const BOOK_MAX: usize = 2568;
/// The most names of a book. So many heads suffice for the tables of every book.
pub const NAMES_MAX: usize = 64;
/// The most rules of a book.
pub const RULES_MAX: usize = 256;
/// The most states of a book's tables.
pub const STATES_MAX: usize = 2048;
/// The most moves of a book's tables.
pub const MOVES_MAX: usize = 5120;
/// So many numbers of moves suffice for the tables of every book.
pub const MOVES_LEN: usize = 3 * MOVES_MAX;
/// The most links of a chain.
pub const CHAIN_MAX: usize = 1024;
/// The most links of a chain whose derivation is written or checked.
pub const DERIVED_MAX: usize = 16;
/// The most steps of a derivation that is written.
pub const STEPS_MAX: usize = 4096;
/// So many bytes have to be lent for the steps of a derivation.
pub const STEPS_LEN: usize = 4 * STEPS_MAX;
/// The most links of a chain that is asked whether it binds a role.
pub const BINDS_MAX: usize = 16;
/// So many bytes suffice for the network of every book and chain.
pub const NETWORK_LEN: usize = network_len(NAMES_MAX, BINDS_MAX);
/// The label of a silent move. Labels below it are role bytes.
pub const SILENT: u16 = 128;

/// The role byte of a name.
///
/// # Panics
///
/// If the name is over 63. In a constant this is a compile error.
pub const fn role(name: u8) -> u8 {
    assert!(name < 64, "a name is 0 to 63");
    name << 1
}

/// The inverse of a role byte.
pub const fn inverse(role: u8) -> u8 {
    role ^ 1
}

/// The bytes of a network, for so many names and a chain of so many links: one for each name, place
/// from and place to, with a place more than links.
pub const fn network_len(names: usize, links: usize) -> usize {
    names * (links + 1) * (links + 1)
}

/// What a book says of itself.
#[derive(Debug, Clone, Copy, PartialEq, Eq, Hash)]
pub struct Header {
    /// How many names it has.
    pub names: usize,
    /// How many rules it has.
    pub rules: usize,
}

/// What the order check finds of a book: its header, its depth and the level of each name.
///
/// The level of a name, and of its inverse, is 1 where none of its rules has an inner role, else 1
/// more than the highest level among its rules' inner names.
#[derive(Debug, Clone, Copy, PartialEq, Eq, Hash)]
pub struct Order {
    /// How many names it has.
    pub names: usize,
    /// How many rules it has.
    pub rules: usize,
    /// The highest level, 1 to [`NAMES_MAX`].
    pub depth: usize,
    levels: [u8; NAMES_MAX],
}

impl Order {
    /// One level to a name.
    pub fn levels(&self) -> &[u8] {
        &self.levels[..self.names]
    }
}

/// How large the tables of a book are, and how deep it is.
#[derive(Debug, Clone, Copy, PartialEq, Eq, Hash)]
pub struct Counts {
    /// How many states the tables have.
    pub states: usize,
    /// How many moves they have.
    pub moves: usize,
    /// The depth of the book: the highest level of its names.
    pub depth: usize,
}

impl Counts {
    /// How many numbers the moves take, three to each.
    pub const fn numbers(self) -> usize {
        3 * self.moves
    }
}

/// Reads a book: causes 1 to 7.
pub fn read(book: &[u8]) -> Result<Header, Refusal> {
    let [names, rules, _] = accepted(calls::read(book))?;
    Ok(Header { names, rules })
}

/// Reads a book, checks that its rules have a regular order and gives the levels: causes 1 to 8.
///
/// A book whose tables would be too large has levels too.
///
/// ```
/// use rabbitsteel::{order, role};
///
/// // One rule, from name 1 to name 0.
/// let book = [b'R', b'L', b'B', 1, 0, 2, 1, 0, role(0), 1, role(1)];
/// let order = order(&book)?;
/// assert_eq!((order.names, order.rules, order.depth), (2, 1, 2));
/// assert_eq!(order.levels(), [2, 1]);
/// # Ok::<(), rabbitsteel::Refusal>(())
/// ```
pub fn order(book: &[u8]) -> Result<Order, Refusal> {
    let mut levels = [0; NAMES_MAX];
    let [names, rules, depth] = accepted(calls::order(book, &mut levels))?;
    Ok(Order {
        names,
        rules,
        depth,
        levels,
    })
}

/// Builds the tables of a book in lent memory: causes 1 to 11.
///
/// The first heads, one to a name, and the first [`Counts::numbers`] of `moves` are written; the
/// numbers after them keep their values and are no part of the tables. A book that is refused
/// leaves `heads` and `moves` unchanged. [`NAMES_MAX`] heads and [`MOVES_LEN`] moves suffice for
/// every book. [`Tables`] does the same with memory of its own.
pub fn build(book: &[u8], heads: &mut [u16], moves: &mut [u16]) -> Result<Counts, Refusal> {
    let [states, moves, depth] = accepted(calls::build(book, heads, moves))?;
    Ok(Counts {
        states,
        moves,
        depth,
    })
}

/// Asks tables whether the chain is derived from the role: causes 12 to 14.
///
/// Lend it the numbers that a build wrote and no more. Tables that no book gave are answered too:
/// yes where some path from the name's head to head + 1 spells the chain, silent moves free.
pub fn ask(heads: &[u16], moves: &[u16], role: u8, chain: &[u8]) -> Result<bool, Refusal> {
    let [answer, ..] = accepted(calls::ask(heads, moves, role, chain))?;
    Ok(answer == 1)
}

/// Builds the tables of a book in lent memory and asks them: causes 1 to 11, then 13 and 14.
///
/// Yes exactly where the book's rules derive the chain from the role. `heads` and `moves` then hold
/// the book's tables, as after [`build`]; where the book or the question is refused, what they held.
pub fn derived(
    book: &[u8],
    heads: &mut [u16],
    moves: &mut [u16],
    role: u8,
    chain: &[u8],
) -> Result<bool, Refusal> {
    let [answer, ..] = accepted(calls::derived(book, heads, moves, role, chain))?;
    Ok(answer == 1)
}

/// Writes a derivation of the chain from the role in lent memory: causes 1 to 8 and 13 to 16.
///
/// The number of steps, of four bytes each from the first byte on, or none where the chain is not
/// derived. The bytes after the steps keep their values; where there is no derivation or something
/// is refused, all do. [`STEPS_LEN`] bytes have to be lent, whatever the answer. [`Derivation`]
/// does the same with memory of its own.
pub fn write_derivation(
    book: &[u8],
    role: u8,
    chain: &[u8],
    steps: &mut [u8],
) -> Result<Option<usize>, Refusal> {
    let [derived, count, _] = accepted(calls::write_derivation(book, role, chain, steps))?;
    Ok((derived == 1).then_some(count))
}

/// Checks whether steps lead from the role to the chain: causes 1 to 8, 13 to 15 and 17.
///
/// The steps may come from anywhere and be any number, as [`Derivation::bytes`] has them. A step
/// is impossible if there is no such place or rule, its last byte is over 1, the link at its place
/// is not the right role of that rule or inverse, or the chain would get over [`DERIVED_MAX`]
/// links.
pub fn check_derivation(
    book: &[u8],
    role: u8,
    chain: &[u8],
    steps: &[u8],
) -> Result<bool, Refusal> {
    let [answer, ..] = accepted(calls::check_derivation(book, role, chain, steps))?;
    Ok(answer == 1)
}

/// Whether the chain binds the role: causes 1 to 8 and 13 to 16.
///
/// It does where in every finite network that obeys the book's rules and holds the chain, from one
/// place to another or back to itself, the role links the chain's ends. A derived chain binds; not
/// every chain that binds is derived. The book may have any number of states.
///
/// Where the chain does not bind, a network that shows it is written over the first
/// [`network_len`] bytes, and the bytes behind it keep their values; where it does, or something is
/// refused, all do. So many bytes have to be lent, whatever the answer; [`NETWORK_LEN`] suffice for
/// all. [`Binding`] does the same with memory of its own; [`Network::bytes`] says what they mean.
pub fn binds(book: &[u8], role: u8, chain: &[u8], network: &mut [u8]) -> Result<bool, Refusal> {
    let [answer, ..] = accepted(calls::binds(book, role, chain, network))?;
    Ok(answer == 1)
}

/// The numbers that a call stored, or why it refuses.
fn accepted(told: Told) -> Result<[usize; 3], Refusal> {
    let first = size(told.first);
    if told.cause == 0 {
        return Ok([first, size(told.second), size(told.third)]);
    }
    let cause = Cause::numbered(told.cause).expect("the archive has the causes of this package");
    Err(Refusal {
        cause,
        value: first,
    })
}

/// A count of at most 15,360, or the number of a rule or of a step that was lent.
fn size(number: u64) -> usize {
    usize::try_from(number).expect("the archive counts what is in memory")
}
