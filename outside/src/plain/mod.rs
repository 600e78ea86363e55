//! The engine of document 01 in plain Rust, without proofs, with written derivations and with what binds. The eight calls
//! have the interface of the archive's C functions; beside them stand two other ways to decide membership, from the
//! completed rules alone, another way to find the levels, another way to check a written derivation, and two other ways to
//! find what binds.
#![forbid(unsafe_code)]

pub mod binding;
pub mod book;
pub mod closure;
pub mod completion;
pub mod derivation_checker;
pub mod derivation_writer;
pub mod intervals;
pub mod levels;
pub mod networks;
pub mod order;
pub mod paths;
pub mod program;
pub mod query;
pub mod refusal;
pub mod rewriting;
pub mod steps;
pub mod tables;
#[cfg(test)]
mod tests;
pub mod trail_search;
pub mod trails;

pub use binding::binds;
pub use book::left;
pub use derivation_checker::check_derivation;
pub use derivation_writer::write_derivation;
pub use query::ask;
pub use refusal::{Cause, Refusal};
pub use tables::build;

use book::Book;
use query::check_chain;
use tables::build_if;

/// The names and the rule count of a well-formed book, or the refusal (causes 1 to 7).
pub fn read(book: &[u8]) -> Result<(u64, u64), Refusal> {
    let book = Book::read(book)?;
    Ok((book.names() as u64, book.rules() as u64))
}

/// The names, the rule count and the depth of a well-formed book with a regular order, or the refusal (causes 1 to 8).
/// Levels are written from the first name on, as many as are lent; a refusal leaves the slice as it was, and bytes after
/// the levels keep their values.
pub fn order(book: &[u8], levels: &mut [u8]) -> Result<(u64, u64, u64), Refusal> {
    let book = Book::read(book)?;
    let found = order::check(&book)?;
    let lent = levels.len().min(book.names());
    levels[..lent].copy_from_slice(&found.levels()[..lent]);
    Ok((
        book.names() as u64,
        book.rules() as u64,
        found.depth() as u64,
    ))
}

/// Builds the tables of a book into the lent slices and asks them: causes 1 to 11, then 13 and 14, each of which leaves
/// the slices as they were.
pub fn derived(
    book: &[u8],
    heads: &mut [u16],
    moves: &mut [u16],
    role: u8,
    chain: &[u8],
) -> Result<bool, Refusal> {
    let (_, transitions, _) =
        build_if(book, heads, moves, |names| check_chain(names, role, chain))?;
    let names = usize::from(book[book::NAMES]);
    ask(
        &heads[..names],
        &moves[..3 * transitions as usize],
        role,
        chain,
    )
}
