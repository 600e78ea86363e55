//! Tables that own their memory.

use crate::{ask, build, read, Counts, Refusal, MOVES_LEN};

/// The tables of a book, in memory of their own, cut to what the build wrote.
#[derive(Debug, Clone, PartialEq, Eq)]
pub struct Tables {
    heads: Box<[u16]>,
    moves: Box<[u16]>,
    counts: Counts,
}

impl Tables {
    /// The tables of a book: causes 1 to 10.
    pub fn of(book: &[u8]) -> Result<Tables, Refusal> {
        let names = read(book)?.names;
        let mut heads = vec![0; names];
        let mut moves = vec![0; MOVES_LEN];
        let counts = build(book, &mut heads, &mut moves)?;
        moves.truncate(counts.numbers());
        Ok(Tables {
            heads: heads.into_boxed_slice(),
            moves: moves.into_boxed_slice(),
            counts,
        })
    }

    /// Whether the chain is derived from the role: causes 13 and 14.
    pub fn ask(&self, role: u8, chain: &[u8]) -> Result<bool, Refusal> {
        ask(&self.heads, &self.moves, role, chain)
    }

    /// One number a name: the state where its paths begin.
    pub fn heads(&self) -> &[u16] {
        &self.heads
    }

    /// Three numbers a move: from, label, to.
    pub fn moves(&self) -> &[u16] {
        &self.moves
    }

    /// How many states and moves there are, and the depth of the book.
    pub fn counts(&self) -> Counts {
        self.counts
    }
}
