//! The proved archive: its eight C functions as safe calls on slices.

use crate::plain::Refusal;

mod c {
    #[rustfmt::skip]
    extern "C" {
        pub fn rabbitsteel_read(book: *const u8, book_len: usize, first: *mut u64, second: *mut u64) -> u64;
        pub fn rabbitsteel_order(
            book: *const u8, book_len: usize, levels: *mut u8, levels_len: usize,
            first: *mut u64, second: *mut u64, third: *mut u64,
        ) -> u64;
        pub fn rabbitsteel_build(
            book: *const u8, book_len: usize, heads: *mut u16, heads_len: usize, moves: *mut u16, moves_len: usize,
            first: *mut u64, second: *mut u64, third: *mut u64,
        ) -> u64;
        pub fn rabbitsteel_ask(
            heads: *const u16, heads_len: usize, moves: *const u16, moves_len: usize,
            role: u8, chain: *const u8, chain_len: usize, answer: *mut u64,
        ) -> u64;
        pub fn rabbitsteel_derived(
            book: *const u8, book_len: usize, heads: *mut u16, heads_len: usize, moves: *mut u16, moves_len: usize,
            role: u8, chain: *const u8, chain_len: usize, answer: *mut u64,
        ) -> u64;
        pub fn rabbitsteel_write_derivation(
            book: *const u8, book_len: usize, role: u8, chain: *const u8, chain_len: usize,
            steps: *mut u8, steps_len: usize, first: *mut u64, second: *mut u64,
        ) -> u64;
        pub fn rabbitsteel_check_derivation(
            book: *const u8, book_len: usize, role: u8, chain: *const u8, chain_len: usize,
            steps: *const u8, steps_len: usize, answer: *mut u64,
        ) -> u64;
        pub fn rabbitsteel_binds(
            book: *const u8, book_len: usize, role: u8, chain: *const u8, chain_len: usize,
            network: *mut u8, network_len: usize, answer: *mut u64,
        ) -> u64;
    }
}

/// What a call gives back: 0 or the number of the cause, and the numbers beside it. The reader and the writer of
/// derivations have two such numbers and a question one, 1 for yes and 0 for no; the others are 0 here.
#[derive(Clone, Copy, Debug, PartialEq, Eq)]
pub struct Reply {
    pub cause: u64,
    pub first: u64,
    pub second: u64,
    pub third: u64,
}

impl Reply {
    /// The whole reply to a question that is answered.
    pub fn answered(yes: bool) -> Reply {
        Ok(yes).into()
    }
}

impl From<Refusal> for Reply {
    fn from(refusal: Refusal) -> Reply {
        Reply {
            cause: refusal.cause as u64,
            first: refusal.value,
            second: 0,
            third: 0,
        }
    }
}

impl From<Result<(u64, u64, u64), Refusal>> for Reply {
    fn from(result: Result<(u64, u64, u64), Refusal>) -> Reply {
        match result {
            Ok((first, second, third)) => Reply {
                cause: 0,
                first,
                second,
                third,
            },
            Err(refusal) => refusal.into(),
        }
    }
}

impl From<Result<(u64, u64), Refusal>> for Reply {
    fn from(result: Result<(u64, u64), Refusal>) -> Reply {
        result.map(|(first, second)| (first, second, 0)).into()
    }
}

impl From<Result<bool, Refusal>> for Reply {
    fn from(result: Result<bool, Refusal>) -> Reply {
        result.map(|answer| (u64::from(answer), 0)).into()
    }
}

/// The writer's: 1 and the number of steps, or 0 for no.
impl From<Result<Option<u64>, Refusal>> for Reply {
    fn from(result: Result<Option<u64>, Refusal>) -> Reply {
        result
            .map(|count| (u64::from(count.is_some()), count.unwrap_or(0)))
            .into()
    }
}

/// What stands in a number before a call; a call that leaves it there has not answered.
const UNSET: u64 = 0xA5A5_A5A5_A5A5_A5A5;

/// Causes 1 to 7; accepted: the names and the rule count.
pub fn read(book: &[u8]) -> Reply {
    let (mut first, mut second) = (UNSET, UNSET);
    // SAFETY: the pointers and lengths are those of live slices and numbers, and the call keeps none of them.
    let cause = unsafe { c::rabbitsteel_read(book.as_ptr(), book.len(), &mut first, &mut second) };
    Reply {
        cause,
        first,
        second,
        third: 0,
    }
}

/// Causes 1 to 8; accepted: the names, the rule count and the depth, and as many levels as are lent.
pub fn order(book: &[u8], levels: &mut [u8]) -> Reply {
    let (mut first, mut second, mut third) = (UNSET, UNSET, UNSET);
    // SAFETY: as in `read`; the lent slice does not overlap the book.
    let cause = unsafe {
        c::rabbitsteel_order(
            book.as_ptr(),
            book.len(),
            levels.as_mut_ptr(),
            levels.len(),
            &mut first,
            &mut second,
            &mut third,
        )
    };
    Reply {
        cause,
        first,
        second,
        third,
    }
}

/// Causes 1 to 11; accepted: the states, the transitions and the depth, and the tables in the lent slices.
pub fn build(book: &[u8], heads: &mut [u16], moves: &mut [u16]) -> Reply {
    let (mut first, mut second, mut third) = (UNSET, UNSET, UNSET);
    // SAFETY: as in `read`; the lent slices do not overlap.
    let cause = unsafe {
        c::rabbitsteel_build(
            book.as_ptr(),
            book.len(),
            heads.as_mut_ptr(),
            heads.len(),
            moves.as_mut_ptr(),
            moves.len(),
            &mut first,
            &mut second,
            &mut third,
        )
    };
    Reply {
        cause,
        first,
        second,
        third,
    }
}

/// Causes 12 to 14; accepted: 1 for yes, 0 for no.
pub fn ask(heads: &[u16], moves: &[u16], role: u8, chain: &[u8]) -> Reply {
    let mut first = UNSET;
    // SAFETY: as in `read`.
    let cause = unsafe {
        c::rabbitsteel_ask(
            heads.as_ptr(),
            heads.len(),
            moves.as_ptr(),
            moves.len(),
            role,
            chain.as_ptr(),
            chain.len(),
            &mut first,
        )
    };
    Reply {
        cause,
        first,
        second: 0,
        third: 0,
    }
}

/// Causes 1 to 11, then 12 to 14; accepted: 1 for yes, 0 for no. The lent slices are left as `build` leaves them.
pub fn derived(book: &[u8], heads: &mut [u16], moves: &mut [u16], role: u8, chain: &[u8]) -> Reply {
    let mut first = UNSET;
    // SAFETY: as in `build`.
    let cause = unsafe {
        c::rabbitsteel_derived(
            book.as_ptr(),
            book.len(),
            heads.as_mut_ptr(),
            heads.len(),
            moves.as_mut_ptr(),
            moves.len(),
            role,
            chain.as_ptr(),
            chain.len(),
            &mut first,
        )
    };
    Reply {
        cause,
        first,
        second: 0,
        third: 0,
    }
}

/// Causes 1 to 8 and 13 to 16; accepted: 1 and the number of steps, which stand in the lent slice, or 0 for no.
pub fn write_derivation(book: &[u8], role: u8, chain: &[u8], steps: &mut [u8]) -> Reply {
    let (mut first, mut second) = (UNSET, UNSET);
    // SAFETY: as in `read`; the lent slice overlaps neither the book nor the chain.
    let cause = unsafe {
        c::rabbitsteel_write_derivation(
            book.as_ptr(),
            book.len(),
            role,
            chain.as_ptr(),
            chain.len(),
            steps.as_mut_ptr(),
            steps.len(),
            &mut first,
            &mut second,
        )
    };
    Reply {
        cause,
        first,
        second,
        third: 0,
    }
}

/// Causes 1 to 8, 13 to 15 and 17; accepted: 1 where the steps lead from the role to the chain, else 0.
pub fn check_derivation(book: &[u8], role: u8, chain: &[u8], steps: &[u8]) -> Reply {
    let mut first = UNSET;
    // SAFETY: as in `read`.
    let cause = unsafe {
        c::rabbitsteel_check_derivation(
            book.as_ptr(),
            book.len(),
            role,
            chain.as_ptr(),
            chain.len(),
            steps.as_ptr(),
            steps.len(),
            &mut first,
        )
    };
    Reply {
        cause,
        first,
        second: 0,
        third: 0,
    }
}

/// Causes 1 to 8 and 13 to 16; accepted: 1 where the chain binds the role, else 0 and a network in the lent slice.
pub fn binds(book: &[u8], role: u8, chain: &[u8], network: &mut [u8]) -> Reply {
    let mut first = UNSET;
    // SAFETY: as in `write_derivation`.
    let cause = unsafe {
        c::rabbitsteel_binds(
            book.as_ptr(),
            book.len(),
            role,
            chain.as_ptr(),
            chain.len(),
            network.as_mut_ptr(),
            network.len(),
            &mut first,
        )
    };
    Reply {
        cause,
        first,
        second: 0,
        third: 0,
    }
}
