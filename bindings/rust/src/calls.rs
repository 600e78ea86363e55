//! The archive's functions behind safe ones: a slice passes as its pointer and its length. What the
//! numbers mean is left to the callers.

/// What a call returns and stores: the number of the cause or 0, and the numbers lent to it.
/// The reader and the writer of derivations store two numbers and a question one, so the others
/// are 0.
pub(crate) struct Told {
    pub(crate) cause: u64,
    pub(crate) first: u64,
    pub(crate) second: u64,
    pub(crate) third: u64,
}

// SAFETY: these are the declarations of `bindings/c/rabbitsteel.h`.
unsafe extern "C" {
    fn rabbitsteel_read(book: *const u8, book_len: usize, first: *mut u64, second: *mut u64)
        -> u64;

    fn rabbitsteel_order(
        book: *const u8,
        book_len: usize,
        levels: *mut u8,
        levels_len: usize,
        first: *mut u64,
        second: *mut u64,
        third: *mut u64,
    ) -> u64;

    fn rabbitsteel_build(
        book: *const u8,
        book_len: usize,
        heads: *mut u16,
        heads_len: usize,
        moves: *mut u16,
        moves_len: usize,
        first: *mut u64,
        second: *mut u64,
        third: *mut u64,
    ) -> u64;

    fn rabbitsteel_ask(
        heads: *const u16,
        heads_len: usize,
        moves: *const u16,
        moves_len: usize,
        role: u8,
        chain: *const u8,
        chain_len: usize,
        answer: *mut u64,
    ) -> u64;

    fn rabbitsteel_derived(
        book: *const u8,
        book_len: usize,
        heads: *mut u16,
        heads_len: usize,
        moves: *mut u16,
        moves_len: usize,
        role: u8,
        chain: *const u8,
        chain_len: usize,
        answer: *mut u64,
    ) -> u64;

    fn rabbitsteel_write_derivation(
        book: *const u8,
        book_len: usize,
        role: u8,
        chain: *const u8,
        chain_len: usize,
        steps: *mut u8,
        steps_len: usize,
        first: *mut u64,
        second: *mut u64,
    ) -> u64;

    fn rabbitsteel_check_derivation(
        book: *const u8,
        book_len: usize,
        role: u8,
        chain: *const u8,
        chain_len: usize,
        steps: *const u8,
        steps_len: usize,
        answer: *mut u64,
    ) -> u64;

    fn rabbitsteel_binds(
        book: *const u8,
        book_len: usize,
        role: u8,
        chain: *const u8,
        chain_len: usize,
        network: *mut u8,
        network_len: usize,
        answer: *mut u64,
    ) -> u64;
}

pub(crate) fn read(book: &[u8]) -> Told {
    let (mut first, mut second) = (0, 0);
    // SAFETY: a slice's pointer is aligned and valid for its length, also where that is 0; the two
    // numbers are locals of their own, and nothing outlives the call.
    let cause = unsafe { rabbitsteel_read(book.as_ptr(), book.len(), &mut first, &mut second) };
    Told {
        cause,
        first,
        second,
        third: 0,
    }
}

pub(crate) fn order(book: &[u8], levels: &mut [u8]) -> Told {
    let (mut first, mut second, mut third) = (0, 0, 0);
    // SAFETY: as in `read`; `levels` is borrowed for writing, so it does not overlap the book.
    let cause = unsafe {
        rabbitsteel_order(
            book.as_ptr(),
            book.len(),
            levels.as_mut_ptr(),
            levels.len(),
            &mut first,
            &mut second,
            &mut third,
        )
    };
    Told {
        cause,
        first,
        second,
        third,
    }
}

pub(crate) fn build(book: &[u8], heads: &mut [u16], moves: &mut [u16]) -> Told {
    let (mut first, mut second, mut third) = (0, 0, 0);
    // SAFETY: as in `read`; `heads` and `moves` are borrowed for writing, so they overlap neither
    // each other nor the book.
    let cause = unsafe {
        rabbitsteel_build(
            book.as_ptr(),
            book.len(),
            heads.as_mut_ptr(),
            heads.len(),
            moves.as_mut_ptr(),
            moves.len(),
            &mut first,
            &mut second,
            &mut third,
        )
    };
    Told {
        cause,
        first,
        second,
        third,
    }
}

pub(crate) fn ask(heads: &[u16], moves: &[u16], role: u8, chain: &[u8]) -> Told {
    let mut first = 0;
    // SAFETY: as in `read`; the call writes the answer alone, and any numbers may stand in the
    // tables: it refuses what leads out of bounds.
    let cause = unsafe {
        rabbitsteel_ask(
            heads.as_ptr(),
            heads.len(),
            moves.as_ptr(),
            moves.len(),
            role,
            chain.as_ptr(),
            chain.len(),
            &mut first,
        )
    };
    Told {
        cause,
        first,
        second: 0,
        third: 0,
    }
}

pub(crate) fn derived(
    book: &[u8],
    heads: &mut [u16],
    moves: &mut [u16],
    role: u8,
    chain: &[u8],
) -> Told {
    let mut first = 0;
    // SAFETY: as in `build`; the chain is borrowed beside `heads` and `moves`, so it overlaps
    // neither.
    let cause = unsafe {
        rabbitsteel_derived(
            book.as_ptr(),
            book.len(),
            heads.as_mut_ptr(),
            heads.len(),
            moves.as_mut_ptr(),
            moves.len(),
            role,
            chain.as_ptr(),
            chain.len(),
            &mut first,
        )
    };
    Told {
        cause,
        first,
        second: 0,
        third: 0,
    }
}

pub(crate) fn write_derivation(book: &[u8], role: u8, chain: &[u8], steps: &mut [u8]) -> Told {
    let (mut first, mut second) = (0, 0);
    // SAFETY: as in `read`; `steps` is borrowed for writing, so it overlaps neither the book nor
    // the chain.
    let cause = unsafe {
        rabbitsteel_write_derivation(
            book.as_ptr(),
            book.len(),
            role,
            chain.as_ptr(),
            chain.len(),
            steps.as_mut_ptr(),
            steps.len(),
            &mut first,
            &mut second,
        )
    };
    Told {
        cause,
        first,
        second,
        third: 0,
    }
}

pub(crate) fn check_derivation(book: &[u8], role: u8, chain: &[u8], steps: &[u8]) -> Told {
    let mut first = 0;
    // SAFETY: as in `read`; the call writes the answer alone, and any bytes may stand in the steps.
    let cause = unsafe {
        rabbitsteel_check_derivation(
            book.as_ptr(),
            book.len(),
            role,
            chain.as_ptr(),
            chain.len(),
            steps.as_ptr(),
            steps.len(),
            &mut first,
        )
    };
    Told {
        cause,
        first,
        second: 0,
        third: 0,
    }
}

pub(crate) fn binds(book: &[u8], role: u8, chain: &[u8], network: &mut [u8]) -> Told {
    let mut first = 0;
    // SAFETY: as in `read`; `network` is borrowed for writing, so it overlaps neither the book nor
    // the chain.
    let cause = unsafe {
        rabbitsteel_binds(
            book.as_ptr(),
            book.len(),
            role,
            chain.as_ptr(),
            chain.len(),
            network.as_mut_ptr(),
            network.len(),
            &mut first,
        )
    };
    Told {
        cause,
        first,
        second: 0,
        third: 0,
    }
}
