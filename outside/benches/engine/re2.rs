//! Questions about the hall book's relation due beside RE2, with the relation as a regular expression over link
//! bytes. Only where RE2 was found when this was built.

use crate::report::Report;

#[cfg(not(re2))]
pub fn rows(report: &mut Report) {
    report.note("The rows beside RE2 are left out: `re2/re2.h` was not found when this was built.");
}

#[cfg(re2)]
pub fn rows(report: &mut Report) {
    report.note("RE2 matches with an expression compiled before the time taken; `ask` reads its tables anew in each call.");
    compiled::rows(report);
}

#[cfg(re2)]
mod compiled {
    use crate::inputs::{asked, hall_questions, Question, Tabled};
    use crate::measure::interleaved;
    use crate::report::{Report, Row};
    use outside::archive::{self, Reply};
    use outside::books::HALL;
    use std::ffi::{c_char, c_void};
    use std::hint::black_box;

    extern "C" {
        fn rabbitsteel_re2_new(pattern: *const c_char, length: usize) -> *mut c_void;
        fn rabbitsteel_re2_matches(re2: *const c_void, chain: *const u8, length: usize) -> bool;
        fn rabbitsteel_re2_delete(re2: *mut c_void);
    }

    /// A compiled expression.
    struct Re2(*mut c_void);

    impl Re2 {
        fn new(pattern: &str) -> Re2 {
            // SAFETY: the pointer and the length are those of a live string, which the call does not keep.
            Re2(unsafe { rabbitsteel_re2_new(pattern.as_ptr().cast(), pattern.len()) })
        }

        fn matches(&self, chain: &[u8]) -> bool {
            // SAFETY: the expression lives, and the pointer and the length are those of a live slice.
            unsafe { rabbitsteel_re2_matches(self.0, chain.as_ptr(), chain.len()) }
        }
    }

    impl Drop for Re2 {
        fn drop(&mut self) {
            // SAFETY: the expression was made by `new` and is deleted once.
            unsafe { rabbitsteel_re2_delete(self.0) }
        }
    }

    pub fn rows(report: &mut Report) {
        // due, or sits let with any number of parts before.
        let due = Re2::new(r"\x06|\x00*\x02\x04");
        let Tabled { heads, moves } = Tabled::new(HALL);
        for Question { role, chain, yes } in hall_questions() {
            assert_eq!(due.matches(&chain), yes);
            let reply = archive::ask(&heads, &moves, role, &chain);
            assert_eq!(reply, Reply::answered(yes));
            let times = interleaved(
                || archive::ask(black_box(&heads), &moves, role, &chain),
                || due.matches(black_box(&chain)),
            );
            report.add(Row {
                call: "ask",
                input: format!("hall, {}", asked(&chain, yes)),
                beside: "RE2",
                times,
            });
        }
    }
}
