//! Written derivations: the archive's writer and checker beside the plain ones, on books from a seed.

use outside::books::{fullest, ladder, long_ways, longest, HALL};
use outside::cases::derivations;
use outside::trial::{run, run_exactly, Met};

#[test]
fn written() {
    run("written", 800, derivations::WRITTEN, derivations::written);
}

#[test]
fn damaged() {
    run("damaged", 400, derivations::DAMAGED, derivations::damaged);
}

#[test]
fn limits() {
    run("limits", 3, derivations::LIMITS, |trial, random| {
        for book in [HALL.to_vec(), fullest(random), longest(random), ladder(64)] {
            derivations::limits(trial, random, &book);
        }
    });
}

#[test]
fn any_length() {
    run_exactly("any_length", 1, derivations::LONG, |trial, _| {
        for steps in [
            0, 1, 2, 4095, 4096, 4097, 65_535, 65_536, 65_537, 80_000, 80_001,
        ] {
            derivations::to_and_fro(trial, steps);
        }
    });
}

#[test]
fn long_ways_of_one_link_rules() {
    let met = [Met::Yes("write_derivation"), Met::No("write_derivation")];
    run_exactly("long_ways_of_one_link_rules", 1, &met, |trial, _| {
        for links in 1..=16 {
            for (role, link) in [(126, 0), (126, 1), (127, 0), (126, 126), (124, 0), (0, 126)] {
                let chain = vec![link; links];
                trial.write_derivation(&long_ways(), role, &chain, 16_384);
            }
        }
    });
}
