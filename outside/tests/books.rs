//! Books from a seed, with chains derived, nearly derived and random: the archive beside the plain engine and the two
//! other membership methods.

use outside::cases::books;
use outside::trial::run;

#[test]
fn valid_books() {
    run("valid_books", 1500, books::VALID, books::valid);
}

#[test]
fn near_state_limit() {
    run(
        "near_state_limit",
        400,
        books::NEAR_LIMIT,
        books::near_limit,
    );
}

#[test]
fn over_state_limit() {
    run(
        "over_state_limit",
        500,
        books::OVER_LIMIT,
        books::over_limit,
    );
}

#[test]
fn without_order() {
    run(
        "without_order",
        5000,
        books::WITHOUT_ORDER,
        books::without_order,
    );
}

#[test]
fn repeats() {
    run("repeats", 20_000, books::REPEATS, books::repeats);
}

#[test]
fn any_rules() {
    run("any_rules", 10_000, books::ANY_RULES, books::any_rules);
}
