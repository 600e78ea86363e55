//! The package's constants, role bytes, numbers of causes and words, against what is written out here.

use rabbitsteel::{
    inverse, network_len, role, Cause, Counts, Refusal, BINDS_MAX, BOOK_MAX, CHAIN_MAX,
    DERIVED_MAX, MOVES_LEN, MOVES_MAX, NAMES_MAX, NETWORK_LEN, RULES_MAX, SILENT, STATES_MAX,
    STEPS_LEN, STEPS_MAX,
};

#[test]
fn largest_sizes() {
    let sizes = [
        BOOK_MAX, NAMES_MAX, RULES_MAX, STATES_MAX, MOVES_MAX, MOVES_LEN, CHAIN_MAX,
    ];
    assert_eq!(sizes, [2568, 64, 256, 2048, 5120, 15360, 1024]);
    assert_eq!([DERIVED_MAX, STEPS_MAX, STEPS_LEN], [16, 4096, 16384]);
    assert_eq!([BINDS_MAX, NETWORK_LEN], [16, 18496]);
    assert_eq!(SILENT, 128u16);
}

#[test]
fn role_bytes() {
    let bytes: Vec<(u8, u8)> = (0..64)
        .map(|name| (role(name), inverse(role(name))))
        .collect();
    assert_eq!(bytes[..3], [(0, 1), (2, 3), (4, 5)]);
    assert_eq!(bytes[63], (126, 127));
    for (number, &(plain, turned)) in bytes.iter().enumerate() {
        assert_eq!(usize::from(plain), number + number);
        assert_eq!(inverse(turned), plain);
    }
}

#[test]
#[should_panic(expected = "a name is 0 to 63")]
fn role_byte_of_no_name() {
    role(64);
}

#[test]
fn numbers_to_moves() {
    let counts = Counts {
        states: 16,
        moves: 18,
        depth: 3,
    };
    assert_eq!(counts.numbers(), 54);
}

#[test]
fn bytes_of_networks() {
    let lengths =
        [(1, 1), (4, 3), (64, 1), (64, 16)].map(|(names, links)| network_len(names, links));
    assert_eq!(lengths, [4, 64, 256, 18496]);
}

/// Each cause with its number, its words, and what a refusal by it with the value 7 says.
#[rustfmt::skip]
const CAUSES: [(Cause, u8, &str, &str); 17] = [
    (Cause::Size, 1, "the book has fewer than 8 or more than 2,568 bytes", ""),
    (Cause::Mark, 2, "the book does not begin with the mark RLB", ""),
    (Cause::Version, 3, "the version is not 1", ""),
    (Cause::Range, 4, "the names are not 1 to 64, or the rules over 256", ""),
    (Cause::Malformed, 5, "a left side of 0 or over 8 roles, a rule cut short, or bytes after the last rule", "; at rule 7"),
    (Cause::Undeclared, 6, "a role of a name that the book does not have", "; in rule 7"),
    (Cause::Repeated, 7, "a rule equals an earlier rule or its mirror", "; rule 7 is the lowest that does"),
    (Cause::NoOrder, 8, "no regular order", "; rule 7 ends the shortest front part without one"),
    (Cause::States, 9, "the tables have over 2,048 states", ""),
    (Cause::Moves, 10, "the tables have over 5,120 moves", ""),
    (Cause::Short, 11, "heads or moves lent too short", ""),
    (Cause::Tables, 12, "the tables are out of bounds", ""),
    (Cause::Chain, 13, "the chain has 0 or over 1,024 links", ""),
    (Cause::Role, 14, "a role of a name that the book or the tables do not have", ""),
    (Cause::Long, 15, "the chain has over 16 links", ""),
    (Cause::Buffer, 16, "fewer bytes lent than the steps or the network need", ""),
    (Cause::Step, 17, "steps not in fours of bytes, or an impossible step", "; step 7"),
];

#[test]
fn causes_in_numbers_and_words() {
    assert_eq!(Cause::ALL, CAUSES.map(|(cause, ..)| cause));
    for (cause, number, words, value) in CAUSES {
        assert_eq!(cause.number(), number);
        assert_eq!(cause.to_string(), words);
        let refusal = Refusal { cause, value: 7 };
        assert_eq!(
            refusal.to_string(),
            format!("refused {number}: {words}{value}")
        );
    }
}
