//! What binds: worked examples, networks by hand, every cause, and what is left unchanged.

use rabbitsteel::{
    binds, network_len, order, Binding, Cause, Derivation, Link, Refusal, Tables, NETWORK_LEN,
};

const PART: u8 = 0;
const SITS: u8 = 2;
const LET: u8 = 4;
const DUE: u8 = 6;
/// The hall book has no such name.
const UNKNOWN: u8 = 8;

const HALL: [u8; 20] = [
    b'R', b'L', b'B', 1, 0, 4, 3, 0, PART, 2, PART, PART, SITS, 2, PART, SITS, DUE, 2, SITS, LET,
];

const SERVES: u8 = 0;
const COVERS: u8 = 2;

/// serves, inv(serves), serves to covers.
#[rustfmt::skip]
const VAN: [u8; 13] = [
    b'R', b'L', b'B', 1, 0, 2, 1, 0, COVERS, 3, SERVES, SERVES ^ 1, SERVES,
];

fn refused<T>(cause: Cause, value: usize) -> Result<T, Refusal> {
    Err(Refusal { cause, value })
}

/// The links of the network, each as name, from and to; none where the chain binds the role.
fn links(book: &[u8], role: u8, chain: &[u8]) -> Option<Vec<(u8, usize, usize)>> {
    let binding = Binding::of(book, role, chain).unwrap();
    assert_eq!(binding.binds(), binding.network().is_none());
    let network = binding.network()?;
    assert_eq!(network.places(), chain.len() + 1);
    assert_eq!(
        network.bytes().len(),
        network_len(usize::from(book[5]), chain.len())
    );
    let found: Vec<_> = network
        .iter()
        .map(|Link { name, from, to }| (name, from, to))
        .collect();
    // Asked one by one, also about names and places that there are not.
    for name in 0..=64 {
        for from in 0..=network.places() {
            for to in 0..=network.places() {
                let link = (name, from, to);
                assert_eq!(network.links(name, from, to), found.contains(&link));
            }
        }
    }
    Some(found)
}

#[test]
fn out_and_back_along_one_link() {
    assert_eq!(links(&VAN, COVERS, &[SERVES]), None);
    assert_eq!(Derivation::of(&VAN, COVERS, &[SERVES]), Ok(None));
    assert_eq!(links(&VAN, COVERS ^ 1, &[SERVES ^ 1]), None);
    assert_eq!(
        links(&VAN, COVERS, &[SERVES ^ 1]),
        Some(vec![(0, 1, 0), (1, 1, 0)])
    );
    assert_eq!(
        links(&VAN, COVERS, &[SERVES, SERVES]),
        Some(vec![(0, 0, 1), (0, 1, 2), (1, 0, 1), (1, 1, 2)])
    );
}

#[test]
fn link_of_a_place_to_itself() {
    // inv(s) s to t; s t to r.
    let book = [b'R', b'L', b'B', 1, 0, 3, 2, 0, 4, 2, 3, 2, 0, 2, 2, 4];
    assert_eq!(links(&book, 0, &[2]), None);
    assert_eq!(
        links(&book, 4, &[2]),
        Some(vec![(0, 0, 1), (1, 0, 1), (2, 1, 1)])
    );
}

#[test]
fn an_inverse_asked_does_not_turn_the_network() {
    let book = [b'R', b'L', b'B', 1, 0, 2, 0, 0];
    let Binding::Network(network) = Binding::of(&book, 3, &[0]).unwrap() else {
        panic!("it does not bind");
    };
    assert_eq!(network.bytes(), [0, 1, 0, 0, 0, 0, 0, 0]);
    assert_eq!(Binding::of(&book, 3, &[3]), Ok(Binding::Binds));
}

#[test]
fn hall_book() {
    assert_eq!(links(&HALL, DUE, &[PART, PART, SITS, LET]), None);
    assert_eq!(links(&HALL, DUE ^ 1, &[LET ^ 1, SITS ^ 1, PART ^ 1]), None);
    assert_eq!(
        links(&HALL, DUE, &[SITS, PART, LET]),
        Some(vec![(0, 1, 2), (1, 0, 1), (2, 2, 3)])
    );
    // A part of a part is a part, over all 17 places.
    let parts = (0..17).flat_map(|from| (from + 1..17).map(move |to| (0, from, to)));
    assert_eq!(links(&HALL, SITS, &[PART; 16]), Some(parts.collect()));
}

#[test]
fn bytes_behind_the_network_are_left() {
    let mut lent = [99; 70];
    assert_eq!(binds(&HALL, DUE, &[SITS, PART, LET], &mut lent), Ok(false));
    assert!(lent[..64].iter().all(|&byte| byte <= 1));
    assert_eq!(lent[64..], [99; 6]);
    assert_eq!(binds(&HALL, DUE, &[DUE], &mut [99; 16]), Ok(true));
    let mut lent = [99; NETWORK_LEN];
    assert_eq!(binds(&HALL, PART, &[PART; 16], &mut lent), Ok(true));
    assert_eq!(lent, [99; NETWORK_LEN]);
}

#[test]
fn bytes_lent_too_short_are_left() {
    for (role, answer) in [(PART, true), (SITS, false)] {
        for lent in [0, 35] {
            let mut bytes = vec![99; lent];
            let reply = binds(&HALL, role, &[PART; 2], &mut bytes);
            assert_eq!(reply, refused(Cause::Buffer, 0));
            assert!(bytes.iter().all(|&byte| byte == 99));
        }
        assert_eq!(binds(&HALL, role, &[PART; 2], &mut [99; 36]), Ok(answer));
    }
}

/// A question that is refused, whatever is lent.
fn assert_refused(book: &[u8], role: u8, chain: &[u8], cause: Cause, value: usize) {
    for lent in [0, 15, NETWORK_LEN] {
        let mut bytes = vec![99; lent];
        assert_eq!(binds(book, role, chain, &mut bytes), refused(cause, value));
        assert!(bytes.iter().all(|&byte| byte == 99));
    }
    assert_eq!(Binding::of(book, role, chain), refused(cause, value));
}

#[test]
fn refused_books_and_questions() {
    let circle = [b'R', b'L', b'B', 1, 0, 2, 2, 0, 2, 1, 0, 0, 1, 2];
    assert_refused(&HALL[..7], UNKNOWN, &[], Cause::Size, 0);
    assert_refused(&HALL[..19], UNKNOWN, &[], Cause::Malformed, 2);
    assert_refused(&circle, UNKNOWN, &[], Cause::NoOrder, 1);
    // 0 links and over 1,024, then the roles, then over 16 links.
    assert_refused(&HALL, UNKNOWN, &[], Cause::Chain, 0);
    assert_refused(&HALL, UNKNOWN, &[PART; 1025], Cause::Chain, 0);
    assert_refused(&HALL, UNKNOWN, &[PART; 17], Cause::Role, 0);
    assert_refused(&HALL, PART, &[PART, UNKNOWN], Cause::Role, 0);
    assert_refused(&HALL, PART, &[PART; 17], Cause::Long, 0);
    assert_refused(&HALL, PART, &[PART; 1024], Cause::Long, 0);
}

#[test]
fn books_without_tables_have_networks() {
    // Each name has the one before it on the left of its only rule.
    let mut book = vec![b'R', b'L', b'B', 1, 0, 64, 63, 0];
    for name in 1..64 {
        book.extend([2 * name, 1, 2 * name - 2]);
    }
    assert_eq!(order(&book).unwrap().depth, 64);
    assert_eq!(Tables::of(&book), refused(Cause::States, 0));
    assert_eq!(links(&book, 126, &[0]), None);
    let all = (0..64).flat_map(|name| (0..16).map(move |place| (name, place, place + 1)));
    assert_eq!(links(&book, 126, &[0; 16]), Some(all.collect()));
}
