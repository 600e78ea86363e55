//! What binds: worked examples, edges and books from a seed, on the plain engine held to all networks of few places and to
//! walks to and fro, and on the archive, where it is linked, beside it.

use outside::books::{careless, encode, late_ladder, long_ways, Draft, Style, HALL};
use outside::chains::{self, Replacements};
use outside::plain::binding::{forced, network_bytes, NETWORK_BYTES};
use outside::plain::book::Book;
use outside::plain::intervals::Intervals;
use outside::plain::networks::{Network, Obeying};
use outside::plain::tables::MAX_TRANSITIONS;
use outside::plain::{self, trails, Cause, Refusal};
use outside::random::Random;

/// Roles of names 0 to 2 in small books.
const R: u8 = 0;
const S: u8 = 2;
const T: u8 = 4;

/// The book of request F-4: serves, inv(serves), serves to covers.
const SERVES: u8 = 0;
const COVERS: u8 = 2;

fn serves() -> Vec<u8> {
    encode(2, &[(COVERS, [SERVES, SERVES ^ 1, SERVES])])
}

/// Bytes that are neither 0 nor 1.
fn noise(length: usize) -> Vec<u8> {
    (0..length).map(|place| place as u8 | 0x80).collect()
}

/// What is said, and the lent bytes after that. The archive says and writes the same.
fn asked(book: &[u8], role: u8, chain: &[u8], lent: usize) -> (Result<bool, Refusal>, Vec<u8>) {
    let mut bytes = noise(lent);
    let reply = plain::binds(book, role, chain, &mut bytes);
    #[cfg(feature = "archive")]
    {
        let mut given = noise(lent);
        let told = outside::archive::binds(book, role, chain, &mut given);
        assert_eq!((told, given), (reply.into(), bytes.clone()));
    }
    (reply, bytes)
}

/// The network that is written, or none where the chain binds the role. The bytes behind it, or all, keep their values; it
/// obeys the book, holds the chain and lacks the link.
fn network(book: &[u8], role: u8, chain: &[u8]) -> Option<Vec<u8>> {
    let needed = network_bytes(usize::from(book[5]), chain.len());
    let (reply, bytes) = asked(book, role, chain, needed + 9);
    if reply.expect("the question is answered") {
        assert_eq!(bytes, noise(needed + 9));
        return None;
    }
    assert_eq!(bytes[needed..], noise(needed + 9)[needed..]);
    let bytes = &bytes[..needed];
    assert!(bytes.iter().all(|&byte| byte <= 1));
    let network = Network::new(chain.len() + 1, bytes);
    assert!(network.obeys(&Book::read(book).unwrap()) && network.holds(chain));
    assert!(!network.links(role, 0, chain.len()));
    Some(bytes.to_vec())
}

fn binds(book: &[u8], role: u8, chain: &[u8]) -> bool {
    network(book, role, chain).is_none()
}

fn derived(book: &[u8], role: u8, chain: &[u8]) -> bool {
    let steps = plain::write_derivation(book, role, chain, &mut [0; 16_384]);
    steps.expect("the question is answered").is_some()
}

/// The links of a network of so many places, each as name, from and to.
fn links(network: &[u8], places: usize) -> Vec<(usize, usize, usize)> {
    let present = (0..network.len()).filter(|&place| network[place] == 1);
    present
        .map(|place| {
            (
                place / places / places,
                place / places % places,
                place % places,
            )
        })
        .collect()
}

#[test]
fn out_and_back_along_one_link() {
    let book = serves();
    assert!(binds(&book, COVERS, &[SERVES]) && !derived(&book, COVERS, &[SERVES]));
    assert!(binds(&book, COVERS ^ 1, &[SERVES ^ 1]));
    assert!(binds(&book, COVERS, &[SERVES, SERVES ^ 1, SERVES]));
    assert!(!binds(&book, SERVES, &[COVERS]));
    // The other way round, and from one end to the other of two links.
    let back = network(&book, COVERS, &[SERVES ^ 1]);
    assert_eq!(back, Some(vec![0, 0, 1, 0, 0, 0, 1, 0]));
    let two = network(&book, COVERS, &[SERVES, SERVES]).unwrap();
    assert_eq!(links(&two, 3), [(0, 0, 1), (0, 1, 2), (1, 0, 1), (1, 1, 2)]);
    let apart = network(&book, COVERS, &[SERVES, SERVES ^ 1]).unwrap();
    assert_eq!(
        links(&apart, 3),
        [(0, 0, 1), (0, 2, 1), (1, 0, 1), (1, 2, 1)]
    );
}

/// No link is there, back and there again, and yet the way is.
#[test]
fn out_and_back_along_two_links() {
    let book = encode(3, &[(R, [S, T, T ^ 1, S ^ 1, S, T])]);
    assert!(binds(&book, R, &[S, T]) && !derived(&book, R, &[S, T]));
    assert!(binds(&book, R ^ 1, &[T ^ 1, S ^ 1]));
    assert!(!binds(&book, R, &[S]));
    assert!(!binds(&book, R, &[T, S]));
}

#[test]
fn link_of_a_place_to_itself() {
    let book = encode(3, &[(T, vec![S ^ 1, S]), (R, vec![S, T])]);
    assert!(binds(&book, R, &[S]) && !derived(&book, R, &[S]));
    let network = network(&book, T, &[S]).unwrap();
    assert_eq!(links(&network, 2), [(0, 0, 1), (1, 0, 1), (2, 1, 1)]);
}

/// The network of a question about an inverse runs from place 0 to the last as well.
#[test]
fn inverse_asked() {
    let book = encode(2, &[] as &[(u8, [u8; 0])]);
    assert_eq!(network(&book, 3, &[0]), Some(vec![0, 1, 0, 0, 0, 0, 0, 0]));
    assert_eq!(network(&book, 3, &[1]), Some(vec![0, 0, 1, 0, 0, 0, 0, 0]));
    assert!(binds(&book, 3, &[3]) && !binds(&book, 3, &[2]));
}

#[test]
fn hall() {
    assert!(binds(HALL, 6, &[0, 0, 2, 4]));
    assert!(binds(HALL, 7, &[5, 3, 1]));
    assert!(binds(HALL, 6, &[6]));
    assert!(!binds(HALL, 2, &[0]));
    let network = network(HALL, 6, &[2, 0, 4]).unwrap();
    assert_eq!(links(&network, 4), [(0, 1, 2), (1, 0, 1), (2, 2, 3)]);
    // Each part of a part: 17 places in a row, more than 16 bits have.
    let network = self::network(HALL, 2, &[0; 16]).unwrap();
    let parts = (0..17).flat_map(|from| (from + 1..17).map(move |to| (0, from, to)));
    assert!(links(&network, 17).into_iter().eq(parts));
}

/// 64 names that get their links one after another.
#[test]
fn ladders() {
    for falling in [false, true] {
        for turning in [false, true] {
            let book = late_ladder(falling, turning);
            let (first, last) = if falling { (126, 0) } else { (0, 126) };
            // A link that turns 63 times runs back.
            let turned = u8::from(turning);
            assert!(binds(&book, last ^ turned, &[first]));
            assert!(binds(&book, last, &[first ^ turned]));
            let network = network(&book, last ^ turned ^ 1, &[first]).unwrap();
            assert_eq!(links(&network, 2).len(), 64);
            let none = self::network(&book, first, &[last]).unwrap();
            assert_eq!(links(&none, 2), [(usize::from(last >> 1), 0, 1)]);
        }
    }
}

/// 64 names one above another, all symmetric and the last transitive: it links all places, and the others neighbours.
#[test]
fn long_ways_of_one_link_rules() {
    for links in 1..=16 {
        let chain = vec![1; links];
        assert!(binds(&long_ways(), 126, &chain));
        assert!(binds(&long_ways(), 127, &chain));
        assert_eq!(binds(&long_ways(), 124, &chain), links == 1);
    }
    let network = network(&long_ways(), 124, &[1; 16]).unwrap();
    let linked = |from: usize, to: usize, name: usize| name == 63 || from.abs_diff(to) == 1;
    let places =
        (0..64).flat_map(|name| (0..17 * 17).map(move |pair| (name, pair / 17, pair % 17)));
    let owed = places.filter(|&(name, from, to)| linked(from, to, name));
    assert!(self::links(&network, 17).into_iter().eq(owed));
}

/// 64 one-link rules lead through all 128 roles and back. They have no order, so only the closure can be asked.
#[test]
fn ring() {
    for late in [false, true] {
        let mut rules: Vec<(u8, [u8; 1])> =
            (1..64).map(|name| (2 * name, [2 * name - 2])).collect();
        rules.push((1, [126]));
        if late {
            rules.reverse();
        }
        let book = encode(64, &rules);
        assert_eq!(
            asked(&book, 0, &[0], 256).0.unwrap_err().cause,
            Cause::NoOrder
        );
        let network = forced(&Book::read(&book).unwrap(), &[70]);
        let all = (0..64).flat_map(|name| [(name, 0, 1), (name, 1, 0)]);
        assert!(links(&network, 2).into_iter().eq(all));
    }
}

#[test]
fn refusals() {
    let refused = |book: &[u8], role, chain: &[u8], lent, cause, value| {
        let (reply, bytes) = asked(book, role, chain, lent);
        let refusal = reply.unwrap_err();
        assert_eq!((refusal.cause as u64, refusal.value), (cause, value));
        assert_eq!(bytes, noise(lent));
    };
    for lent in [0, 15, NETWORK_BYTES] {
        refused(&HALL[..7], 9, &[], lent, 1, 0);
        refused(&HALL[..19], 9, &[], lent, 5, 2);
        refused(&encode(2, &[(R, [S]), (S, [R])]), 9, &[], lent, 8, 1);
        // 0 links and over 1,024 come before a bad role, that before over 16 links, and these before what is lent.
        refused(HALL, 9, &[], lent, 13, 0);
        refused(HALL, 0, &[], lent, 13, 0);
        refused(HALL, 9, &[0; 1025], lent, 13, 0);
        refused(HALL, 8, &[0; 17], lent, 14, 0);
        refused(HALL, 0, &[8; 17], lent, 14, 0);
        refused(HALL, 255, &[0; 1024], lent, 14, 0);
        refused(HALL, 0, &[0, 8], lent, 14, 0);
        refused(HALL, 0, &[0; 17], lent, 15, 0);
        refused(HALL, 0, &[0; 1024], lent, 15, 0);
    }
    // A byte too few is refused where the answer would be yes and where it would be no.
    for (links, needed) in [(1, 16), (2, 36), (3, 64), (16, 1156)] {
        for role in [0, 2] {
            for lent in [0, 1, needed - 1] {
                refused(HALL, role, &[0; 16][..links], lent, 16, 0);
            }
            assert_eq!(
                asked(HALL, role, &[0; 16][..links], needed).0,
                Ok(role == 0)
            );
        }
    }
    refused(&long_ways(), 126, &[1; 16], NETWORK_BYTES - 1, 16, 0);
    assert_eq!(
        asked(&long_ways(), 126, &[1; 16], NETWORK_BYTES).0,
        Ok(true)
    );
    assert_eq!(NETWORK_BYTES, 18_496);
    // One name: four bytes for a link.
    let one = encode(1, &[] as &[(u8, [u8; 0])]);
    refused(&one, 1, &[0], 3, 16, 0);
    assert_eq!(asked(&one, 1, &[0], 4), (Ok(false), vec![0, 1, 0, 0]));
    assert_eq!(asked(&one, 0, &[0], 4), (Ok(true), noise(4)));
}

/// A book of few names from a seed: with an order, or with any rules.
fn small(random: &mut Random, names: usize) -> Vec<u8> {
    if random.percent(30) {
        let (_, mut rules) = careless(random);
        for (right, left) in &mut rules {
            left.iter_mut()
                .chain([right])
                .for_each(|role| *role %= 2 * names as u8);
        }
        rules.truncate(4);
        return encode(names as u8, &rules);
    }
    let style = Style::small(random, names);
    Draft::draw(random, &style).bytes()
}

/// All networks of two places: chains of one link are answered and their networks found exactly, and where a longer one
/// binds, no network of two places says otherwise.
#[test]
fn all_networks_of_two_places() {
    let (mut yes, mut no, mut longer, mut without_order) = (0, 0, 0, 0);
    for seed in 0..1500 {
        let random = &mut Random::new(seed);
        let names = random.pick(&[1, 2, 2, 3, 3, 3]);
        let book = small(random, names);
        let Ok(read) = Book::read(&book) else {
            continue;
        };
        let obeying = Obeying::new(&read, 2);
        let ordered = plain::order(&book, &mut []).is_ok();
        without_order += u64::from(!ordered);
        for link in 0..2 * names as u8 {
            let forced = forced(&read, &[link]);
            assert_eq!(forced, obeying.common(&[link]));
            for role in 0..2 * names as u8 {
                let bound = obeying.binds(role, &[link]);
                assert_eq!(Network::new(2, &forced).links(role, 0, 1), bound);
                if ordered {
                    let owed = (!bound).then(|| forced.clone());
                    assert_eq!(network(&book, role, &[link]), owed);
                }
                (yes, no) = (yes + u64::from(bound), no + u64::from(!bound));
            }
        }
        for links in 2..7 {
            let chain = chains::random(random, names, links);
            let forced = forced(&read, &chain);
            for role in 0..2 * names as u8 {
                if Network::new(links + 1, &forced).links(role, 0, links) {
                    assert!(obeying.binds(role, &chain));
                    longer += 1;
                }
            }
        }
    }
    assert!(yes > 5000 && no > 5000, "{yes} {no}");
    assert!(
        longer > 2000 && without_order > 100,
        "{longer} {without_order}"
    );
}

/// All networks of three places, for chains of two links.
#[test]
fn all_networks_of_three_places() {
    let (mut yes, mut no, mut itself) = (0, 0, 0);
    for seed in 0..150 {
        let random = &mut Random::new(seed);
        let names = random.pick(&[1, 2, 2]);
        let book = small(random, names);
        let Ok(read) = Book::read(&book) else {
            continue;
        };
        let obeying = Obeying::new(&read, 3);
        for _ in 0..3 {
            let chain = chains::random(random, names, 2);
            let forced = forced(&read, &chain);
            assert_eq!(forced, obeying.common(&chain));
            for role in 0..2 * names as u8 {
                let bound = obeying.binds(role, &chain);
                assert_eq!(Network::new(3, &forced).links(role, 0, 2), bound);
                (yes, no) = (yes + u64::from(bound), no + u64::from(!bound));
            }
            itself += u64::from(links(&forced, 3).iter().any(|(_, from, to)| from == to));
        }
    }
    assert!(yes > 150 && no > 150 && itself > 30, "{yes} {no} {itself}");
}

/// Walks to and fro in the tables: the whole network, for books from a seed that have tables; and each derived chain binds.
#[test]
fn walks() {
    let (mut yes, mut no, mut folded, mut not_derived, mut most) = (0, 0, 0, 0, 0);
    for seed in 0..1200 {
        let random = &mut Random::new(seed);
        let style = match seed % 3 {
            0 => Style::small(random, 3),
            _ => Style::draw(random),
        };
        let draft = Draft::draw(random, &style);
        let (book, names) = (draft.bytes(), draft.names);
        let (mut heads, mut moves) = (vec![0; 64], vec![0; 3 * MAX_TRANSITIONS]);
        let (_, transitions, _) = plain::build(&book, &mut heads, &mut moves).unwrap();
        let (heads, moves) = (&heads[..names], &moves[..3 * transitions as usize]);
        let read = Book::read(&book).unwrap();
        let intervals = Intervals::new(&read);
        let replacements = Replacements::new(names, &draft.rules);
        let asked = random.below(2 * names) as u8;
        let links = random.between(1, 16);
        let derived = replacements.derive(random, asked, links);
        let once = chains::folded(&derived);
        folded += u64::from(once != derived);
        assert!(binds(&book, asked, &once));
        let near = chains::nearly(random, &derived, names);
        let any = chains::random(random, names, links);
        for chain in [once, derived, near, any] {
            if chain.len() > 16 {
                continue;
            }
            let forced = forced(&read, &chain);
            assert_eq!(forced, trails::forced(heads, moves, &chain));
            most = most.max(self::links(&forced, chain.len() + 1).len());
            let roles = intervals.roles(&chain);
            for role in 0..2 * names as u8 {
                let bound = Network::new(chain.len() + 1, &forced).links(role, 0, chain.len());
                let derived = roles >> role & 1 == 1;
                assert!(bound || !derived);
                not_derived += u64::from(bound && !derived);
                (yes, no) = (yes + u64::from(bound), no + u64::from(!bound));
                if role == asked || names < 6 {
                    let owed = (!bound).then(|| forced.clone());
                    assert_eq!(network(&book, role, &chain), owed);
                }
            }
        }
    }
    assert!(yes > 3000 && no > 3000 && most > 1000, "{yes} {no} {most}");
    assert!(folded > 30 && not_derived > 100, "{folded} {not_derived}");
}

/// The archive beside the plain engine on books from a seed.
#[cfg(feature = "archive")]
mod archive {
    use outside::books::{fullest, ladder, late_ladder, longest, HALL};
    use outside::cases::binding;
    use outside::trial::run;

    #[test]
    fn networks() {
        run("networks", 400, binding::NETWORKS, binding::networks);
    }

    #[test]
    fn limits() {
        run("limits", 3, binding::LIMITS, |trial, random| {
            let ladder = [ladder(64), late_ladder(true, true)];
            for book in [HALL.to_vec(), fullest(random), longest(random)] {
                binding::limits(trial, random, &book);
            }
            for book in ladder {
                binding::limits(trial, random, &book);
            }
        });
    }
}
