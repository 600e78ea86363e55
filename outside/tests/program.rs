//! The program `engine` and `plain_engine` on inputs whose lines are written out here: the worked example, what binds
//! without being derived, cut and refused questions, the longest one, questions over many blocks, small pieces, and books
//! that are refused.

use outside::books::{encode, ladder, longest, HALL};
use outside::programs::{engine, written, Way};
use outside::random::Random;
use std::path::PathBuf;

const QUESTIONS: &[u8] =
    b"\x06\x04\0\0\0\x02\x04\x06\x03\0\x02\0\x04\x07\x03\0\x05\x03\x01\x06\0\0\x06\x01\0\x08";
const LINES: [&str; 6] = [
    "book 16 18 3\n",
    "0 yes\n",
    "1 no\n",
    "2 yes\n",
    "3 refused 13\n",
    "4 refused 14\n",
];
/// Where each of the questions ends.
const ENDS: [usize; 5] = [7, 13, 19, 22, 26];

const LONGEST: usize = 65535;

fn plain_engine() -> PathBuf {
    PathBuf::from(env!("CARGO_BIN_EXE_plain_engine"))
}

/// A question's bytes.
fn question(role: u8, chain: &[u8]) -> Vec<u8> {
    let links = u16::try_from(chain.len()).unwrap();
    [&[role][..], &links.to_le_bytes(), chain].concat()
}

/// Both programs write these lines, from a file and from a pipe; the plain one by both of its methods.
fn owed(book: Option<&[u8]>, questions: &[u8], lines: &str) {
    let plain = plain_engine();
    for (program, words) in [
        (&plain, &[][..]),
        (&plain, &["--close-each"]),
        (&engine(), &[]),
    ] {
        for way in [Way::File, Way::Pipe] {
            let given = written(program, words, book, questions, way);
            assert!(
                given == lines,
                "{} {words:?}, {way:?}: {}",
                program.display(),
                difference(&given, lines)
            );
        }
    }
}

/// The first lines that differ.
fn difference(given: &str, owed: &str) -> String {
    let (mut given, mut owed) = (given.lines(), owed.lines());
    loop {
        match (given.next(), owed.next()) {
            (Some(given), Some(owed)) if given == owed => {}
            (given, owed) => return format!("it writes {given:?} for {owed:?}"),
        }
    }
}

#[test]
fn hall() {
    owed(Some(HALL), QUESTIONS, &LINES.concat());
}

/// Chains that bind and are not derived: serves, inv(serves), serves to covers; a longer rule over two names; a way
/// through a place to itself.
#[test]
fn out_and_back() {
    let book = encode(2, &[(2, [0, 1, 0])]);
    let asked = [
        (question(2, &[0]), "yes"),
        (question(3, &[1]), "yes"),
        (question(2, &[0, 1, 0]), "yes"),
        (question(0, &[2]), "no"),
        (question(2, &[1]), "no"),
        (question(2, &[0, 0]), "no"),
    ];
    owed_each(&book, "book 10 9 2", &asked);
    let book = encode(3, &[(0, [2, 4, 5, 3, 2, 4])]);
    let asked = [
        (question(0, &[2, 4]), "yes"),
        (question(1, &[5, 3]), "yes"),
        (question(0, &[2, 4, 5, 4]), "no"),
        (question(0, &[2, 5]), "no"),
    ];
    owed_each(&book, "book 18 16 2", &asked);
    // A link of a place to itself: inv(S) S to T, S T to R.
    let book = encode(3, &[(4, [3, 2]), (0, [2, 4])]);
    let asked = [
        (question(0, &[2]), "yes"),
        (question(1, &[3]), "yes"),
        (question(4, &[2]), "no"),
    ];
    owed_each(&book, "book 18 18 3", &asked);
}

/// The first line, and a line for each of the questions.
fn owed_each(book: &[u8], first: &str, asked: &[(Vec<u8>, &str)]) {
    let mut lines = format!("{first}\n");
    let mut input = Vec::new();
    for (number, (question, answer)) in asked.iter().enumerate() {
        input.extend(question);
        lines += &format!("{number} {answer}\n");
    }
    owed(Some(book), &input, &lines);
}

/// The first line of accepted books: states, moves and depth.
#[test]
fn first_lines() {
    let inverses = [(1, vec![2]), (0, vec![4]), (3, vec![5, 3])];
    let books = [
        (ladder(1), "2 1 1"),
        (ladder(12), "156 210 12"),
        (ladder(44), "1980 2882 44"),
        (encode(3, &inverses), "14 15 3"),
    ];
    for (book, told) in books {
        owed(Some(&book), &[], &format!("book {told}\n"));
    }
}

#[test]
fn no_book() {
    owed(None, QUESTIONS, "book refused 1 0\n");
    owed(Some(b""), QUESTIONS, "book refused 1 0\n");
}

/// A refused book's line is the only one, for each cause that a book can have.
#[test]
fn refused_books() {
    let with = |place: usize, byte: u8| {
        let mut book = HALL.to_vec();
        book[place] = byte;
        book
    };
    let tower: Vec<_> = (1..5).map(|name| (2 * name, [2 * name - 2; 8])).collect();
    let books = [
        (HALL[..7].to_vec(), "1 0"),
        (with(0, b'r'), "2 0"),
        (with(4, 1), "3 0"),
        (with(5, 0), "4 0"),
        (with(9, 9), "5 0"),
        (HALL[..19].to_vec(), "5 2"),
        ([HALL, &[0]].concat(), "5 3"),
        (with(12, 8), "6 1"),
        (encode(2, &[(0, [2]), (2, [3]), (1, [3])]), "7 2"),
        (encode(2, &[(0, [2]), (2, [0])]), "8 1"),
        (encode(5, &tower), "9 0"),
    ];
    for (book, told) in books {
        owed(Some(&book), QUESTIONS, &format!("book refused {told}\n"));
    }
}

/// A file of more than 2,568 bytes is refused by its size, whatever its bytes are; one of 2,568 by what is in it.
#[test]
fn overlong_books() {
    let book = longest(&mut Random::new(1));
    assert_eq!(book.len(), 2568);
    owed(Some(&book), QUESTIONS, "book refused 9 0\n");
    owed(Some(&[0; 2568]), QUESTIONS, "book refused 2 0\n");
    for length in [2569, 4095, 4096, 4097, 65536, 1 << 20] {
        for front in [&book[..], HALL, &[]] {
            let mut bytes = front.to_vec();
            bytes.resize(length, 0);
            owed(Some(&bytes), QUESTIONS, "book refused 1 0\n");
        }
    }
}

#[test]
fn every_cut() {
    for length in 0..=QUESTIONS.len() {
        let whole = ENDS.iter().filter(|end| **end <= length).count();
        let mut lines = LINES[..=whole].concat();
        if length > 0 && !ENDS.contains(&length) {
            lines += &format!("{whole} cut\n");
        }
        owed(Some(HALL), &QUESTIONS[..length], &lines);
    }
}

/// A question of 1,024 links after another one, cut everywhere.
#[test]
fn every_cut_of_a_long_question() {
    let first = question(6, &[6]);
    let input = [&first[..], &question(0, &[0; 1024])].concat();
    for length in first.len()..=input.len() {
        let last = match length {
            4 => "",
            1031 => "1 refused 15\n",
            _ => "1 cut\n",
        };
        let given = written(&engine(), &[], Some(HALL), &input[..length], Way::File);
        assert_eq!(
            given,
            format!("book 16 18 3\n0 yes\n{last}"),
            "{length} bytes"
        );
    }
}

/// The longest question, which fills a block, alone and after a question of up to ten links; whole, and cut.
#[test]
fn longest_question() {
    let long = question(99, &[6; LONGEST]);
    for links in 0..=10 {
        let first = question(0, &vec![0; links]);
        let answer = if links == 0 { "refused 13" } else { "yes" };
        let input = [&first[..], &long, &question(6, &[6])].concat();
        let lines = format!("book 16 18 3\n0 {answer}\n1 refused 13\n2 yes\n");
        owed(Some(HALL), &input, &lines);
    }
    let cut = |bytes: usize| &long[..bytes];
    owed(Some(HALL), &long, "book 16 18 3\n0 refused 13\n");
    for bytes in [1, 2, 3, 4, 4096, 65535, 65536, 65537] {
        owed(Some(HALL), cut(bytes), "book 16 18 3\n0 cut\n");
    }
    let input = [&long[..], &long, &long, cut(65537)].concat();
    let lines = "book 16 18 3\n0 refused 13\n1 refused 13\n2 refused 13\n3 cut\n";
    owed(Some(HALL), &input, lines);
}

/// A refused question's chain is read past, also where its bytes look like questions.
#[test]
fn refused_chains_are_read_past() {
    let questions = QUESTIONS.repeat(40);
    let asked = question(6, &[6]);
    for (refused, cause) in [
        (question(6, &[]), 13),
        (question(6, &questions[..1025]), 13),
        (question(99, &questions[..1025]), 13),
        (question(6, &QUESTIONS.repeat(2520)[..65520]), 13),
        (question(8, &[6]), 14),
        (question(255, QUESTIONS), 14),
        (question(6, &[6, 8]), 14),
        (question(6, &questions[..1024]), 14),
        (question(6, &[6; 17]), 15),
        (question(7, &[0; 1024]), 15),
    ] {
        let input = [&asked[..], &refused, &asked, &refused, &asked].concat();
        let lines =
            format!("book 16 18 3\n0 yes\n1 refused {cause}\n2 yes\n3 refused {cause}\n4 yes\n");
        owed(Some(HALL), &input, &lines);
    }
}

/// Questions about the hall book, with their answers by hand.
fn known() -> Vec<(Vec<u8>, &'static str)> {
    vec![
        (question(6, &[0, 0, 2, 4]), "yes"),
        (question(6, &[2, 0, 4]), "no"),
        (question(7, &[5, 3, 1]), "yes"),
        (question(6, &[]), "refused 13"),
        (question(6, &[8]), "refused 14"),
        (question(6, &[6]), "yes"),
        (question(2, &[0]), "no"),
        (question(0, &[0; 16]), "yes"),
        (question(0, &[0; 17]), "refused 15"),
        (question(2, &[0, 0, 0, 0, 0, 0, 0, 2]), "yes"),
        (question(1, &[1; 16]), "yes"),
        (question(0, &[1; 16]), "no"),
        (question(0, &[1; 100]), "refused 15"),
        (question(3, &[3, 1, 1, 0]), "no"),
    ]
}

/// Four blocks and more of known questions. One question goes before them, so that the borders of blocks fall on
/// every byte of a question as its length grows.
#[test]
fn many_blocks() {
    let known = known();
    for links in 0..24 {
        let mut random = Random::new(links as u64);
        let mut input = question(0, &vec![1; links]);
        let mut lines = String::from("book 16 18 3\n");
        lines += match links {
            0 => "0 refused 13\n",
            1..=16 => "0 no\n",
            _ => "0 refused 15\n",
        };
        let mut number = 1;
        while input.len() < 4 * 65538 {
            let (bytes, answer) = &known[random.below(known.len())];
            input.extend(bytes);
            lines += &format!("{number} {answer}\n");
            number += 1;
        }
        assert!(number > 9000);
        owed(Some(HALL), &input, &lines);
    }
}

/// More questions than 16 bits can number, with more lines than a block holds.
#[test]
fn many_numbers() {
    let mut lines = String::from("book 16 18 3\n");
    for number in 0..70_000 {
        lines += &format!("{number} refused 13\n");
    }
    owed(Some(HALL), &[6, 0, 0].repeat(70_000), &lines);
}

/// Input that comes in small pieces, over a thousand of them, is answered as if it came at once.
#[test]
fn small_pieces() {
    let known = known();
    let mut input = QUESTIONS.to_vec();
    let mut lines = LINES.concat();
    for (number, (bytes, answer)) in (5..70).zip(known.iter().cycle()) {
        input.extend(bytes);
        lines += &format!("{number} {answer}\n");
    }
    input.push(6);
    lines += "70 cut\n";
    assert!(input.len() > 1000);
    for size in [1, 2, 3, 5, 7, 64] {
        for program in [plain_engine(), engine()] {
            let given = written(&program, &[], Some(HALL), &input, Way::Pieces(size));
            assert_eq!(given, lines, "{size} bytes at a time");
        }
    }
}
