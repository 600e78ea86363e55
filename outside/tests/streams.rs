//! The program `engine` beside `plain_engine` on books and questions from a seed: the same lines, by trails through the
//! tables and by the closure of links. The depth is held to its sentence as well, and what is derived to be a yes.

use outside::books::{careless, encode, Draft, Style, HALL};
use outside::chains::{self, Replacements};
use outside::plain::book::Book;
use outside::plain::derivation_checker::MAX_DERIVED_LINKS;
use outside::plain::intervals::Intervals;
use outside::plain::levels::levels;
use outside::programs::{engine, written, Way};
use outside::random::Random;
use outside::trial::{hex, run, Met, Trial};
use std::path::PathBuf;

fn plain_engine() -> PathBuf {
    PathBuf::from(env!("CARGO_BIN_EXE_plain_engine"))
}

/// Questions one after another, with what is known of each but the last, which may be cut.
#[derive(Default)]
struct Stream {
    bytes: Vec<u8>,
    asked: Vec<(u8, Vec<u8>)>,
}

impl Stream {
    fn push(&mut self, role: u8, chain: Vec<u8>) {
        self.bytes.push(role);
        self.bytes.extend((chain.len() as u16).to_le_bytes());
        self.bytes.extend(&chain);
        self.asked.push((role, chain));
    }
}

/// Puts a book and questions to both programs, to the plain one by both of its methods, and counts what they say.
fn compare(trial: &mut Trial, book: &[u8], questions: &Stream, way: Way) -> String {
    let given = written(&engine(), &[], Some(book), &questions.bytes, way);
    for words in [&[][..], &["--close-each"]] {
        let owed = written(&plain_engine(), words, Some(book), &questions.bytes, way);
        if given != owed {
            let input = [
                ("book", hex(book)),
                ("questions", hex(&questions.bytes)),
                ("engine", given.clone()),
                ("plain_engine", owed),
                ("words", words.concat()),
            ];
            trial.check(false, "the programs differ", &input);
        }
    }
    trial.check(given.starts_with("book "), "there is no first line", &[]);
    for (what, end) in [
        ("lines yes", " yes"),
        ("lines no", " no"),
        ("lines refused 13", " refused 13"),
        ("lines refused 14", " refused 14"),
        ("lines refused 15", " refused 15"),
        ("lines cut", " cut"),
    ] {
        let lines = given.lines().filter(|line| line.ends_with(end)).count();
        trial.count(what, lines as u64);
    }
    trial.count("books refused", given.starts_with("book refused").into());
    given
}

/// Holds the depth to the book's rules, and what these derive to be a yes.
fn compare_with_rules(trial: &mut Trial, book: &[u8], questions: &Stream, lines: &str) {
    let Ok(read) = Book::read(book) else { return };
    if !lines.starts_with("book refused") {
        let first = lines.lines().next().unwrap_or_default();
        let depth = levels(&read).into_iter().max().unwrap_or_default();
        let same = first.ends_with(&format!(" {depth}"));
        let input = [("book", hex(book)), ("line", first.to_string())];
        trial.check(same, "the depth is not that of its sentence", &input);
        trial.count("depths by their sentence", 1);
    }
    let intervals = Intervals::new(&read);
    let answers = lines.lines().skip(1);
    for (line, (role, chain)) in answers.zip(&questions.asked) {
        if !(line.ends_with("yes") || line.ends_with("no")) {
            continue;
        }
        let (yes, derived) = (
            line.ends_with("yes"),
            intervals.roles(chain) >> role & 1 == 1,
        );
        let input = [
            ("book", hex(book)),
            ("role", hex(&[*role])),
            ("chain", hex(chain)),
        ];
        trial.check(yes || !derived, "a derived chain is a no", &input);
        trial.count("lines derived", derived.into());
        trial.count("lines bound, not derived", (yes && !derived).into());
    }
}

/// Questions of every kind one after another, at times cut.
fn questions(random: &mut Random, names: usize, replacements: &Replacements) -> Stream {
    let mut questions = Stream::default();
    for _ in 0..random.between(0, 40) {
        let role = random.below(2 * names) as u8;
        let links = match random.below(20) {
            0 => random.pick(&[0, 17, 1023, 1024, 1025, 65535]),
            1 => chains::links(random),
            _ => random.between(1, MAX_DERIVED_LINKS),
        };
        let mut chain = match random.below(5) {
            0 | 1 if (1..=64).contains(&links) => replacements.derive(random, role, links),
            2 if (1..=64).contains(&links) => {
                chains::folded(&replacements.derive(random, role, links))
            }
            _ => chains::random(random, names, links),
        };
        if random.percent(10) && links > 0 {
            let place = random.below(chain.len());
            chain[place] = random.byte();
        }
        let asked = if random.percent(5) {
            random.byte()
        } else {
            role
        };
        questions.push(asked, chain);
    }
    if random.percent(50) && !questions.bytes.is_empty() {
        let length = random.below(questions.bytes.len());
        questions.bytes.truncate(length);
    }
    questions
}

const STREAMS: &[Met] = &[
    Met::Counted("lines yes"),
    Met::Counted("lines no"),
    Met::Counted("lines refused 13"),
    Met::Counted("lines refused 14"),
    Met::Counted("lines refused 15"),
    Met::Counted("lines cut"),
    Met::Counted("lines derived"),
    Met::Counted("lines bound, not derived"),
    Met::Counted("depths by their sentence"),
    Met::Counted("books refused"),
];

#[test]
fn streams() {
    run("streams", 600, STREAMS, |trial, random| {
        let (names, rules) = match random.below(3) {
            0 => careless(random),
            _ => {
                let style = Style::draw(random);
                (style.names, Draft::draw(random, &style).rules)
            }
        };
        let book = encode(names as u8, &rules);
        let questions = questions(random, names, &Replacements::new(names, &rules));
        let way = random.pick(&[Way::File, Way::Pipe]);
        let lines = compare(trial, &book, &questions, way);
        compare_with_rules(trial, &book, &questions, &lines);
    });
}

const MANY_QUESTIONS: &[Met] = &[Met::Counted("lines yes"), Met::Counted("lines no")];

/// Several batches of questions, most alike: no pair of a question before may count as reached.
#[test]
fn many_questions() {
    run("many_questions", 20, MANY_QUESTIONS, |trial, random| {
        let mut questions = Stream::default();
        for _ in 0..4000 {
            let role = random.pick(&[0, 1, 2, 3, 6, 7]);
            let links = random.pick(&[3, 16]);
            let mut chain = vec![0; links];
            if role > 1 {
                chain[links - 1] = 2;
            }
            if role > 3 {
                chain[links - 2] = 2;
                chain[links - 1] = 4;
            }
            if role & 1 == 1 {
                chain.reverse();
                chain.iter_mut().for_each(|link| *link ^= 1);
            }
            if random.percent(40) {
                chain[random.below(links)] = random.below(8) as u8;
            }
            questions.push(role, chain);
        }
        compare(trial, HALL, &questions, Way::Pipe);
    });
}
