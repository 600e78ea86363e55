//! What binds: small and large books, few and many places, chains that bind and others; and the same closure as a logic
//! program that gringo grounds, where it is installed.

use crate::derivations;
use crate::inputs::{asked, rules};
use crate::measure::interleaved;
use crate::pair;
use crate::report::{Report, Row};
use outside::archive;
use outside::books::{encode, late_ladder, long_ways, Axiom, HALL, MOST_RULES};
use outside::plain;
use outside::plain::binding::{forced, NETWORK_BYTES};
use outside::plain::book::Book;
use outside::plain::networks::Network;
use std::hint::black_box;
use std::io::Write;
use std::process::{Command, Stdio};

const LINKS: usize = 16;

/// A question about a book.
struct Asked {
    name: &'static str,
    book: Vec<u8>,
    role: u8,
    chain: Vec<u8>,
}

impl Asked {
    fn network(&self) -> Vec<u8> {
        forced(
            &Book::read(&self.book).expect("the book is read"),
            &self.chain,
        )
    }

    fn binds(&self) -> bool {
        Network::new(self.chain.len() + 1, &self.network()).links(self.role, 0, self.chain.len())
    }

    /// How many links the network has.
    fn links(&self) -> usize {
        self.network().iter().filter(|&&byte| byte == 1).count()
    }

    fn label(&self) -> String {
        let question = asked(&self.chain, self.binds());
        format!("{}, {question}, {} forced", self.name, self.links())
    }
}

pub fn rows(report: &mut Report) {
    let questions = questions();
    for question in &questions {
        beside_plain(report, question);
    }
    let compared = |asked: &&Asked| {
        ["hall", "all pairs"].contains(&asked.name) && asked.chain.len() == LINKS && asked.binds()
    };
    beside_gringo(report, questions.iter().filter(compared));
}

/// Both engines, which also write the same network.
fn beside_plain(report: &mut Report, question: &Asked) {
    let Asked {
        book, role, chain, ..
    } = question;
    let (mut network, mut plain_network) = ([0xFF; NETWORK_BYTES], [0xFF; NETWORK_BYTES]);
    let archive = || {
        let (book, chain) = (black_box(book), black_box(chain));
        archive::binds(book, *role, chain, black_box(&mut network))
    };
    let plain = || {
        let (book, chain) = (black_box(book), black_box(chain));
        plain::binds(book, *role, chain, black_box(&mut plain_network)).into()
    };
    pair(report, "binds", &question.label(), archive, plain);
    assert_eq!(network, plain_network, "{}", question.name);
}

/// Chains of 16 links and of one: one that binds and another for each book.
fn questions() -> Vec<Asked> {
    let asked = |name: &'static str, book: &[u8], role: u8, chain: &[u8]| Asked {
        name,
        book: book.to_vec(),
        role,
        chain: chain.to_vec(),
    };
    // part .. part sits let, and due or let asked.
    let mut hall = [0; LINKS];
    hall[LINKS - 2..].copy_from_slice(&[2, 4]);
    let mut questions = vec![
        asked("hall", HALL, 6, &[6]),
        asked("hall", HALL, 6, &[4]),
        asked("hall", HALL, 6, &hall),
        asked("hall", HALL, 4, &hall),
    ];
    let (large, role, chain) = derivations::large();
    let mut roles = 0..2 * large[5];
    let unbound = roles.find(|role| !asked("", &large, *role, &chain).binds());
    for role in [role, unbound.expect("not all roles are bound")] {
        questions.push(asked("256 rules, 64 names", &large, role, &chain));
    }
    for role in [2, 4] {
        questions.push(asked("256 dense rules", &dense(), role, &[0; LINKS]));
    }
    // Each name gets its links from the one before it, and the rules stand last first.
    let ladder = late_ladder(true, true);
    questions.push(asked("64 names in a ladder", &ladder, 1, &[126]));
    questions.push(asked("64 names in a ladder", &ladder, 1, &[126; LINKS]));
    // Name 63 links all 17 places, and the others neighbours both ways.
    questions.push(asked("all pairs", &long_ways(), 126, &[1; LINKS]));
    questions.push(asked("all pairs", &long_ways(), 124, &[1; LINKS]));
    questions
}

/// A book of 256 rules that all have much to do: name 0 is transitive and symmetric, and so links all places, and name 1
/// has 254 rules of eight such links. Name 2 has none.
fn dense() -> Vec<u8> {
    let mut rules: Vec<Axiom> = vec![(0, vec![0, 0]), (0, vec![1])];
    rules.extend((2..MOST_RULES).map(|number| {
        let left = (0..8).map(|bit| (number >> bit & 1) as u8).collect();
        (2, left)
    }));
    encode(3, &rules)
}

/// How many copies of a chain one run of gringo gets, so that its start counts little.
const COPIES: usize = 200;

/// A run of gringo grounds the book as a logic program over copies of the chain; its time is that of one copy.
fn beside_gringo<'a>(report: &mut Report, questions: impl Iterator<Item = &'a Asked>) {
    if Command::new("gringo").arg("--version").output().is_err() {
        report.note("The rows beside gringo are left out: it is not installed.");
        return;
    }
    report.note(&format!(
        "gringo grounds the book's rules over {COPIES} copies of the chain in one run; its time is a part of the run, from the start \
         of the program on. `binds` reads and checks the book in each call."
    ));
    for question in questions {
        let program = program(question);
        let facts = grounded(&program)
            .lines()
            .filter(|line| line.starts_with('p'))
            .count();
        assert_eq!(facts, COPIES * question.links(), "{}", question.name);
        let mut network = [0xFF; NETWORK_BYTES];
        let Asked {
            book, role, chain, ..
        } = question;
        let mut times = interleaved(
            || archive::binds(black_box(book), *role, black_box(chain), &mut network),
            || grounded(&program),
        );
        times.beside /= COPIES as f64;
        report.add(Row {
            call: "binds",
            input: question.label(),
            beside: "gringo",
            times,
        });
    }
}

/// The rules and the links of all copies: p3(C,X,Y) is name 3 from X to Y in copy C.
fn program(question: &Asked) -> String {
    let atom = |role: u8, copy: &str, from: String, to: String| match role & 1 {
        0 => format!("p{}({copy},{from},{to})", role >> 1),
        _ => format!("p{}({copy},{to},{from})", role >> 1),
    };
    let place = |place: usize| format!("X{place}");
    let mut text = String::new();
    for (right, left) in rules(&question.book) {
        let body: Vec<String> = (0..left.len())
            .map(|link| atom(left[link], "C", place(link), place(link + 1)))
            .collect();
        let head = atom(right, "C", place(0), place(left.len()));
        text += &format!("{head} :- {}.\n", body.join(", "));
    }
    for copy in 0..COPIES {
        for (link, &role) in question.chain.iter().enumerate() {
            let (from, to) = (link.to_string(), (link + 1).to_string());
            text += &format!("{}.\n", atom(role, &copy.to_string(), from, to));
        }
    }
    text
}

/// What gringo writes for a program.
fn grounded(program: &str) -> String {
    let mut child = Command::new("gringo")
        .arg("--text")
        .stdin(Stdio::piped())
        .stdout(Stdio::piped())
        .stderr(Stdio::null())
        .spawn()
        .expect("gringo starts");
    let mut pipe = child.stdin.take().expect("it has an input");
    let output = std::thread::scope(|scope| {
        scope.spawn(move || pipe.write_all(program.as_bytes()));
        child.wait_with_output().expect("gringo ends")
    });
    String::from_utf8(output.stdout).expect("gringo writes text")
}
