//! The inputs that are measured: books of 2,048 states, and questions to their tables.

use outside::books::{encode, fullest, Axiom, Draft, Style};
use outside::chains::Replacements;
use outside::plain;
use outside::random::Random;
use std::collections::BTreeSet;

/// The written numbers of a book's tables.
pub struct Tabled {
    pub heads: Vec<u16>,
    pub moves: Vec<u16>,
}

pub struct Question {
    pub role: u8,
    pub chain: Vec<u8>,
    pub yes: bool,
}

impl Tabled {
    pub fn new(book: &[u8]) -> Tabled {
        let (mut heads, mut moves) = (vec![0; 64], vec![0; 15360]);
        let built = plain::build(book, &mut heads, &mut moves);
        let (_, transitions, _) = built.expect("the book is accepted");
        heads.truncate(usize::from(book[5]));
        moves.truncate(3 * transitions as usize);
        Tabled { heads, moves }
    }

    /// How many states are active on average after a link, for a question about a name.
    pub fn active(&self, role: u8, chain: &[u8]) -> usize {
        assert_eq!(role & 1, 0);
        let mut moves = vec![Vec::new(); 2048];
        for triple in self.moves.chunks(3) {
            moves[usize::from(triple[0])].push((triple[1], triple[2]));
        }
        let close = |states: &mut BTreeSet<u16>| {
            let mut waiting: Vec<u16> = states.iter().copied().collect();
            while let Some(state) = waiting.pop() {
                for &(label, to) in &moves[usize::from(state)] {
                    if label == 128 && states.insert(to) {
                        waiting.push(to);
                    }
                }
            }
        };
        let mut states = BTreeSet::from([self.heads[usize::from(role >> 1)]]);
        close(&mut states);
        let mut sum = 0;
        for &link in chain {
            let reached = states.iter().flat_map(|state| &moves[usize::from(*state)]);
            states = reached
                .filter(|(label, _)| *label == u16::from(link))
                .map(|(_, to)| *to)
                .collect();
            close(&mut states);
            sum += states.len();
        }
        sum / chain.len()
    }
}

/// A book of 2,048 states with many levels.
pub fn nested(random: &mut Random) -> Vec<u8> {
    loop {
        let style = Style {
            names: 24,
            rules: 120,
            inner: 2,
            forms: vec![1, 2, 3, 4, 5],
            inverses: 30,
            near: 2,
            leaves: 0,
            states: 1900,
        };
        let mut draft = Draft::draw(random, &style);
        if draft.fill(random, 2048) {
            return draft.bytes();
        }
    }
}

/// The numbers of links that are asked about.
const LINKS: [usize; 3] = [1, 16, 1024];

/// A question in words.
pub fn asked(chain: &[u8], yes: bool) -> String {
    let links = match chain.len() {
        1 => "1 link".to_string(),
        links if links < 1000 => format!("{links} links"),
        links => format!("{},{:03} links", links / 1000, links % 1000),
    };
    format!("{links}, {}", if yes { "yes" } else { "no" })
}

/// A book of 2,048 states that can all be active but two. Name 0 is transitive and symmetric; name 1 is transitive and
/// its rules are rows of name 0, so that each link of name 0 leads from every inner fragment to itself and the next.
pub fn crowded() -> Vec<u8> {
    let mut rules: Vec<Axiom> = vec![(0, vec![0, 0]), (0, vec![1]), (2, vec![2, 2])];
    let mut fragments = 1022;
    while fragments > 0 {
        let roles = fragments.min(8);
        let number = rules.len();
        let left = (0..roles).map(|bit| (number >> bit & 1) as u8).collect();
        rules.push((2, left));
        fragments -= roles;
    }
    encode(2, &rules)
}

pub fn hall_questions() -> Vec<Question> {
    let mut questions = Vec::new();
    for links in LINKS {
        // due from due, or part .. part sits let.
        let mut chain = vec![0; links];
        match links {
            1 => chain[0] = 6,
            _ => chain[links - 2..].copy_from_slice(&[2, 4]),
        }
        let mut other = chain.clone();
        other[links - 1] = 0;
        questions.extend(both(6, chain, other));
    }
    questions
}

/// The largest tables, with chains that keep few states active.
pub fn few_active(random: &mut Random) -> (&'static str, Tabled, Vec<Question>) {
    let book = fullest(random);
    let tables = Tabled::new(&book);
    let rules: Vec<Axiom> = rules(&book);
    // The name with the most rules; all others are below it.
    let count = |name: &u8| rules.iter().filter(|rule| rule.0 >> 1 == *name).count();
    let name = (0..6).max_by_key(count).expect("there are names");
    let role = 2 * name;
    let replacements = Replacements::new(6, &rules);
    let mut questions = Vec::new();
    for links in LINKS {
        let chain = loop {
            let chain = replacements.derive(random, role, links);
            if chain.len() == links {
                break chain;
            }
        };
        let mut other = chain.clone();
        other[links - 1] = role ^ 1;
        questions.extend(both(role, chain, other));
    }
    ("2,048 states", tables, questions)
}

/// The largest tables, with chains that make nearly all states active.
pub fn many_active() -> (&'static str, Tabled, Vec<Question>) {
    let mut questions = Vec::new();
    for links in LINKS {
        let chain = match links {
            1 => vec![2],
            _ => vec![0; links],
        };
        let mut other = vec![0; links];
        other[links - 1] = 3;
        questions.extend(both(2, chain, other));
    }
    ("2,048 states, crowded", Tabled::new(&crowded()), questions)
}

fn both(role: u8, chain: Vec<u8>, other: Vec<u8>) -> [Question; 2] {
    [(chain, true), (other, false)].map(|(chain, yes)| Question { role, chain, yes })
}

/// The rules of a well-formed book.
pub fn rules(book: &[u8]) -> Vec<Axiom> {
    let book = plain::book::Book::read(book).expect("the book is well-formed");
    (0..book.rules())
        .map(|number| book.rule(number))
        .map(|rule| (rule.right, rule.left.to_vec()))
        .collect()
}
