//! Cases with tables that no book gave: at and past each limit of cause 12, dense graphs, silent cycles.

use crate::archive::Reply;
use crate::chains::MOST_LINKS;
use crate::plain::paths;
use crate::random::Random;
use crate::trial::{hex, Met, Trial};

/// Tables and a question.
#[derive(Clone)]
struct Question {
    heads: Vec<u16>,
    moves: Vec<u16>,
    role: u8,
    chain: Vec<u8>,
}

impl Question {
    fn put(&self, trial: &mut Trial) -> Reply {
        trial.ask(&self.heads, &self.moves, self.role, &self.chain)
    }
}

/// Draws what a graph is like: how many states, moves, labels and silent moves, so that paths are neither rare nor
/// everywhere.
fn draw(random: &mut Random) -> Question {
    let names = random.pick(&[1, 1, 2, 3, 5, 63, 64]);
    let states = random.pick(&[2, 3, 5, 12, 64, 65, 300, 2048]);
    let labels = random.between(1, (2 * names).min(6));
    let silent = random.pick(&[0, 10, 40, 90]);
    let count = match random.below(6) {
        0 => random.below(8),
        1 => random.pick(&[64, 192, 193, 5120]),
        _ => (states * random.between(1, 6) / 2).min(5120),
    };
    let mut moves = Vec::with_capacity(3 * count);
    for _ in 0..count {
        let label = match random.percent(silent) {
            true => 128,
            false => random.below(labels),
        };
        let (from, to) = (random.below(states), random.below(states));
        moves.extend([from, label, to].map(|number| number as u16));
    }
    let heads = (0..names)
        .map(|_| random.below(states).min(2046) as u16)
        .collect();
    let links = match random.below(12) {
        0 => random.pick(&[MOST_LINKS - 1, MOST_LINKS]),
        1 => random.between(1, 200),
        _ => random.between(1, 12),
    };
    Question {
        heads,
        moves,
        role: random.below(2 * names) as u8,
        chain: (0..links).map(|_| random.below(labels) as u8).collect(),
    }
}

pub const GRAPH: &[Met] = &[
    Met::Yes("ask"),
    Met::No("ask"),
    Met::Counted("questions by paths"),
    Met::Counted("inverse questions"),
];

/// A random graph, asked as drawn, about the inverse, and about each link alone.
pub fn graph(trial: &mut Trial, random: &mut Random) {
    let mut question = draw(random);
    let answer = question.put(trial);
    if question.chain.len() * question.moves.len() < 5_000 {
        let Question {
            heads,
            moves,
            role,
            chain,
        } = &question;
        let slow = paths::ask(heads, moves, *role, chain);
        let input = [("role", hex(&[*role])), ("chain", hex(chain))];
        let same = Reply::answered(slow) == answer;
        trial.check(same, "ask and paths differ", &input);
        trial.count("questions by paths", 1);
    }
    question.role ^= 1;
    question.put(trial);
    question.chain = question.chain.iter().rev().map(|link| link ^ 1).collect();
    if question
        .chain
        .iter()
        .all(|link| usize::from(*link) < 2 * question.heads.len())
    {
        let inverse = question.put(trial);
        let input = [("chain", hex(&question.chain))];
        trial.check(inverse == answer, "the inverse question differs", &input);
        trial.count("inverse questions", 1);
    }
    question.chain.truncate(1);
    question.put(trial);
}

pub const LIMIT: &[Met] = &[
    Met::Yes("ask"),
    Met::No("ask"),
    Met::Refused("ask", 12),
    Met::Refused("ask", 13),
    Met::Refused("ask", 14),
    Met::Counted("limits of heads"),
    Met::Counted("limits of the numbers of moves"),
    Met::Counted("limits of a move"),
    Met::Counted("limits of the links"),
    Met::Counted("limits of roles"),
];

/// A graph with one thing at or just past a limit; at times a second thing is wrong, and the first cause in order is the
/// answer.
pub fn limit(trial: &mut Trial, random: &mut Random) {
    let mut question = draw(random);
    let what = match random.below(9) {
        0 | 1 => heads_at_limit(&mut question, random),
        2 | 3 => length_at_limit(&mut question, random),
        4..=6 => move_at_limit(&mut question, random),
        7 => chain_at_limit(&mut question, random),
        _ => role_at_limit(&mut question, random),
    };
    trial.count(what, 1);
    if random.percent(30) {
        match random.below(3) {
            0 => question.role = random.byte(),
            1 => question.chain.clear(),
            _ => question.moves.push(129),
        }
    }
    question.put(trial);
}

/// The number of heads or one of them.
fn heads_at_limit(question: &mut Question, random: &mut Random) -> &'static str {
    if random.percent(50) {
        let length = random.pick(&[0, 1, 63, 64, 65]);
        question.heads.resize(length, 0);
    } else {
        let place = random.below(question.heads.len());
        question.heads[place] = random.pick(&[2045, 2046, 2047, 2048, 0xFFFF]);
    }
    "limits of heads"
}

/// The numbers of the moves: too many, or not in threes.
fn length_at_limit(question: &mut Question, random: &mut Random) -> &'static str {
    let length = match random.below(2) {
        0 => random.pick(&[15357, 15360, 15361, 15362, 15363, 15366]),
        _ => question.moves.len() + random.between(1, 2),
    };
    question.moves.resize(length, 0);
    "limits of the numbers of moves"
}

/// A state or a label of a move.
fn move_at_limit(question: &mut Question, random: &mut Random) -> &'static str {
    let moves = question.moves.len() / 3;
    if moves == 0 {
        return "graphs without a move";
    }
    let part = random.below(3);
    question.moves[3 * random.below(moves) + part] = match part {
        1 => random.pick(&[127, 128, 129, 256, 0x8000, 0xFFFF]),
        _ => random.pick(&[2046, 2047, 2048, 2049, 0x8000, 0xFFFF]),
    };
    "limits of a move"
}

/// The number of links.
fn chain_at_limit(question: &mut Question, random: &mut Random) -> &'static str {
    let length = random.pick(&[0, 1, MOST_LINKS, MOST_LINKS + 1, 2000]);
    question.chain.resize(length, 0);
    "limits of the links"
}

/// The role asked or the first link.
fn role_at_limit(question: &mut Question, random: &mut Random) -> &'static str {
    let past = (2 * question.heads.len() + random.below(3) - 1) as u8;
    match random.below(2) {
        0 => question.role = past,
        _ => question.chain[0] = past,
    }
    "limits of roles"
}

pub const CYCLE: &[Met] = &[Met::Yes("ask"), Met::No("ask")];

/// Long silent cycles with a few letters between them, and all states active for many links.
pub fn cycle(trial: &mut Trial, random: &mut Random) {
    let states = random.pick(&[2, 64, 65, 500, 2048]) as u16;
    let mut moves = Vec::new();
    for state in 0..states {
        moves.extend([state, 128, (state + 1) % states]);
    }
    let letters = random.between(0, 3);
    for _ in 0..letters {
        let from = random.below(usize::from(states)) as u16;
        let to = random.below(usize::from(states)) as u16;
        moves.extend([from, random.below(2) as u16, to]);
    }
    // In reverse, silent moves are met in the order that is worst for one pass over the moves.
    if random.percent(50) {
        moves = moves.rchunks(3).flatten().copied().collect();
    }
    let links = random.pick(&[1, 2, 40, MOST_LINKS]);
    let question = Question {
        heads: vec![random.below(usize::from(states) - 1) as u16],
        moves,
        role: random.below(2) as u8,
        chain: (0..links).map(|_| random.below(2) as u8).collect(),
    };
    question.put(trial);
    let same = Question {
        chain: vec![question.chain[0]; links],
        ..question
    };
    same.put(trial);
}

pub const ROLES: &[Met] = &[Met::Yes("ask"), Met::No("ask"), Met::Refused("ask", 14)];

/// Every role byte, asked and as the only link, for tables of so many heads.
pub fn roles(trial: &mut Trial, random: &mut Random, heads: usize) {
    let mut moves = Vec::new();
    for label in 0..=128 {
        moves.extend([random.below(2) as u16, label, random.below(2) as u16]);
    }
    let heads = vec![0; heads];
    for role in 0..=255 {
        for link in [role, role ^ 1, 0, random.byte()] {
            trial.ask(&heads, &moves, role, &[link]);
            trial.ask(&heads, &moves, 0, &[role, link]);
            trial.ask(&heads, &moves, 1, &[link, role]);
        }
    }
}
