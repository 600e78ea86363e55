//! A trial puts the same inputs to the archive and to the plain engine, counts them, and stops at the first
//! difference with the seed and the input. A trial that has tried too little fails as well.
#![forbid(unsafe_code)]

use crate::archive::{self, Reply};
use crate::plain::binding::network_bytes;
use crate::plain::book::Book;
use crate::plain::derivation_writer::MAX_STEPS;
use crate::plain::networks::Network;
use crate::plain::{self, levels, steps};
use crate::random::Random;
use std::collections::BTreeMap;
use std::fmt::Display;
use std::hint::black_box;

const SEED: &str = "RABBITSTEEL_SEED";
const ROUNDS: &str = "RABBITSTEEL_ROUNDS";

/// Numbers that stand before and after each lent slice and must keep their values.
const FENCE: usize = 16;

/// What a call was tried on.
#[derive(Clone, Default)]
struct Tally {
    tried: u64,
    accepted: u64,
    yes: u64,
    refused: BTreeMap<u64, u64>,
}

/// What a trial has to meet: a kind of reply to a call, or something counted.
#[derive(Clone, Copy, Debug)]
pub enum Met {
    Accepted(&'static str),
    Yes(&'static str),
    No(&'static str),
    Refused(&'static str, u64),
    Counted(&'static str),
}

pub struct Trial {
    name: &'static str,
    first_seed: u64,
    seed: u64,
    cases: u64,
    /// How many replies and checks were compared.
    compared: u64,
    tallies: BTreeMap<&'static str, Tally>,
    counts: BTreeMap<&'static str, u64>,
    largest: BTreeMap<&'static str, u64>,
    noise: Vec<u16>,
}

/// The written numbers of a build, and what the plain engine would have said with enough room.
pub struct Tables {
    pub heads: Vec<u16>,
    pub moves: Vec<u16>,
}

/// A number from the environment, decimal or hexadecimal.
fn setting(name: &str) -> Option<u64> {
    let text = std::env::var(name).ok()?;
    let number = match text.strip_prefix("0x") {
        Some(digits) => u64::from_str_radix(digits, 16),
        None => text.parse(),
    };
    Some(number.unwrap_or_else(|_| panic!("{name} is no number: {text}")))
}

/// How many times the usual amount to try; a decimal fraction is allowed.
fn rounds() -> f64 {
    let Ok(text) = std::env::var(ROUNDS) else {
        return 1.0;
    };
    text.parse()
        .unwrap_or_else(|_| panic!("{ROUNDS} is no number: {text}"))
}

/// Tries so many cases, at least one. Case i has the seed of the run plus i, so that a run with a case's seed starts
/// with that case. What has to be met is demanded of the usual amount and of more.
pub fn run(name: &'static str, cases: u64, met: &[Met], case: impl FnMut(&mut Trial, &mut Random)) {
    let rounds = rounds();
    let met = if rounds < 1.0 { &[] } else { met };
    let cases = (cases as f64 * rounds).ceil().max(1.0) as u64;
    run_exactly(name, cases, met, case);
}

/// As [`run`], whatever amount the environment asks for. Each case compares something.
pub fn run_exactly(
    name: &'static str,
    cases: u64,
    met: &[Met],
    mut case: impl FnMut(&mut Trial, &mut Random),
) {
    assert!(cases > 0, "{name}: no case");
    let first_seed = setting(SEED).unwrap_or(1);
    let mut noise = Random::new(first_seed);
    let mut trial = Trial {
        name,
        first_seed,
        seed: first_seed,
        cases,
        compared: 0,
        tallies: BTreeMap::new(),
        counts: BTreeMap::new(),
        largest: BTreeMap::new(),
        noise: (0..1 << 15).map(|_| noise.number() as u16).collect(),
    };
    for number in 0..cases {
        trial.seed = first_seed.wrapping_add(number);
        let mut random = Random::new(trial.seed);
        let before = trial.compared;
        case(&mut trial, &mut random);
        if trial.compared == before {
            trial.stop("a case compares nothing", &[]);
        }
    }
    trial.print();
    for met in met {
        assert!(trial.times(*met) > 0, "{name}: it never met {met:?}");
    }
}

impl Trial {
    /// Puts a book to the reader.
    pub fn read(&mut self, book: &[u8]) -> Reply {
        let kept = book.to_vec();
        let given = archive::read(book);
        let owed = plain::read(book).into();
        if given != owed || kept != black_box(book) {
            self.fail("read", given, owed, &[("book", hex(&kept))]);
        }
        self.tally("read", owed)
    }

    /// Puts a book to the order check, with so many levels lent between fences. Where it accepts, they are held to
    /// their sentence as well.
    pub fn order(&mut self, book: &[u8], lent: usize) -> Reply {
        let kept = book.to_vec();
        let noise = self.noise[..lent + 2 * FENCE].iter();
        let mut given_levels: Vec<u8> = noise.map(|number| *number as u8).collect();
        let mut owed_levels = given_levels.clone();
        let given = archive::order(book, &mut given_levels[FENCE..FENCE + lent]);
        let owed = plain::order(book, &mut owed_levels[FENCE..FENCE + lent]).into();
        if given != owed || given_levels != owed_levels || kept != black_box(book) {
            let mut input = vec![("book", hex(&kept)), ("levels lent", lent.to_string())];
            input.extend(difference("levels", &given_levels, &owed_levels));
            self.fail("order", given, owed, &input);
        }
        if owed.cause == 0 {
            self.levels(book, &owed_levels[FENCE..FENCE + lent], owed.third);
        }
        self.tally("order", owed)
    }

    /// Holds the levels that were lent and the depth to their sentence.
    fn levels(&mut self, book: &[u8], given: &[u8], depth: u64) {
        let owed = levels::levels(&Book::read(book).expect("the book was accepted"));
        let count = given.len().min(owed.len());
        let highest = owed.iter().max().map(|&level| u64::from(level));
        self.check(
            given[..count] == owed[..count] && Some(depth) == highest,
            "the levels are not those of their sentence",
            &[("book", hex(book)), ("levels", hex(given))],
        );
        self.count("levels by their sentence", count as u64);
        self.most("depth", depth);
    }

    /// Puts a book to the builder, with so many numbers lent; the tables where it accepts.
    pub fn build(&mut self, book: &[u8], heads: usize, moves: usize) -> Option<Tables> {
        let call = Call {
            name: "build",
            book,
            heads,
            moves,
            question: None,
        };
        let (reply, tables) = self.lend(
            &call,
            |heads, moves| archive::build(book, heads, moves),
            |heads, moves| plain::build(book, heads, moves).into(),
        );
        if reply.cause != 0 {
            return None;
        }
        self.most("states", reply.first);
        self.most("moves", reply.second);
        let mut tables = tables;
        tables.heads.truncate(usize::from(book[5]));
        tables.moves.truncate(3 * reply.second as usize);
        Some(tables)
    }

    /// Puts a book and a question to the call that builds and asks.
    pub fn derived(
        &mut self,
        book: &[u8],
        heads: usize,
        moves: usize,
        role: u8,
        chain: &[u8],
    ) -> Reply {
        let call = Call {
            name: "derived",
            book,
            heads,
            moves,
            question: Some((role, chain)),
        };
        let (reply, _) = self.lend(
            &call,
            |heads, moves| archive::derived(book, heads, moves, role, chain),
            |heads, moves| plain::derived(book, heads, moves, role, chain).into(),
        );
        reply
    }

    /// Lends both engines the same noise between fences, and compares what they say and every number.
    fn lend(
        &mut self,
        call: &Call,
        archive: impl Fn(&mut [u16], &mut [u16]) -> Reply,
        plain: impl Fn(&mut [u16], &mut [u16]) -> Reply,
    ) -> (Reply, Tables) {
        let lent = |length: usize| FENCE..FENCE + length;
        let noise = |length: usize| self.noise[..length + 2 * FENCE].to_vec();
        let (mut given_heads, mut given_moves) = (noise(call.heads), noise(call.moves));
        let (mut owed_heads, mut owed_moves) = (given_heads.clone(), given_moves.clone());
        let book = call.book.to_vec();
        let chain = call.question.map(|question| question.1.to_vec());
        let given = archive(
            &mut given_heads[lent(call.heads)],
            &mut given_moves[lent(call.moves)],
        );
        let owed = plain(
            &mut owed_heads[lent(call.heads)],
            &mut owed_moves[lent(call.moves)],
        );
        let lent_kept = book == black_box(call.book)
            && chain.as_deref() == black_box(call.question).map(|question| question.1);
        if given != owed || given_heads != owed_heads || given_moves != owed_moves || !lent_kept {
            let mut input = call.input();
            input.extend(difference("heads", &given_heads, &owed_heads));
            input.extend(difference("moves", &given_moves, &owed_moves));
            self.fail(call.name, given, owed, &input);
        }
        let tables = Tables {
            heads: owed_heads[lent(call.heads)].to_vec(),
            moves: owed_moves[lent(call.moves)].to_vec(),
        };
        (self.tally(call.name, owed), tables)
    }

    /// Puts a question to tables.
    pub fn ask(&mut self, heads: &[u16], moves: &[u16], role: u8, chain: &[u8]) -> Reply {
        let kept = (heads.to_vec(), moves.to_vec(), chain.to_vec());
        let given = archive::ask(heads, moves, role, chain);
        let owed = plain::ask(heads, moves, role, chain).into();
        let same =
            kept.0 == black_box(heads) && kept.1 == black_box(moves) && kept.2 == black_box(chain);
        if given != owed || !same {
            let input = [
                ("heads", words(&kept.0)),
                ("moves", words(&kept.1)),
                ("role", hex(&[role])),
                ("chain", hex(&kept.2)),
            ];
            self.fail("ask", given, owed, &input);
        }
        if owed.cause == 0 {
            self.most("links", chain.len() as u64);
        }
        self.tally("ask", owed)
    }

    /// Puts a question to the writer of derivations, with so many bytes lent between fences; the steps where it writes
    /// some. Which derivation it writes is free, so the steps are put to both checkers.
    pub fn write_derivation(
        &mut self,
        book: &[u8],
        role: u8,
        chain: &[u8],
        lent: usize,
    ) -> Option<Vec<u8>> {
        let kept = (book.to_vec(), chain.to_vec());
        let noise = self.noise[..lent + 2 * FENCE].iter();
        let before: Vec<u8> = noise.map(|number| *number as u8).collect();
        let mut given_bytes = before.clone();
        let given =
            archive::write_derivation(book, role, chain, &mut given_bytes[FENCE..FENCE + lent]);
        let owed = plain::write_derivation(book, role, chain, &mut vec![0; lent]).into();
        let count = given.second as usize;
        let same = Reply { second: 0, ..given } == Reply { second: 0, ..owed };
        let counted = count <= MAX_STEPS && (given.first == 1 || count == 0);
        let lent_kept = kept.0 == black_box(book) && kept.1 == black_box(chain);
        let written = FENCE..FENCE + 4 * count.min(lent / 4);
        let mut outside = given_bytes.clone();
        outside[written.clone()].copy_from_slice(&before[written.clone()]);
        if !same || !counted || !lent_kept || outside != before {
            let mut input = question_input(book, role, chain);
            input.push(("bytes lent", lent.to_string()));
            input.extend(difference("bytes behind the steps", &outside, &before));
            self.fail("write_derivation", given, owed, &input);
        }
        self.tally("write_derivation", owed);
        if given
            != (Reply {
                cause: 0,
                first: 1,
                ..given
            })
        {
            return None;
        }
        self.most("steps", count as u64);
        let steps = given_bytes[written].to_vec();
        let reply = self.check_derivation(book, role, chain, &steps);
        let mut input = question_input(book, role, chain);
        input.push(("steps", hex(&steps)));
        self.check(
            reply == Reply::answered(true),
            "the steps do not lead to the chain",
            &input,
        );
        Some(steps)
    }

    /// Puts steps to the checker of derivations. Where the question is not refused, it is held to its sentence as well.
    pub fn check_derivation(&mut self, book: &[u8], role: u8, chain: &[u8], steps: &[u8]) -> Reply {
        let kept = (book.to_vec(), chain.to_vec(), steps.to_vec());
        let given = archive::check_derivation(book, role, chain, steps);
        let owed = plain::check_derivation(book, role, chain, steps).into();
        let lent_kept =
            kept.0 == black_box(book) && kept.1 == black_box(chain) && kept.2 == black_box(steps);
        let mut input = question_input(book, role, chain);
        input.push(("steps", hex(&steps[..steps.len().min(4 * MAX_STEPS)])));
        if given != owed || !lent_kept {
            self.fail("check_derivation", given, owed, &input);
        }
        if let (0 | 17, (steps, [])) = (owed.cause, steps.as_chunks()) {
            let book = Book::read(book).expect("the book was accepted");
            let ending = match steps::ending(&book, role, steps) {
                Ok(ending) => (0, u64::from(ending == chain)),
                Err(number) => (17, number as u64),
            };
            let same = ending == (owed.cause, owed.first);
            self.check(same, "the checkers and the sentence differ", &input);
            self.most("steps checked", steps.len() as u64);
        }
        self.tally("check_derivation", owed)
    }

    /// Asks whether a chain binds a role, with so many bytes lent between fences. A network that is written is held to its
    /// sentences as well.
    pub fn binds(&mut self, book: &[u8], role: u8, chain: &[u8], lent: usize) -> Reply {
        let kept = (book.to_vec(), chain.to_vec());
        let noise = self.noise[..lent + 2 * FENCE].iter();
        let mut given_bytes: Vec<u8> = noise.map(|number| *number as u8).collect();
        let mut owed_bytes = given_bytes.clone();
        let given = archive::binds(book, role, chain, &mut given_bytes[FENCE..FENCE + lent]);
        let owed = plain::binds(book, role, chain, &mut owed_bytes[FENCE..FENCE + lent]).into();
        let lent_kept = kept.0 == black_box(book) && kept.1 == black_box(chain);
        if given != owed || given_bytes != owed_bytes || !lent_kept {
            let mut input = question_input(book, role, chain);
            input.push(("bytes lent", lent.to_string()));
            input.extend(difference("network", &given_bytes, &owed_bytes));
            self.fail("binds", given, owed, &input);
        }
        if owed == Reply::answered(false) {
            self.network(book, role, chain, &owed_bytes[FENCE..]);
        }
        self.tally("binds", owed)
    }

    /// Holds a network to its sentences: it obeys the book, holds the chain and lacks the link.
    fn network(&mut self, book: &[u8], role: u8, chain: &[u8], bytes: &[u8]) {
        let input = question_input(book, role, chain);
        let book = Book::read(book).expect("the book was accepted");
        let bytes = &bytes[..network_bytes(book.names(), chain.len())];
        let network = Network::new(chain.len() + 1, bytes);
        let holds = bytes.iter().all(|&byte| byte <= 1)
            && network.obeys(&book)
            && network.holds(chain)
            && !network.links(role, 0, chain.len());
        self.check(holds, "the network is not one of its sentences", &input);
        self.count("networks by their sentences", 1);
        self.most("bytes of a network", bytes.len() as u64);
    }

    /// Counts something worth telling.
    pub fn count(&mut self, what: &'static str, times: u64) {
        *self.counts.entry(what).or_default() += times;
    }

    /// Keeps the largest of something worth telling.
    pub fn most(&mut self, what: &'static str, number: u64) {
        let most = self.largest.entry(what).or_default();
        *most = number.max(*most);
    }

    /// Stops the trial where something else than a comparison of the two engines fails.
    pub fn check(&mut self, holds: bool, what: &str, input: &[(&str, String)]) {
        self.compared += 1;
        if !holds {
            self.stop(what, input);
        }
    }

    fn tally(&mut self, call: &'static str, reply: Reply) -> Reply {
        self.compared += 1;
        let tally = self.tallies.entry(call).or_default();
        tally.tried += 1;
        if reply.cause == 0 {
            tally.accepted += 1;
            tally.yes += u64::from(reply.first == 1);
        } else {
            *tally.refused.entry(reply.cause).or_default() += 1;
        }
        reply
    }

    /// How often something was met.
    fn times(&self, met: Met) -> u64 {
        let tally = |call| self.tallies.get(call).cloned().unwrap_or_default();
        match met {
            Met::Accepted(call) => tally(call).accepted,
            Met::Yes(call) => tally(call).yes,
            Met::No(call) => tally(call).accepted - tally(call).yes,
            Met::Refused(call, cause) => *tally(call).refused.get(&cause).unwrap_or(&0),
            Met::Counted(what) => *self.counts.get(what).unwrap_or(&0),
        }
    }

    fn fail(&self, call: &str, given: Reply, owed: Reply, input: &[(&str, String)]) -> ! {
        let mut input = input.to_vec();
        input.push(("archive", format!("{given:?}")));
        input.push(("plain", format!("{owed:?}")));
        self.stop(
            &format!("the archive and the plain engine differ in {call}"),
            &input,
        )
    }

    fn stop(&self, what: &str, input: &[(&str, String)]) -> ! {
        let seed = self.seed;
        let mut text = format!("{}: {what}\n  seed: {seed:#018x}\n", self.name);
        for (name, value) in input {
            text += &format!("  {name}: {value}\n");
        }
        text += &format!("  again: {SEED}={seed:#x} {ROUNDS}=0 and this test\n");
        panic!("{text}")
    }

    fn print(&self) {
        println!(
            "{}: {} cases from seed {:#018x}, {} comparisons",
            self.name, self.cases, self.first_seed, self.compared
        );
        for (call, tally) in &self.tallies {
            let accepted = match *call {
                "read" | "order" | "build" => format!("accepted {}", tally.accepted),
                _ => format!("yes {}, no {}", tally.yes, tally.accepted - tally.yes),
            };
            let mut refused = String::new();
            for (cause, times) in &tally.refused {
                refused += &format!(", refused by {cause}: {times}");
            }
            println!("  {call} {}: {accepted}{refused}", tally.tried);
        }
        for (what, times) in &self.counts {
            println!("  {what}: {times}");
        }
        for (what, number) in &self.largest {
            println!("  most {what}: {number}");
        }
    }
}

/// A call that takes a book and lent tables.
struct Call<'a> {
    name: &'static str,
    book: &'a [u8],
    heads: usize,
    moves: usize,
    question: Option<(u8, &'a [u8])>,
}

impl Call<'_> {
    fn input(&self) -> Vec<(&'static str, String)> {
        let mut input = vec![
            ("book", hex(self.book)),
            ("heads lent", self.heads.to_string()),
            ("moves lent", self.moves.to_string()),
        ];
        if let Some((role, chain)) = self.question {
            input.push(("role", hex(&[role])));
            input.push(("chain", hex(chain)));
        }
        input
    }
}

/// A question about a book, as it is told.
fn question_input(book: &[u8], role: u8, chain: &[u8]) -> Vec<(&'static str, String)> {
    vec![
        ("book", hex(book)),
        ("role", hex(&[role])),
        ("chain", hex(chain)),
    ]
}

/// Where two lent slices first differ. Places before 0 and after the last are fences.
fn difference<T: Copy + PartialEq + Display>(
    name: &'static str,
    given: &[T],
    owed: &[T],
) -> Option<(&'static str, String)> {
    let place = given
        .iter()
        .zip(owed)
        .position(|(given, owed)| given != owed)?;
    let (given, owed) = (given[place], owed[place]);
    let place = place as i64 - FENCE as i64;
    let text = format!("at {place} the archive has {given}, the plain engine {owed}");
    Some((name, text))
}

/// Bytes in hexadecimal.
pub fn hex(bytes: &[u8]) -> String {
    let digits: Vec<String> = bytes.iter().map(|byte| format!("{byte:02X}")).collect();
    digits.join(" ")
}

/// 16-bit numbers in hexadecimal.
fn words(numbers: &[u16]) -> String {
    let digits: Vec<String> = numbers
        .iter()
        .map(|number| format!("{number:04X}"))
        .collect();
    digits.join(" ")
}
