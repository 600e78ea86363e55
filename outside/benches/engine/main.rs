//! The archive beside the plain engine on the same inputs: reading, order check, building, questions, derivations, what
//! binds, and a million questions through the programs. `cargo bench -- --markdown TABLE.md --svg CHART.svg` writes the table
//! and a chart of the ratios; both paths may be left out.

mod derivations;
mod inputs;
mod measure;
mod networks;
mod programs;
mod re2;
mod repeats;
mod report;

use inputs::{Question, Tabled};
use measure::interleaved;
use outside::archive::{self, Reply};
use outside::books::{fullest, ladder, longest, HALL};
use outside::plain;
use outside::random::Random;
use report::{Report, Row};
use std::hint::black_box;

fn main() {
    let mut words = std::env::args().skip(1);
    let (mut markdown, mut svg) = (None, None);
    while let Some(word) = words.next() {
        match word.as_str() {
            "--markdown" => markdown = words.next(),
            "--svg" => svg = words.next(),
            // cargo bench adds this word.
            "--bench" => {}
            other => panic!("unknown word {other}: --markdown PATH and --svg PATH are known"),
        }
    }
    let mut report = Report::default();
    books(&mut report);
    repeats::rows(&mut report);
    questions(&mut report);
    whole_way(&mut report);
    derivations::rows(&mut report);
    networks::rows(&mut report);
    re2::rows(&mut report);
    programs::rows(&mut report);
    println!("\n{}", report.markdown());
    let write = |path: Option<String>, text: String| {
        if let Some(path) = path {
            std::fs::write(&path, text).unwrap_or_else(|error| panic!("{path}: {error}"));
        }
    };
    write(markdown, report.markdown());
    write(svg, report.svg());
}

/// Reading, the order check and the build of small and of the largest books.
fn books(report: &mut Report) {
    let random = &mut Random::new(1);
    let books = [
        ("hall, 3 rules", HALL.to_vec()),
        ("256 rules", fullest(random)),
        ("256 rules of 8 roles", longest(random)),
    ];
    let [spread, of_one_name, _] = repeats::books();
    for (name, book) in books.iter().chain([&spread, &of_one_name]) {
        let archive = || archive::read(black_box(book));
        let plain = || plain::read(black_box(book)).into();
        pair(report, "read", name, archive, plain);
    }
    let deepest = ("64 names in a ladder", ladder(64));
    for (name, book) in books.iter().chain([&deepest]) {
        let (mut levels, mut plain_levels) = ([0; 64], [0; 64]);
        let archive = || archive::order(black_box(book), black_box(&mut levels));
        let plain = || plain::order(black_box(book), black_box(&mut plain_levels)).into();
        pair(report, "order", name, archive, plain);
        assert_eq!(levels, plain_levels, "{name}");
    }
    let built = [
        ("hall, 16 states".to_string(), HALL.to_vec()),
        named("2,048 states, 256 rules", &books[1].1),
        named("2,048 states, nested", &inputs::nested(random)),
        named("2,048 states, all can be active", &inputs::crowded()),
    ];
    for (name, book) in &built {
        build(report, name, book, false);
    }
    build(
        report,
        &(built[1].0.clone() + ", cleared first"),
        &built[1].1,
        true,
    );
}

/// A book with its name and its number of moves.
fn named(name: &str, book: &[u8]) -> (String, Vec<u8>) {
    let moves = Tabled::new(book).moves.len() / 3;
    (format!("{name}, {moves} moves"), book.to_vec())
}

/// The tables lent are the same for all calls; `cleared` sets them to 0 before each call, inside the time taken.
fn build(report: &mut Report, name: &str, book: &[u8], cleared: bool) {
    let lent = || ([0xFFFFu16; 64], vec![0xFFFFu16; 15360]);
    let clear = |heads: &mut [u16], moves: &mut [u16]| {
        if cleared {
            heads.fill(0);
            moves.fill(0);
        }
    };
    let ((mut heads, mut moves), (mut plain_heads, mut plain_moves)) = (lent(), lent());
    let archive = || {
        clear(&mut heads, &mut moves);
        archive::build(
            black_box(book),
            black_box(&mut heads),
            black_box(&mut moves),
        )
    };
    let plain = || {
        let (heads, moves) = (&mut plain_heads, &mut plain_moves);
        clear(heads, moves);
        plain::build(black_box(book), black_box(heads), black_box(moves)).into()
    };
    pair(report, "build", name, archive, plain);
}

/// Questions of 1, 16 and 1,024 links to small and to the largest tables.
fn questions(report: &mut Report) {
    let random = &mut Random::new(2);
    let tabled = [
        ("hall", Tabled::new(HALL), inputs::hall_questions()),
        inputs::few_active(random),
        inputs::many_active(),
    ];
    for (name, tables, questions) in &tabled {
        for Question { role, chain, yes } in questions {
            let Tabled { heads, moves } = tables;
            let active = tables.active(*role, chain);
            let asked = inputs::asked(chain, *yes);
            let label = format!("{name}, {asked}, {active} active");
            let archive = || {
                let (heads, moves) = (black_box(heads), black_box(moves));
                archive::ask(heads, moves, *role, black_box(chain))
            };
            let plain = || {
                let (heads, moves) = (black_box(heads), black_box(moves));
                plain::ask(heads, moves, *role, black_box(chain)).into()
            };
            assert_eq!(archive(), Reply::answered(*yes));
            pair(report, "ask", &label, archive, plain);
        }
    }
}

/// The build and the question in one call.
fn whole_way(report: &mut Report) {
    let random = &mut Random::new(1);
    let chain = [0, 0, 2, 4];
    for (name, book) in [
        ("hall, 4 links", HALL.to_vec()),
        ("2,048 states, 256 rules, 4 links", fullest(random)),
    ] {
        let lent = || ([0xFFFFu16; 64], vec![0xFFFFu16; 15360]);
        let ((mut heads, mut moves), (mut plain_heads, mut plain_moves)) = (lent(), lent());
        let archive = || {
            let (heads, moves) = (black_box(&mut heads), black_box(&mut moves));
            archive::derived(black_box(&book), heads, moves, 6, black_box(&chain))
        };
        let plain = || {
            let (heads, moves) = (black_box(&mut plain_heads), black_box(&mut plain_moves));
            plain::derived(black_box(&book), heads, moves, 6, black_box(&chain)).into()
        };
        pair(report, "derived", name, archive, plain);
    }
}

/// Measures both engines on one input, after a look that they say the same.
fn pair(
    report: &mut Report,
    call: &'static str,
    input: &str,
    mut archive: impl FnMut() -> Reply,
    mut plain: impl FnMut() -> Reply,
) {
    assert_eq!(archive(), plain(), "{call}, {input}");
    let times = interleaved(archive, plain);
    report.add(Row {
        call,
        input: input.to_string(),
        beside: "plain Rust",
        times,
    });
}
