//! A million short questions through the program `engine` and through `plain_engine`.

use crate::measure::Times;
use crate::report::{Report, Row};
use outside::books::{Axiom, HALL};
use outside::chains::{self, Replacements};
use outside::programs;
use outside::random::Random;
use std::fs::{self, File};
use std::path::{Path, PathBuf};
use std::process::Command;
use std::time::Instant;

const QUESTIONS: usize = 1_000_000;
const RUNS: usize = 7;

pub fn rows(report: &mut Report) {
    let engine = match programs::find() {
        Ok(engine) => engine,
        Err(missing) => {
            report.note(&format!("The program's rows are left out: {missing}."));
            return;
        }
    };
    let folder = std::env::temp_dir().join(format!("rabbitsteel-bench-{}", std::process::id()));
    fs::create_dir_all(&folder).expect("a folder for the questions");
    fs::write(folder.join("book.rlb"), HALL).expect("the book is written");
    fs::write(folder.join("questions"), questions()).expect("the questions are written");
    let plain = PathBuf::from(env!("CARGO_BIN_EXE_plain_engine"));
    for (input, words) in [
        (
            "a million questions, hall; plain by trails as well",
            &[][..],
        ),
        (
            "a million questions, hall; plain closes each chain's links",
            &["--close-each"],
        ),
    ] {
        run(&folder, &engine, &[]);
        let written = fs::read(folder.join("lines")).expect("the lines are read");
        run(&folder, &plain, words);
        let owed = fs::read(folder.join("lines")).expect("the lines are read");
        assert!(written == owed, "the programs write different lines");
        let (mut engine_runs, mut plain_runs) = (Vec::new(), Vec::new());
        for _ in 0..RUNS {
            engine_runs.push(run(&folder, &engine, &[]));
            plain_runs.push(run(&folder, &plain, words));
        }
        report.add(Row {
            call: "program",
            input: input.to_string(),
            beside: "plain Rust",
            times: Times::new(engine_runs, plain_runs),
        });
    }
    fs::remove_dir_all(&folder).expect("the folder is removed");
}

/// Nanoseconds for a run from one file to another.
fn run(folder: &Path, program: &Path, words: &[&str]) -> f64 {
    let input = File::open(folder.join("questions")).expect("the questions are there");
    let output = File::create(folder.join("lines")).expect("the lines can be written");
    let start = Instant::now();
    let status = Command::new(program)
        .args(words)
        .current_dir(folder)
        .stdin(input)
        .stdout(output)
        .status();
    let time = start.elapsed();
    assert!(
        status.is_ok_and(|status| status.success()),
        "{} fails",
        program.display()
    );
    time.as_nanos() as f64
}

/// Chains of 1 to 8 links, half of them derived.
fn questions() -> Vec<u8> {
    let random = &mut Random::new(3);
    let rules: [Axiom; 3] = [(0, vec![0, 0]), (2, vec![0, 2]), (6, vec![2, 4])];
    let replacements = Replacements::new(4, &rules);
    let mut questions = Vec::new();
    for _ in 0..QUESTIONS {
        let role = random.below(8) as u8;
        let links = random.between(1, 8);
        let mut chain = replacements.derive(random, role, links);
        if random.percent(50) {
            chain = chains::nearly(random, &chain, 4);
        }
        questions.push(role);
        questions.extend((chain.len() as u16).to_le_bytes());
        questions.extend(chain);
    }
    questions
}
