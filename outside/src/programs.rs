//! Runs a program of document 01 on a book and questions, in a folder of its own.
#![forbid(unsafe_code)]

use std::fs::{self, File};
use std::io::Write;
use std::path::{Path, PathBuf};
use std::process::{Command, Stdio};
use std::sync::atomic::{AtomicUsize, Ordering};
use std::time::Duration;

const ENGINE: &str = "RABBITSTEEL_ENGINE";

/// The program `engine`: where RABBITSTEEL_ENGINE says, or else at ../target/bin/engine. Where there is none, why.
pub fn find() -> Result<PathBuf, String> {
    let usual = || Path::new(env!("CARGO_MANIFEST_DIR")).join("../target/bin/engine");
    let path = std::env::var_os(ENGINE).map_or_else(usual, PathBuf::from);
    let make = "make it with `tools/answers` in the repository's root, or name it in";
    path.canonicalize()
        .map_err(|_| format!("there is no engine at {}: {make} {ENGINE}", path.display()))
}

/// The same; that there is none is a failure.
pub fn engine() -> PathBuf {
    find().unwrap_or_else(|missing| panic!("{missing}"))
}

/// How questions reach a program.
#[derive(Clone, Copy, Debug)]
pub enum Way {
    /// From a file: each read gives as much as is asked for.
    File,
    /// Through a pipe that is kept full.
    Pipe,
    /// Through a pipe, so many bytes at a time with a rest after each.
    Pieces(usize),
}

/// What a program writes to standard output in a folder with this book, or without one. It must end well.
pub fn written(
    program: &Path,
    words: &[&str],
    book: Option<&[u8]>,
    questions: &[u8],
    way: Way,
) -> String {
    let folder = folder();
    if let Some(book) = book {
        fs::write(folder.join("book.rlb"), book).expect("the book is written");
    }
    let input = match way {
        Way::File => {
            let path = folder.join("questions");
            fs::write(&path, questions).expect("the questions are written");
            Stdio::from(File::open(&path).expect("the questions are there"))
        }
        _ => Stdio::piped(),
    };
    let mut child = Command::new(program)
        .args(words)
        .current_dir(&folder)
        .stdin(input)
        .stdout(Stdio::piped())
        .spawn()
        .unwrap_or_else(|error| panic!("{}: {error}", program.display()));
    let pipe = child.stdin.take();
    let output = std::thread::scope(|scope| {
        scope.spawn(move || pipe.map(|pipe| feed(pipe, questions, way)));
        child.wait_with_output().expect("the program ends")
    });
    fs::remove_dir_all(&folder).expect("the folder is removed");
    assert!(
        output.status.success(),
        "{}: {}",
        program.display(),
        output.status
    );
    String::from_utf8(output.stdout).expect("the lines are text")
}

/// An empty folder of its own.
fn folder() -> PathBuf {
    static FOLDERS: AtomicUsize = AtomicUsize::new(0);
    let number = FOLDERS.fetch_add(1, Ordering::Relaxed);
    let name = format!("rabbitsteel-program-{}-{number}", std::process::id());
    let folder = std::env::temp_dir().join(name);
    fs::create_dir(&folder).expect("a folder of its own");
    folder
}

/// Writes the questions into a pipe. A program that refuses its book may stop before it has read them.
fn feed(mut pipe: impl Write, questions: &[u8], way: Way) {
    let Way::Pieces(size) = way else {
        drop(pipe.write_all(questions));
        return;
    };
    // The program is to wait for its input before the first piece comes.
    std::thread::sleep(Duration::from_millis(10));
    for piece in questions.chunks(size) {
        if pipe.write_all(piece).and_then(|()| pipe.flush()).is_err() {
            return;
        }
        std::thread::sleep(Duration::from_micros(500));
    }
}
