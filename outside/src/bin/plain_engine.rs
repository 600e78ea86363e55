//! The program of documents 01 and 02 in plain Rust: `book.rlb` in the folder that it is run in (a missing file counts as
//! empty), questions from standard input. With `--close-each` it closes the links of each chain instead of
//! looking for trails through the tables.
#![forbid(unsafe_code)]

use outside::plain::program::{run, Method};
use std::io::{self, BufReader, BufWriter, Write};

fn main() -> io::Result<()> {
    let method = match std::env::args().nth(1).as_deref() {
        Some("--close-each") => Method::Closure,
        _ => Method::Trails,
    };
    let book = std::fs::read("book.rlb").unwrap_or_default();
    let input = BufReader::with_capacity(1 << 16, io::stdin().lock());
    let mut output = BufWriter::with_capacity(1 << 16, io::stdout().lock());
    run(&book, input, &mut output, method)?;
    output.flush()
}
