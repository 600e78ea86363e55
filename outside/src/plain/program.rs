//! The program of documents 01 and 02: a book and a stream of questions in, a line for the book and for each question out.

use super::binding::NETWORK_BYTES;
use super::refusal::Refusal;
use super::tables::MAX_TRANSITIONS;
use super::trail_search::TrailSearch;
use super::{binds, book, build};
use std::io::{self, BufRead, Write};

/// How what binds is found: by trails through the tables, or by closing the links of each chain as the archive's call
/// does.
#[derive(Clone, Copy, Debug, PartialEq, Eq)]
pub enum Method {
    Trails,
    Closure,
}

/// Answers the questions that follow each other in the input.
pub fn run(
    book: &[u8],
    mut input: impl BufRead,
    mut output: impl Write,
    method: Method,
) -> io::Result<()> {
    let mut heads = [0; book::MAX_NAMES];
    let mut moves = vec![0; 3 * MAX_TRANSITIONS];
    let (states, transitions, depth) = match build(book, &mut heads, &mut moves) {
        Ok(counts) => counts,
        Err(Refusal { cause, value }) => {
            return writeln!(output, "book refused {} {value}", cause as u64)
        }
    };
    writeln!(output, "book {states} {transitions} {depth}")?;
    let heads = &heads[..usize::from(book[book::NAMES])];
    let moves = &moves[..3 * transitions as usize];
    let mut search = TrailSearch::new(heads, moves).expect("a book's tables can be asked");
    let mut network = vec![0; NETWORK_BYTES];
    let mut chain = Vec::new();
    for number in 0u64.. {
        let answer = match question(&mut input, &mut chain)? {
            Question::End => break,
            Question::Cut => return writeln!(output, "{number} cut"),
            Question::About(role) => match method {
                Method::Trails => search.binds(role, &chain),
                Method::Closure => binds(book, role, &chain, &mut network),
            },
        };
        match answer {
            Ok(true) => writeln!(output, "{number} yes")?,
            Ok(false) => writeln!(output, "{number} no")?,
            Err(refusal) => writeln!(output, "{number} refused {}", refusal.cause as u64)?,
        }
    }
    Ok(())
}

enum Question {
    /// The input ends before the question.
    End,
    /// The input ends inside the question.
    Cut,
    /// The role asked about; the chain is in the buffer.
    About(u8),
}

/// Reads a role byte, the length of the chain (16 bits, low byte first) and the chain.
fn question(input: &mut impl BufRead, chain: &mut Vec<u8>) -> io::Result<Question> {
    if input.fill_buf()?.is_empty() {
        return Ok(Question::End);
    }
    let mut start = [0; 3];
    if !fill(input, &mut start)? {
        return Ok(Question::Cut);
    }
    let [role, low, high] = start;
    chain.resize(usize::from(u16::from_le_bytes([low, high])), 0);
    Ok(if fill(input, chain)? {
        Question::About(role)
    } else {
        Question::Cut
    })
}

/// Fills a buffer; false where the input ends first.
fn fill(input: &mut impl BufRead, buffer: &mut [u8]) -> io::Result<bool> {
    match input.read_exact(buffer) {
        Ok(()) => Ok(true),
        Err(error) if error.kind() == io::ErrorKind::UnexpectedEof => Ok(false),
        Err(error) => Err(error),
    }
}
