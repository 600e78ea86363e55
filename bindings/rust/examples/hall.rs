//! The worked example: prints the levels of the hall book's names, builds its tables, asks it five
//! questions and prints the lines that the program `engine` writes for them, how the chain of one of
//! them is derived, and a network in which the chain of another does not bind. Then it shows a book
//! that is refused.

use rabbitsteel::{inverse, order, role, Binding, Derivation, Order, Refusal, Tables};

const PART: u8 = role(0);
const SITS: u8 = role(1);
const LET: u8 = role(2);
const DUE: u8 = role(3);
/// The hall book has no such name.
const UNKNOWN: u8 = role(4);

/// Four names and three rules, each as right role, length, left roles.
#[rustfmt::skip]
const HALL: [u8; 20] = [
    b'R', b'L', b'B', 1, 0, 4, 3, 0, // mark, version, names, rules
    PART, 2, PART, PART,             // part part to part
    SITS, 2, PART, SITS,             // part sits to sits
    DUE, 2, SITS, LET,               // sits let to due
];

/// Two names and two rules, each role below the other: there is no such order.
#[rustfmt::skip]
const CIRCLE: [u8; 14] = [
    b'R', b'L', b'B', 1, 0, 2, 2, 0, // mark, version, names, rules
    role(1), 1, role(0),
    role(0), 1, role(1),
];

const QUESTIONS: [(u8, &[u8]); 5] = [
    (DUE, &[PART, PART, SITS, LET]),
    (DUE, &[SITS, PART, LET]),
    (inverse(DUE), &[inverse(LET), inverse(SITS), inverse(PART)]),
    (DUE, &[]),
    (DUE, &[UNKNOWN]),
];

fn main() {
    for book in [&HALL[..], &CIRCLE] {
        if let Err(refusal) = show(book) {
            print_refusal(refusal);
        }
    }
}

/// Prints the levels of a book, its line and its answers, a derivation and a network.
fn show(book: &[u8]) -> Result<(), Refusal> {
    print_levels(&order(book)?);
    ask_all(&Tables::of(book)?);
    print_derivation(book, 2)?;
    print_network(book, 1)
}

/// Prints the steps from the role to the chain of a question.
fn print_derivation(book: &[u8], number: usize) -> Result<(), Refusal> {
    let (role, chain) = QUESTIONS[number];
    let Some(derivation) = Derivation::of(book, role, chain)? else {
        return Ok(());
    };
    for step in derivation.steps() {
        let inverse = if step.inverse { "inverse of " } else { "" };
        println!("{number} at {}: {inverse}rule {}", step.place, step.rule);
    }
    Ok(())
}

/// Prints the links of a network that obeys the book and holds the chain without the asked link.
fn print_network(book: &[u8], number: usize) -> Result<(), Refusal> {
    let (role, chain) = QUESTIONS[number];
    if let Binding::Network(network) = Binding::of(book, role, chain)? {
        for link in network.iter() {
            println!(
                "{number} name {} links {} to {}",
                link.name, link.from, link.to
            );
        }
    }
    Ok(())
}

fn print_levels(order: &Order) {
    let levels: String = order
        .levels()
        .iter()
        .map(|level| format!(" {level}"))
        .collect();
    println!("levels{levels}");
}

/// Prints the program's line for the book and for each question.
fn ask_all(tables: &Tables) {
    let counts = tables.counts();
    println!("book {} {} {}", counts.states, counts.moves, counts.depth);
    for (number, (role, chain)) in QUESTIONS.into_iter().enumerate() {
        match tables.ask(role, chain) {
            Ok(true) => println!("{number} yes"),
            Ok(false) => println!("{number} no"),
            Err(refusal) => println!("{number} refused {}", refusal.cause.number()),
        }
    }
}

/// Prints the program's line for a refused book, and the refusal in words.
fn print_refusal(refusal: Refusal) {
    println!("book refused {} {}", refusal.cause.number(), refusal.value);
    println!("{refusal}");
}
