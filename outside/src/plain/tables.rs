//! The table builder: causes 9 to 11, the sizes, and the automata in document 01's numbering.
//! A fragment is document 01's copy of a role.

use super::book::{Book, MAX_NAMES, MAX_RULES};
use super::order::{self, Form};
use super::refusal::{Cause, Refusal};

pub const MAX_STATES: usize = 2048;
pub const MAX_TRANSITIONS: usize = 5120;
/// The label of a silent move.
pub const EPSILON: u16 = 128;

/// Where a rule's inner fragments stand in the fragment of its right role.
#[derive(Clone, Copy)]
enum Place {
    InitialToFinal,
    AtFinal,
    AtInitial,
}

impl Place {
    /// The place of the inverse rule.
    fn inverse(self) -> Place {
        match self {
            Place::InitialToFinal => Place::InitialToFinal,
            Place::AtFinal => Place::AtInitial,
            Place::AtInitial => Place::AtFinal,
        }
    }
}

/// A rule with inner roles; they stand in the book's bytes.
#[derive(Clone, Copy)]
struct Row {
    right: u8,
    place: Place,
    start: u16,
    length: u8,
}

/// What the fragments of a book are made of, by name: the rows with that name on the right (in book order), whether
/// the name is symmetric or transitive, and the size of its fragment. A role and its inverse have equal sizes.
struct Fragments<'a> {
    bytes: &'a [u8],
    rows: [Row; MAX_RULES],
    /// The rows of a name are those from its entry to the next one's.
    first_row: [u16; MAX_NAMES + 1],
    symmetric: u64,
    transitive: u64,
    /// 0 where not yet measured. Counts saturate: they may be far over the limits.
    states: [u32; MAX_NAMES],
    transitions: [u32; MAX_NAMES],
}

impl<'a> Fragments<'a> {
    /// Sorts the rules of a book that has an order by the name on the right.
    fn new(book: &Book<'a>) -> Fragments<'a> {
        let no_row = Row {
            right: 0,
            place: Place::InitialToFinal,
            start: 0,
            length: 0,
        };
        let mut fragments = Fragments {
            bytes: book.bytes(),
            rows: [no_row; MAX_RULES],
            first_row: [0; MAX_NAMES + 1],
            symmetric: 0,
            transitive: 0,
            states: [0; MAX_NAMES],
            transitions: [0; MAX_NAMES],
        };
        for number in 0..book.rules() {
            fragments.first_row[usize::from(book.rule(number).right >> 1) + 1] += 1;
        }
        for name in 0..book.names() {
            fragments.first_row[name + 1] += fragments.first_row[name];
        }
        let mut next = fragments.first_row;
        for number in 0..book.rules() {
            let name = usize::from(book.rule(number).right >> 1);
            fragments.rows[usize::from(next[name])] = fragments.row(book, number);
            next[name] += 1;
        }
        fragments
    }

    /// A rule as a row, with no inner role where it only says that its name is symmetric or transitive.
    fn row(&mut self, book: &Book, number: usize) -> Row {
        let rule = book.rule(number);
        let name = rule.right >> 1;
        let (form, inner) = Form::of(rule).expect("the book has an order");
        let start = book.left_start(number) + usize::from(form == Form::RightFirst);
        match form {
            Form::Transitive => self.transitive |= 1 << name,
            Form::Symmetric => self.symmetric |= 1 << name,
            _ => {}
        }
        Row {
            right: rule.right,
            place: match form {
                Form::RightFirst => Place::AtFinal,
                Form::RightLast => Place::AtInitial,
                _ => Place::InitialToFinal,
            },
            start: start as u16,
            length: inner.len() as u8,
        }
    }

    fn rows(&self, name: usize) -> std::ops::Range<usize> {
        usize::from(self.first_row[name])..usize::from(self.first_row[name + 1])
    }

    fn inner(&self, row: Row) -> &'a [u8] {
        let start = usize::from(row.start);
        &self.bytes[start..start + usize::from(row.length)]
    }

    fn is_symmetric(&self, name: usize) -> bool {
        self.symmetric >> name & 1 == 1
    }

    fn is_transitive(&self, name: usize) -> bool {
        self.transitive >> name & 1 == 1
    }

    /// Measures the fragment of a name, and those of all names below it.
    fn measure(&mut self, name: usize) {
        if self.states[name] != 0 {
            return;
        }
        let (mut states, mut transitions) = (0u32, 0u32);
        for index in self.rows(name) {
            let row = self.rows[index];
            if row.length == 0 {
                continue;
            }
            transitions = transitions.saturating_add(u32::from(row.length) + 1);
            for role in self.inner(row) {
                let inner = usize::from(role >> 1);
                self.measure(inner);
                states = states.saturating_add(self.states[inner]);
                transitions = transitions.saturating_add(self.transitions[inner]);
            }
        }
        let times = 1 + u32::from(self.is_symmetric(name));
        let own = times + u32::from(self.is_transitive(name));
        self.states[name] = states.saturating_mul(times).saturating_add(2);
        self.transitions[name] = transitions.saturating_mul(times).saturating_add(own);
    }

    /// The states and the transitions of all names together.
    fn measure_all(&mut self, names: usize) -> (u32, u32) {
        (0..names).fold((0, 0), |(states, transitions), name| {
            self.measure(name);
            (
                states.saturating_add(self.states[name]),
                transitions.saturating_add(self.transitions[name]),
            )
        })
    }
}

/// Writes transitions and numbers states in the order of document 01.
struct Writer<'a, 't> {
    fragments: &'a Fragments<'a>,
    transitions: &'t mut [[u16; 3]],
    states: u16,
    written: usize,
}

impl Writer<'_, '_> {
    fn put(&mut self, from: u16, label: u16, to: u16) {
        self.transitions[self.written] = [from, label, to];
        self.written += 1;
    }

    /// Writes a fragment of a role and returns its initial state; the final one is the next.
    fn fragment(&mut self, role: u8) -> u16 {
        let name = usize::from(role >> 1);
        let initial = self.states;
        self.states += 2;
        self.put(initial, u16::from(role), initial + 1);
        let symmetric = self.fragments.is_symmetric(name);
        if symmetric {
            self.put(initial, u16::from(role ^ 1), initial + 1);
        }
        if self.fragments.is_transitive(name) {
            self.put(initial + 1, EPSILON, initial);
        }
        self.rows_of(role, initial);
        if symmetric {
            self.rows_of(role ^ 1, initial);
        }
        initial
    }

    /// Writes the rows of a role's completed rules into the fragment that starts at `initial`.
    fn rows_of(&mut self, role: u8, initial: u16) {
        let fragments = self.fragments;
        for index in fragments.rows(usize::from(role >> 1)) {
            let row = fragments.rows[index];
            let inner = fragments.inner(row);
            if inner.is_empty() {
                continue;
            }
            if row.right == role {
                self.row(row.place, initial, inner.iter().copied());
            } else {
                let inverse = inner.iter().rev().map(|role| role ^ 1);
                self.row(row.place.inverse(), initial, inverse);
            }
        }
    }

    fn row(&mut self, place: Place, initial: u16, inner: impl Iterator<Item = u8>) {
        let (mut from, to) = match place {
            Place::InitialToFinal => (initial, initial + 1),
            Place::AtFinal => (initial + 1, initial + 1),
            Place::AtInitial => (initial, initial),
        };
        for role in inner {
            self.put(from, EPSILON, self.states);
            from = self.fragment(role) + 1;
        }
        self.put(from, EPSILON, to);
    }
}

/// Builds the tables of a book into the lent slices: the numbers of states and transitions and the depth, or the refusal
/// (causes 1 to 11), which leaves the slices as they were. Numbers after the tables keep their values.
pub fn build(
    book: &[u8],
    heads: &mut [u16],
    moves: &mut [u16],
) -> Result<(u64, u64, u64), Refusal> {
    build_if(book, heads, moves, |_| Ok(()))
}

/// The same, where one more check, of the number of names, passes after causes 1 to 11.
pub fn build_if(
    book: &[u8],
    heads: &mut [u16],
    moves: &mut [u16],
    check: impl FnOnce(usize) -> Result<(), Refusal>,
) -> Result<(u64, u64, u64), Refusal> {
    let book = Book::read(book)?;
    let depth = order::check(&book)?.depth();
    let mut fragments = Fragments::new(&book);
    let (states, transitions) = fragments.measure_all(book.names());
    if states as usize > MAX_STATES {
        return Err(Cause::States.into());
    }
    if transitions as usize > MAX_TRANSITIONS {
        return Err(Cause::Transitions.into());
    }
    if heads.len() < book.names() || moves.len() < 3 * transitions as usize {
        return Err(Cause::ShortTables.into());
    }
    check(book.names())?;
    let mut writer = Writer {
        fragments: &fragments,
        transitions: moves.as_chunks_mut().0,
        states: 0,
        written: 0,
    };
    for (name, head) in heads.iter_mut().enumerate().take(book.names()) {
        *head = writer.fragment(2 * name as u8);
    }
    Ok((u64::from(states), u64::from(transitions), depth as u64))
}
